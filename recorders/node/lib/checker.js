'use strict';

const { spawn } = require('node:child_process');
const fs = require('node:fs');
const os = require('node:os');
const path = require('node:path');
const v8 = require('node:v8');
const { HeapAuditError, HeapViolation } = require('./errors.js');

const MOST_SECONDS = 1800;
const HEAD = /^checked (\d+) assertions at collection (\d+): (\d+) violations\n/;
const LAST = /^end gcs (\d+) violations \d+$/;
const LEFT_OUT = /the heap has more objects than gcaudit takes.*/;
const TRACE = 'heap.jsonl';
const CARRIED = path.join(__dirname, 'recorders.zip');
const BUNDLED = path.join(__dirname, 'programs', `${process.platform}-${process.arch}`, 'run_bundled');
const OF_REPOSITORY = path.join(__dirname, '..', '..');

/**
 * Writes snapshots of the heap for the checks of an audit, and has them read and audited by processes of their own. The trace of
 * the checks before is kept for the next one, which continues it.
 */
class GcauditChecker {
  #options;
  #keep;
  #earlier; // the folder with the trace of the checks before
  #isClosed = false;

  constructor(options) {
    this.#options = options;
    this.#keep = options.keep ?? process.env.GCAUDIT_KEEP;
  }

  async check(lines) {
    const folder = newFolder(this.#keep);
    let isChecked = false;
    try {
      await audit(lines, this.#options, folder, this.#earlier, this.#keep ? `\nThe snapshot, its trace and the report are in ${folder}` : '');
      isChecked = true;
    } catch (error) {
      isChecked = error instanceof HeapViolation;
      throw error;
    } finally {
      this.#end(folder, isChecked && !this.#isClosed);
    }
  }

  /** Of a folder that isn't kept the trace alone stays, for the next check. */
  #end(folder, isNeeded) {
    if (isNeeded) {
      this.deleteTraces();
      this.#earlier = folder;
    }
    if (!this.#keep) {
      for (const name of fs.readdirSync(folder)) {
        if (name !== TRACE || !isNeeded) {
          fs.rmSync(path.join(folder, name), { recursive: true, force: true });
        }
      }
      if (!isNeeded) {
        fs.rmdirSync(folder);
      }
    }
  }

  /** No check follows. */
  close() {
    this.#isClosed = true;
    this.deleteTraces();
  }

  /** Deletes the trace of the checks before, where it isn't kept. */
  deleteTraces() {
    if (this.#earlier !== undefined && !this.#keep) {
      fs.rmSync(this.#earlier, { recursive: true, force: true });
    }
    this.#earlier = undefined;
  }
}

function newFolder(keep) {
  try {
    if (keep) {
      fs.mkdirSync(keep, { recursive: true });
      return fs.mkdtempSync(path.join(path.resolve(keep), 'audit-'));
    }
    return fs.mkdtempSync(path.join(os.tmpdir(), 'gcaudit-'));
  } catch (error) {
    throw new HeapAuditError(`no folder for the heap snapshot can be made: ${error.message}`, { cause: error });
  }
}

async function audit(lines, options, folder, earlier, where) {
  try {
    fs.writeFileSync(path.join(folder, 'marks.jsonl'), lines.map((line) => `${JSON.stringify(line)}\n`).join(''));
    v8.writeHeapSnapshot(path.join(folder, 'heap.heapsnapshot'));
  } catch (error) {
    throw new HeapAuditError(`no heap snapshot could be written: ${error.message}`, { cause: error });
  }
  const status = await run(options, folder, earlier);
  const said = fs.readFileSync(path.join(folder, 'report.txt'), 'utf8');
  const head = HEAD.exec(said);
  const last = LAST.exec(lastLine(said));
  const isWhole = head !== null && last !== null && last[1] === head[2] && Number(head[1]) === lines.length;
  if (!isWhole || (status !== 0 && status !== 1) || (status === 0) !== (head[3] === '0')) {
    const reason = lastLine(fs.readFileSync(path.join(folder, 'errors.txt'), 'utf8')) || 'nothing was said';
    throw new HeapAuditError(`the heap could not be audited (status ${status}): ${reason}${where}`);
  }
  if (status === 1) {
    const report = said.replace(HEAD, '');
    throw new HeapViolation(`gcaudit found a violation:\n${report.trim()}${leftOut(folder)}${where}`, report);
  }
}

/** What the reader said of types that it left out, as a line; empty where the heap isn't too large. */
function leftOut(folder) {
  const found = LEFT_OUT.exec(fs.readFileSync(path.join(folder, 'errors.txt'), 'utf8'));
  return found === null ? '' : `\n${found[0]}`;
}

function lastLine(text) {
  return text.trimEnd().split('\n').pop();
}

/** Runs the reader of snapshots, which runs gcaudit. The answer is its status. */
function run(options, folder, earlier) {
  const python = options.python ?? process.env.GCAUDIT_PYTHON ?? 'python3';
  const seconds = Number(options.seconds ?? process.env.GCAUDIT_SECONDS ?? MOST_SECONDS);
  const words = ['-B', '-m', 'heapsnapshot_to_trace.marked'];
  words.push(...['heap.heapsnapshot', 'marks.jsonl', TRACE].map((name) => path.join(folder, name)));
  if (earlier !== undefined) {
    words.push('--after', path.join(earlier, TRACE));
  }
  const files = ['report.txt', 'errors.txt'].map((name) => fs.openSync(path.join(folder, name), 'w'));
  return new Promise((resolve, reject) => {
    const child = spawn(python, words, { stdio: ['ignore', ...files], env: environment(options) });
    let isLate = false;
    const timer = setTimeout(() => {
      isLate = true;
      child.kill('SIGKILL');
    }, seconds * 1000);
    child.on('error', (error) => {
      clearTimeout(timer);
      reject(new HeapAuditError(`Python could not be run, which reads the snapshot: put its path into the variable GCAUDIT_PYTHON (${error.message})`));
    });
    child.on('close', (status, signal) => {
      clearTimeout(timer);
      if (isLate) {
        reject(new HeapAuditError(`the heap was not audited within ${seconds} seconds; the variable GCAUDIT_SECONDS allows more`));
      } else {
        resolve(status ?? signal);
      }
    });
  }).finally(() => files.forEach((file) => fs.closeSync(file)));
}

/**
 * The environment of the reader: with the recorders that are named, else those that the package or the repository has; and with
 * the program gcaudit that is named, else the one that the package has, else that on the path.
 */
function environment(options) {
  const found = { ...process.env };
  let place = options.recorders ?? process.env.GCAUDIT_RECORDERS;
  if (place === undefined) {
    place = [CARRIED, path.join(OF_REPOSITORY, 'heapsnapshot_to_trace')].find((one) => fs.existsSync(one));
    place = place === CARRIED || place === undefined ? place : OF_REPOSITORY;
  }
  if (place !== undefined) {
    found.PYTHONPATH = found.PYTHONPATH ? path.resolve(place) + path.delimiter + found.PYTHONPATH : path.resolve(place);
  }
  if (options.program !== undefined) {
    found.GCAUDIT = path.resolve(options.program);
  } else if (!found.GCAUDIT && fs.existsSync(BUNDLED)) {
    found.GCAUDIT = BUNDLED;
  }
  return found;
}

module.exports = { GcauditChecker };
