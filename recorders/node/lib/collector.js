'use strict';

const v8 = require('node:v8');
const vm = require('node:vm');
const { HeapAuditError } = require('./errors.js');

const MOST_TRIES = 5;

let found;

/** V8's own `gc`, also where node was started without `--expose-gc`. */
function gc() {
  if (found === undefined) {
    found = globalThis.gc;
    if (typeof found !== 'function') {
      v8.setFlagsFromString('--expose-gc');
      found = vm.runInNewContext('gc');
    }
  }
  return found;
}

/** Ends the current job. A `WeakRef` that was made or asked in a job keeps its object until the end of that job. */
function nextJob() {
  return new Promise((resolve) => setImmediate(resolve));
}

class GcauditProbe {}

function probe() {
  return new WeakRef(new GcauditProbe());
}

/** A full collection, in a job of its own; whether it ran is told by an object that nothing holds. */
async function collect() {
  const ref = probe();
  await nextJob();
  await nextJob();
  for (let tries = 0; tries < MOST_TRIES; tries++) {
    gc()();
    if (ref.deref() === undefined) {
      return;
    }
    await nextJob();
  }
  throw new HeapAuditError('V8 collects no garbage when it is asked to');
}

module.exports = { collect, nextJob };
