'use strict';

const v8 = require('node:v8');
const { HeapAuditError } = require('./errors.js');

const NODES = '"nodes":[';

let isWarm = false;

/**
 * The greatest number that an object of this process has by now in its snapshots. An object that is allocated later has a
 * greater one. V8 numbers objects when it makes a snapshot; of this one only the numbers are read, and nothing is written.
 */
async function lastObjectId() {
  if (!isWarm) {
    isWarm = true;
    await read(); // what node sets up for the first snapshot is no object of a region
  }
  return read();
}

function read() {
  return new Promise((resolve, reject) => {
    const snapshot = v8.getHeapSnapshot();
    let head = '';
    let ids;
    let isDone = false;
    snapshot.on('data', (chunk) => {
      if (isDone) {
        return;
      }
      let text = String(chunk);
      if (ids === undefined) {
        head += text;
        const start = head.indexOf(NODES);
        if (start < 0) {
          return;
        }
        ids = new GcauditIds(head.slice(0, start));
        text = head.slice(start + NODES.length);
        head = '';
      }
      if (ids.read(text)) {
        isDone = true;
        snapshot.destroy();
      }
    });
    snapshot.on('error', reject);
    snapshot.on('close', () => {
      if (isDone && ids.at >= 0) {
        resolve(ids.last);
      } else {
        reject(new HeapAuditError('the snapshots of this version of V8 have no numbers of objects that are known'));
      }
    });
  });
}

/** Reads the numbers of the nodes of a snapshot, piece by piece. Even ones are of what node itself has outside of V8's heap. */
class GcauditIds {
  constructor(head) {
    const fields = /"node_fields":\[([^\]]*)\]/.exec(head)?.[1].split(',').map((field) => field.replaceAll('"', '').trim());
    this.width = fields?.length ?? 0;
    this.at = fields?.indexOf('id') ?? -1;
    this.field = 0;
    this.number = 0;
    this.last = 0;
  }

  /** Takes a piece; the answer is whether the nodes end in it. */
  read(text) {
    for (let place = 0; place < text.length; place++) {
      const sign = text.charCodeAt(place);
      if (sign >= 48 && sign <= 57) {
        this.number = this.number * 10 + sign - 48;
      } else if (sign === 44 || sign === 93) {
        if (this.field === this.at && this.number % 2 === 1 && this.number > this.last) {
          this.last = this.number;
        }
        this.field = (this.field + 1) % this.width;
        this.number = 0;
        if (sign === 93) {
          return true;
        }
      }
    }
    return false;
  }
}

module.exports = { lastObjectId };
