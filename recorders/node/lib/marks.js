'use strict';

const { randomBytes } = require('node:crypto');

/**
 * The registry of marks: a `WeakRef` of each object under a name that no other property of the program has. The reader of
 * snapshots finds the objects by these names, so they are part of the format.
 */
const prefix = `gcaudit ${randomBytes(12).toString('hex')} `;
const registry = Object.create(null);
let last = 0;

/** An object of which something is asserted, held weakly. */
class GcauditMark {
  constructor(object) {
    this.name = prefix + ++last;
    this.type = typeName(object);
    registry[this.name] = new WeakRef(object);
  }

  /** Whether the object is gone. The question keeps a living one until the end of the job. */
  isGone() {
    return registry[this.name].deref() === undefined;
  }

  /** Nothing is asserted any longer. */
  drop() {
    delete registry[this.name];
  }
}

/** How the reader of snapshots would call the type of an object, more or less. */
function typeName(object) {
  if (typeof object === 'function') {
    return `function ${object.name}`.trim();
  }
  const type = Object.getPrototypeOf(object)?.constructor;
  return typeof type === 'function' && type.name ? String(type.name) : 'Object';
}

module.exports = { GcauditMark };
