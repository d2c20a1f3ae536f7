'use strict';

const { GcauditChecker } = require('./checker.js');
const { collect, nextJob } = require('./collector.js');
const { HeapAuditError } = require('./errors.js');
const { GcauditMark } = require('./marks.js');
const { lastObjectId } = require('./object_ids.js');

/** Lists of a type of their own, so that none of the program's types has more objects by an audit. */
class GcauditList extends Array {}
class GcauditSet extends Set {}

const open = new GcauditSet();
const atExit = Symbol('atExit');

process.on('exit', (status) => {
  let unchecked = 0;
  for (const audit of open) {
    unchecked += audit.unchecked;
    audit[atExit]();
  }
  if (unchecked > 0) {
    process.stderr.write(`gcaudit: ${unchecked} assertions were never checked: await check() of each HeapAudit\n`);
    process.exitCode = status || 1;
  }
});

/** What is asserted of a marked object. */
class GcauditAssertion {
  constructor(kind, mark, owner, limit) {
    this.kind = kind;
    this.mark = mark;
    this.owner = owner;
    this.limit = limit;
  }

  isMet() {
    return this.mark.isGone();
  }

  drop() {
    this.mark.drop();
    this.owner?.drop();
  }

  /** What stands in the file for the reader of snapshots. */
  line() {
    const found = { assert: this.kind, mark: this.mark.name, type: this.mark.type };
    if (this.owner !== undefined) {
      found.owner = this.owner.name;
      found['owner type'] = this.owner.type;
    }
    if (this.kind === 'instances') {
      found.limit = this.limit;
    }
    return found;
  }
}

/** Is allocated in each region, and stays: so the reader of snapshots sees that numbers go as allocations do. */
class GcauditProbe {}

/** What was allocated in a region, by the numbers of objects. */
class GcauditRegion {
  constructor(after, ignore) {
    this.after = after;
    this.last = after;
    this.ignore = ignore;
    this.probe = new GcauditProbe();
    this.mark = new GcauditMark(this.probe);
  }

  async end() {
    await collect();
    this.last = await lastObjectId();
  }

  isMet() {
    return false;
  }

  drop() {
    this.mark.drop();
  }

  line() {
    return { assert: 'allocated', after: this.after, last: this.last, ignore: this.ignore, mark: this.mark.name };
  }
}

/** Assertions about objects of the running program. */
class HeapAudit {
  #options;
  #checker;
  #assertions = new GcauditList();
  #wasAsserted = false;
  #isClosed = false;
  #openRegions = 0;
  unchecked = 0;

  constructor(options = {}) {
    this.#options = options;
    this.#checker = new GcauditChecker(options);
    open.add(this);
  }

  assertDead(object) {
    this.#add('dead', object);
  }

  assertUnshared(object) {
    this.#add('unshared', object);
  }

  assertOwnedBy(owner, object) {
    needObject(owner, 'an owner');
    if (owner === object) {
      throw new TypeError("an object can't own itself");
    }
    this.#add('ownedby', object, owner);
  }

  assertInstances(type, limit) {
    if (typeof type !== 'function' || type.prototype === undefined || !type.name) {
      throw new TypeError('a class with a name is wanted');
    }
    if (!Number.isInteger(limit) || limit < 0 || limit > 4294967295) {
      throw new RangeError(`a limit is a whole number from 0 on, not ${limit}`);
    }
    this.#add('instances', type, undefined, limit);
  }

  async region(work, { ignore = [] } = {}) {
    this.#needOpen();
    this.#openRegions++;
    let region;
    try {
      await collect();
      const ignored = GcauditList.from(ignore);
      region = new GcauditRegion(await lastObjectId(), ignored);
      return await work();
    } finally {
      if (region !== undefined) {
        await region.end();
        this.#note(region);
      }
      this.#openRegions--;
    }
  }

  async check() {
    this.#needOpen();
    if (this.#openRegions > 0) {
      throw new HeapAuditError('a region is open: await it before the check');
    }
    if (!this.#wasAsserted && !this.#options.mayBeEmpty) {
      throw new HeapAuditError('nothing was asserted, so this check would pass whatever the program does');
    }
    this.unchecked = 0;
    await collect();
    this.#dropMet();
    if (this.#assertions.length > 0) {
      await nextJob();
      await nextJob();
      await this.#checker.check(this.#assertions.map((assertion) => assertion.line()));
    }
  }

  abandon() {
    this.#isClosed = true;
    this.unchecked = 0;
    for (const assertion of this.#assertions) {
      assertion.drop();
    }
    this.#checker.close();
    open.delete(this);
  }

  /** The process ends: nothing of this audit stays but what is kept. */
  [atExit]() {
    this.#checker.deleteTraces();
  }

  #add(kind, object, owner, limit) {
    needObject(object, 'an object');
    this.#needOpen();
    this.#note(new GcauditAssertion(kind, new GcauditMark(object), owner && new GcauditMark(owner), limit));
  }

  #note(assertion) {
    this.#assertions.push(assertion);
    this.#wasAsserted = true;
    this.unchecked++;
  }

  #dropMet() {
    const left = new GcauditList();
    for (const assertion of this.#assertions) {
      if (assertion.isMet()) {
        assertion.drop();
      } else {
        left.push(assertion);
      }
    }
    this.#assertions = left;
  }

  #needOpen() {
    if (this.#isClosed) {
      throw new HeapAuditError('the audit is closed');
    }
  }
}

function needObject(object, what) {
  if ((typeof object !== 'object' && typeof object !== 'function') || object === null) {
    throw new TypeError(`${what} is wanted, not ${String(object)}`);
  }
}

/** Runs `work` with an audit that is checked when it is over. Where it fails, the heap isn't checked. */
async function audited(work, options) {
  const heap = new HeapAudit(options);
  try {
    const answer = await work(heap);
    await heap.check();
    return answer;
  } finally {
    heap.abandon();
  }
}

/** A function without parameters, since jest and mocha would wait for a callback otherwise. */
function heapTest(work, options) {
  return async function (...args) {
    await audited(async (heap) => {
      await work.call(this, heap, ...args);
    }, options);
  };
}

module.exports = { HeapAudit, audited, heapTest };
