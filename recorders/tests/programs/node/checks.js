// Audits with several checks. Each prints the violations of each of its checks, or that it is clean.
'use strict';

const { HeapAudit, HeapViolation } = require(process.env.GCAUDIT_PACKAGE);

class Node {}
class Session {}
class Item {}
class Entry {}
class Metric {}
class Owner {
  constructor() {
    this.item = new Item();
  }
}

const left = [];
const recent = [];
globalThis.left = left;
globalThis.recent = recent;

async function check(heap) {
  try {
    await heap.check();
    console.log('clean');
  } catch (error) {
    if (!(error instanceof HeapViolation)) {
      throw error;
    }
    console.log(error.report);
  }
  console.log('----');
}

function makeNode(heap) {
  const node = new Node();
  left.push(node);
  heap.assertUnshared(node);
}

/** The node is shared between the two checks; by `mended` it isn't for long. */
async function lateLeak(mended) {
  const heap = new HeapAudit();
  makeNode(heap);
  await check(heap);
  recent.push(left[0]);
  if (mended) {
    recent.length = 0;
  }
  await check(heap);
  heap.abandon();
}

function makeSession(heap) {
  const session = new Session();
  recent.push(session);
  heap.assertDead(session);
}

function move() {
  const session = recent.pop();
  for (let number = 0; number < 50; number++) {
    recent.push(new Entry());
  }
  recent.push(session);
}

/** A session is there at two checks, the second of which finds it in an array that has grown, and gone at the third. */
async function gone() {
  const heap = new HeapAudit();
  makeNode(heap);
  makeSession(heap);
  await check(heap);
  move();
  await check(heap);
  recent.pop();
  await check(heap);
  heap.abandon();
}

function makeOwner(heap) {
  const owner = new Owner();
  left.push(owner);
  recent.push(owner.item);
  heap.assertOwnedBy(owner, owner.item);
}

/** An owner that is gone at the second check. */
async function owner() {
  const heap = new HeapAudit();
  makeOwner(heap);
  await check(heap);
  left.length = 0;
  await check(heap);
  await check(heap);
  heap.abandon();
}

/** What a region leaves behind is there at the first check, and gone at the second. */
async function region() {
  const heap = new HeapAudit();
  left.push(new Metric());
  await heap.region(async () => {
    await null;
    left.push(new Entry(), new Entry());
  });
  await check(heap);
  left.length = 1;
  await check(heap);
  heap.abandon();
}

const scenarios = {
  late: () => lateLeak(false),
  mended: () => lateLeak(true),
  gone,
  owner,
  region,
  async open() {
    const heap = new HeapAudit(); // never abandoned
    makeNode(heap);
    await check(heap);
  },
};

scenarios[process.argv[2]]();
