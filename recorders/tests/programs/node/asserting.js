// Each kind of assertion, violated and met, regions, and ways in which a check may reach no verdict.
'use strict';

const { HeapAudit, HeapViolation, audited } = require(process.env.GCAUDIT_PACKAGE);

class Config {}
class Node {}
class Item {}
class Orphan {}
class Entry {}
class Metric {}
class Scratch {}
class Box {
  constructor(item) {
    this.item = item;
  }
}

const left = [];
const recent = [];
globalThis.left = left;
globalThis.recent = recent;

/** By `more` each is violated. The objects are those of the lists alone when it ends. */
function kinds(heap, more) {
  const node = new Node();
  const item = new Item();
  const orphan = new Orphan();
  const box = new Box(item);
  const gone = new Box(orphan);
  left.push(new Config(), node, box);
  recent.push(item);
  heap.assertInstances(Config, 1);
  heap.assertUnshared(node);
  heap.assertOwnedBy(box, item);
  heap.assertOwnedBy(gone, orphan);
  if (more) {
    left.push(new Config());
    recent.push(node, orphan);
    box.item = undefined;
  }
}

function leak(heap, leaks) {
  const node = new Node();
  heap.assertDead(node);
  if (leaks) {
    left.push(node);
  }
}

async function handle(entries) {
  const scratch = new Scratch();
  await null;
  for (let number = 0; number < entries; number++) {
    left.push(new Entry());
  }
  left.push(new Metric());
  return scratch === undefined;
}

async function said(work) {
  try {
    await audited(work);
    console.log('clean');
  } catch (error) {
    if (!(error instanceof HeapViolation)) {
      throw error;
    }
    console.log(error.report);
  }
  left.length = 0;
  recent.length = 0;
}

const scenarios = {
  async kinds() {
    await said((heap) => kinds(heap, true));
    await said((heap) => kinds(heap, false));
  },
  async regions() {
    await handle(1);
    await said((heap) => heap.region(() => handle(0), { ignore: ['Metric'] }));
    await said(async (heap) => {
      await heap.region(() => handle(3), { ignore: ['Metric'] });
      left.push(new Entry());
    });
  },
  empty: () => audited(() => {}),
  unchecked() {
    leak(new HeapAudit(), true);
    leak(new HeapAudit(), true);
  },
  async leak() {
    await audited((heap) => leak(heap, true));
  },
  async well() {
    await audited((heap) => leak(heap, false));
    console.log('clean');
  },
};

Promise.resolve(scenarios[process.argv[2]]()).catch((error) => {
  console.log(`${error.name}: ${error.message}`);
  process.exitCode = 1;
});
