// Prints what the package for Node costs in a process of so many objects: costs.js OBJECTS. Each line is a name and seconds.
'use strict';

const fs = require('node:fs');
const v8 = require('node:v8');
const vm = require('node:vm');
const { HeapViolation, audited } = require(process.env.GCAUDIT_PACKAGE);

v8.setFlagsFromString('--expose-gc');
const gc = vm.runInNewContext('gc');

const ROUNDS = 5;
const TICKS = 100; // of the clock by which Linux counts processor time, in a second
const REGIONS = [0, 1_000, 100_000, 1_000_000];

class Item {
  constructor(next) {
    this.next = next;
  }
}
class Session {}

globalThis.items = null;
globalThis.left = [];

/** The processor time of this process and of those that it waited for. */
function seconds() {
  const stat = fs.readFileSync('/proc/self/stat', 'utf8');
  const fields = stat.slice(stat.lastIndexOf(')') + 2).split(' ');
  return fields.slice(11, 15).reduce((sum, field) => sum + Number(field), 0) / TICKS;
}

async function print(name, work) {
  const before = seconds();
  await work();
  console.log(`${name} ${(seconds() - before).toFixed(2)}`);
}

function assertDead(heap, leaks) {
  const session = new Session();
  if (leaks) {
    globalThis.left.push(session);
  }
  heap.assertDead(session);
}

async function find() {
  try {
    await audited((heap) => assertDead(heap, true));
  } catch (error) {
    if (error instanceof HeapViolation) {
      return;
    }
    throw error;
  }
  throw new Error('the leak was not found');
}

/** A region with its beginning and its end, which are told together; what it allocates takes a part of that. */
async function region(objects) {
  await audited(
    async (heap) => {
      await print(`region of ${objects}`, () =>
        heap.region(() => {
          for (let number = 0; number < objects; number++) {
            globalThis.left.push(new Session());
          }
        }),
      );
      heap.abandon();
    },
    { mayBeEmpty: true },
  ).catch(() => {});
  globalThis.left.length = 0;
}

(async () => {
  for (let number = Number(process.argv[2]); number > 0; number--) {
    globalThis.items = new Item(globalThis.items);
  }
  for (let round = 0; round < ROUNDS; round++) {
    await print('collection', gc);
    await print('well', () => audited((heap) => assertDead(heap, false)));
  }
  await print('finds', find);
  globalThis.left.length = 0;
  for (const objects of REGIONS) {
    await region(objects);
  }
})();
