// Tests of a shop, one of which leaks by the variable LEAKS, and one of which asserts nothing by the variable EMPTY.
import { createRequire } from 'node:module';

const { heapTest } = createRequire(import.meta.url)(process.env.GCAUDIT_PACKAGE);
const test = globalThis.it ?? (await import('node:test')).test; // that of mocha, or of node itself

class Session {}

class Bus {
  listeners = [];
}

const bus = new Bus();
globalThis.bus = bus;

test(
  'the session is gone',
  heapTest((heap) => {
    const session = new Session();
    bus.listeners.push(session);
    if (!process.env.LEAKS) {
      bus.listeners.pop();
    }
    if (!process.env.EMPTY) {
      heap.assertDead(session);
    }
    return session;
  }),
);

test(
  'there is one bus',
  heapTest((heap) => {
    heap.assertInstances(Bus, 1);
  }),
);
