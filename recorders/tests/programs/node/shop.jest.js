// Tests of a shop for jest, which takes CommonJS alone as it is. One of them leaks by the variable LEAKS.
'use strict';

const { heapTest } = require(process.env.GCAUDIT_PACKAGE);

const LONGEST = 1_800_000; // milliseconds

class Session {}

class Bus {
  listeners = [];
}

const bus = new Bus();
globalThis.bus = bus;

test(
  'the session is gone',
  heapTest((heap) => {
    const session = new Session();
    bus.listeners.push(session);
    if (!process.env.LEAKS) {
      bus.listeners.pop();
    }
    heap.assertDead(session);
  }),
  LONGEST,
);

test(
  'there is one bus',
  heapTest((heap) => {
    heap.assertInstances(Bus, 1);
  }),
  LONGEST,
);
