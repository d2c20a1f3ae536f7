// Kinds of holder of an object of Node: each makes one hold the object, and answers what ends it.
'use strict';

const { AsyncLocalStorage, AsyncResource } = require('node:async_hooks');
const { EventEmitter } = require('node:events');
const { Readable, PassThrough } = require('node:stream');
const vm = require('node:vm');
const { HeapViolation, audited } = require(process.env.GCAUDIT_PACKAGE);

const place = {};
const kinds = {};

/** A kind whose holder stands in a property of `place`. */
function placed(name, make) {
  kinds[name] = (held) => {
    place[name] = make(held);
    return () => delete place[name];
  };
}

placed('property', (held) => ({ held }));
placed('property_by_symbol', (held) => ({ [Symbol('held')]: held }));
placed('hidden_property', (held) => Object.defineProperty({}, 'held', { value: held }));
placed('getter', (held) => Object.defineProperty({}, 'held', { get: () => held }));
placed('prototype', (held) => Object.create(held));
placed('nested', (held) => ({ a: [{ b: held }] }));
placed('array', (held) => [1, held]);
placed('sparse_array', (held) => Object.assign([], { 100000000: held }));
placed('arguments', (held) => (function () { return arguments; })(held));
placed('many_properties', (held) => Object.fromEntries([...Array(2000).keys()].map((n) => [`p${n}`, held])));
placed('private_field', (held) => new (class Keeps { #held = held; get() { return this.#held; } })());
placed('static_field', (held) => class Keeps { static held = held; });
placed('frozen', (held) => Object.freeze({ held }));
placed('key_of_a_map', (held) => new Map([[held, 1]]));
placed('value_of_a_map', (held) => new Map([[1, held]]));
placed('element_of_a_set', (held) => new Set([held]));
placed('iterator_of_an_array', (held) => [held][Symbol.iterator]());
placed('iterator_of_a_map', (held) => new Map([[1, held]]).entries());
placed('value_of_a_weak_map', (held) => {
  const key = {};
  return { key, map: new WeakMap([[key, held]]) };
});
placed('token_of_a_finalization', (held) => {
  const registry = new FinalizationRegistry(() => {});
  const target = {};
  registry.register(target, held);
  return { registry, target };
});
placed('closure', (held) => () => held);
placed('shared_context', (held) => {
  const other = 1;
  (() => held)();
  return () => other;
});
placed('bound_this', (held) => function () {}.bind(held));
placed('bound_argument', (held) => function () {}.bind(null, held));
placed('default_parameter', (held) => (value = held) => value);
placed('property_of_a_function', (held) => Object.assign(() => {}, { held }));
placed('generator', (held) => {
  const generator = (function* (value) { yield 1; yield value; })(held);
  generator.next();
  return generator;
});
placed('async_generator', (held) => {
  const generator = (async function* (value) { yield 1; yield value; })(held);
  generator.next();
  return generator;
});
placed('async_function', (held) => {
  let wake;
  const sleep = new Promise((resolve) => (wake = resolve));
  const done = (async (value) => { await sleep; return value; })(held);
  return { wake, done };
});
placed('resolved_promise', (held) => Promise.resolve(held));
placed('rejected_promise', (held) => {
  const rejected = Promise.reject(held);
  rejected.catch(() => {});
  return rejected;
});
placed('pending_promise', (held) => {
  let resolve;
  new Promise((wanted) => (resolve = wanted)).then(() => held);
  return resolve;
});
placed('combined_promises', (held) => {
  const pending = new Promise(() => {});
  Promise.all([held, pending]);
  return pending;
});
placed('proxy_target', (held) => new Proxy(held, {}));
placed('proxy_handler', (held) => new Proxy({}, { held }));
placed('error', (held) => Object.assign(new Error('held'), { held }));
placed('cause_of_an_error', (held) => new Error('held', { cause: held }));
placed('aggregate_error', (held) => new AggregateError([held]));
placed('regexp', (held) => Object.assign(/a/, { held }));
placed('date', (held) => Object.assign(new Date(), { held }));
placed('typed_array', (held) => Object.assign(new Uint8Array(4), { held }));
placed('buffer', (held) => Object.assign(Buffer.alloc(4), { held }));
placed('emitter', (held) => new EventEmitter().on('news', () => held));
placed('once_of_an_emitter', (held) => new EventEmitter().once('news', () => held));
placed('event_target', (held) => {
  const target = new EventTarget();
  target.addEventListener('news', () => held);
  return target;
});
placed('abort_signal', (held) => {
  const abort = new AbortController();
  abort.signal.addEventListener('abort', () => held);
  return abort;
});
placed('reason_of_an_abort', (held) => AbortSignal.abort(held));
placed('stream', (held) => {
  const stream = new PassThrough({ objectMode: true });
  stream.write(held);
  return stream;
});
placed('source_of_a_stream', (held) => Readable.from([held]));
placed('async_resource', (held) => Object.assign(new AsyncResource('held'), { held }));
placed('snapshot_of_a_context', (held) => new AsyncLocalStorage().run(held, () => AsyncResource.bind(() => {})));
placed('context_of_vm', (held) => vm.createContext({ held }));
kinds.global_variable = (held) => {
  globalThis.heldByHolders = held;
  return () => delete globalThis.heldByHolders;
};
kinds.state_of_a_module = (held) => {
  exports.held = held;
  return () => delete exports.held;
};
kinds.cache_of_modules = (held) => {
  require.cache.heldByHolders = { exports: held };
  return () => delete require.cache.heldByHolders;
};
kinds.timeout = (held) => {
  const timer = setTimeout(() => held, 3600000);
  return () => clearTimeout(timer);
};
kinds.interval = (held) => {
  const timer = setInterval(() => held, 3600000).unref();
  return () => clearInterval(timer);
};
kinds.listener_of_the_process = (held) => {
  const listener = () => held;
  process.on('SIGUSR2', listener);
  return () => process.off('SIGUSR2', listener);
};
kinds.message_port = (held) => {
  const { port1, port2 } = new MessageChannel();
  port1.onmessage = () => held;
  return () => {
    port1.close();
    port2.close();
    port1.onmessage = null;
  };
};

/** An object of a class of its own for each kind, so that the report tells which. */
function heldBy(name) {
  return new (vm.runInThisContext(`(class Held_${name} {})`))();
}

function hold(heap, undo) {
  for (const name of Object.keys(kinds)) {
    const held = heldBy(name);
    undo.push(kinds[name](held));
    heap.assertDead(held);
  }
}

async function main() {
  console.log(`kinds ${Object.keys(kinds).join(' ')}`);
  const undo = [];
  await audited(async (heap) => {
    hold(heap, undo);
    try {
      await heap.check();
    } catch (error) {
      console.log(error instanceof HeapViolation ? error.message : error);
    }
    while (undo.length > 0) {
      undo.pop()();
    }
  });
  console.log('all are gone');
  process.exit(0);
}

main();
