// More ways to hold an object too long, each with a twin that was let go: node more_leaks.js SNAPSHOT [clean]
'use strict';
const v8 = require('v8');
const { EventEmitter, once } = require('events');
const { AsyncLocalStorage, AsyncResource } = require('async_hooks');
const { PassThrough } = require('stream');
const { MessageChannel } = require('worker_threads');
const http = require('http');

const NAMES = ['OfOnceListener', 'OfAsyncLocalStorage', 'OfPendingAwait', 'OfStream', 'OfAgentQueue', 'OfPort', 'OfImmediate', 'OfTimeout',
  'OfAsyncGenerator', 'OfIterator', 'OfAbortSignal', 'OfRegistryValue', 'OfErrorCause', 'OfPrivateField', 'OfPrototype', 'OfGetter',
  'OfModuleCache', 'OfWeakRefKey', 'OfPromiseRace', 'OfSharedClosure', 'OfAsyncResource', 'OfProcessListener', 'OfDefaultArgument',
  'OfPropertyOfPrototype', 'OfClassOfObject', 'OfMethodOfPrototype'];
const classes = {};
for (const name of NAMES) {
  for (const prefix of ['', 'Released']) classes[prefix + name] = new Function('return class ' + prefix + name + ' { }')();
}
const app = { kept: [], bus: new EventEmitter(), storage: new AsyncLocalStorage(), never: new Promise(() => { }), controller: new AbortController(),
  registry: new FinalizationRegistry(() => { }), target: { }, key: { }, weak: new WeakMap(), agent: new http.Agent({ maxSockets: 0 }) };
globalThis.app = app;
class Hidden { #held; constructor(held) { this.#held = held; } forget() { this.#held = null; } }

function keep(what) {
  app.kept.push(what);
  return () => app.kept.splice(app.kept.indexOf(what), 1);
}

function hold(name, held) {
  switch (name) {
    case 'OfOnceListener': { const on = () => held; app.bus.once('never', on); return () => app.bus.removeListener('never', on); }
    case 'OfAsyncLocalStorage': { let timer; app.storage.run(held, () => { timer = setTimeout(() => { }, 1e8); }); return () => clearTimeout(timer); }
    case 'OfPendingAwait': { let end; const wait = new Promise((done) => { end = done; }); (async () => { await wait; return held; })(); app[name] = wait;
      return () => { end(); delete app[name]; }; }
    case 'OfStream': { const stream = new PassThrough({ objectMode: true }); stream.write(held); return keep(stream); }
    case 'OfAgentQueue': { const waiting = []; app.agent.requests[name] = waiting; waiting.push({ held }); return () => { delete app.agent.requests[name]; }; }
    case 'OfPort': { const { port1, port2 } = new MessageChannel(); port1.onmessage = () => held; app[name] = port2; return () => { port1.close(); delete app[name]; }; }
    case 'OfImmediate': { app[name] = { immediate: setImmediate(() => held) }; const of = app[name]; return () => { clearImmediate(of.immediate); delete app[name]; }; }
    case 'OfTimeout': { const timer = setTimeout((inner) => inner, 1e8, held); return () => clearTimeout(timer); }
    case 'OfAsyncGenerator': { const made = (async function* (inner) { yield 1; return inner; })(held); made.next(); return keep(made); }
    case 'OfIterator': return keep([held][Symbol.iterator]());
    case 'OfAbortSignal': { const on = () => held; app.controller.signal.addEventListener('abort', on); return () => app.controller.signal.removeEventListener('abort', on); }
    case 'OfRegistryValue': { const token = { }; app.registry.register(app.target, held, token); return () => app.registry.unregister(token); }
    case 'OfErrorCause': return keep(new Error('failed', { cause: held }));
    case 'OfPrivateField': { const hidden = new Hidden(held); app.kept.push(hidden); return () => hidden.forget(); }
    case 'OfPrototype': return keep(Object.create(held));
    case 'OfGetter': { const of = { }; Object.defineProperty(of, 'value', { get: () => held }); return keep(of); }
    case 'OfModuleCache': { const id = '/made/' + name; require.cache[id] = { id, exports: { held } }; return () => { delete require.cache[id]; }; }
    case 'OfWeakRefKey': { app.weak.set(app.key, { of: held }); return () => app.weak.delete(app.key); }
    case 'OfPromiseRace': { let end; const raced = new Promise((done) => { end = done; }); Promise.race([raced]).then(() => held); app[name] = raced;
      return () => { end(); delete app[name]; }; }
    case 'OfSharedClosure': { const used = () => held; const small = () => 1; used(); return keep(small); }
    case 'OfAsyncResource': { const resource = new AsyncResource(name); resource.bound = resource.runInAsyncScope.bind(resource, () => held); return keep(resource); }
    case 'OfProcessListener': { const on = () => held; process.on('warning', on); return () => process.removeListener('warning', on); }
    case 'OfPropertyOfPrototype': return keep(Object.create(Object.create({ held })));
    case 'OfClassOfObject': { class Local { static kept = held; } return keep(new Local()); }
    case 'OfMethodOfPrototype': { class Local { get() { return held; } } return keep([new Local()]); }
    case 'OfDefaultArgument': return keep(((inner) => (given = inner) => given)(held));
  }
}

function run(prefix, ends) {
  for (const name of NAMES) {
    const end = hold(name, new classes[prefix + name]());
    if (ends) end();
  }
}

run('Released', true);
setTimeout(() => {
  if (process.argv[3] !== 'clean') run('', false);
  v8.writeHeapSnapshot(process.argv[2]);
  process.exit(0);
}, 50);
