// Fourteen ways to hold an object too long, each with a twin that was let go: node leaks.js SNAPSHOT
'use strict';
const v8 = require('v8');
const { EventEmitter } = require('events');

const NAMES = ['OfGlobal', 'InArray', 'InMap', 'InSet', 'OfClosure', 'OfListener', 'OfInterval', 'OfPromise', 'OfWeakMapValue', 'OfStaticField',
  'OfGenerator', 'OfProxy', 'OfBoundFunction', 'OfSymbol'];
const classes = {};
for (const name of NAMES) {
  for (const prefix of ['', 'Released']) classes[prefix + name] = new Function('return class ' + prefix + name + ' { }')();
}
class Cache { }
class Key { }
const app = {
  list: [], map: new Map(), set: new Set(), closures: [], bus: new EventEmitter(), timers: [], promises: [], weak: new WeakMap(), key: new Key(),
  generators: [], proxies: [], bound: [], bySymbol: {},
};
globalThis.app = app;
const SYMBOL = Symbol('held');

function hold(name, held) {
  switch (name) {
    case 'OfGlobal': globalThis.held = held; return () => { delete globalThis.held; };
    case 'InArray': app.list.push(held); return () => app.list.pop();
    case 'InMap': app.map.set(held, 1); return () => app.map.clear();
    case 'InSet': app.set.add(held); return () => app.set.clear();
    case 'OfClosure': app.closures.push(closureOf(held)); return () => app.closures.pop();
    case 'OfListener': { const on = closureOf(held); app.bus.on('event', on); return () => app.bus.off('event', on); }
    case 'OfInterval': { const timer = setInterval(closureOf(held), 1e9); return () => clearInterval(timer); }
    case 'OfPromise': { const never = new Promise(() => { }); never.then(closureOf(held)); app.promises.push(never); return () => app.promises.pop(); }
    case 'OfWeakMapValue': app.weak.set(app.key, held); return () => app.weak.delete(app.key);
    case 'OfStaticField': Cache.held = held; return () => { Cache.held = null; };
    case 'OfGenerator': { const made = (function* (inner) { yield; return inner; })(held); made.next(); app.generators.push(made); return () => app.generators.pop(); }
    case 'OfProxy': app.proxies.push(new Proxy(held, {})); return () => app.proxies.pop();
    case 'OfBoundFunction': app.bound.push(function () { }.bind(held)); return () => app.bound.pop();
    case 'OfSymbol': app.bySymbol[SYMBOL] = held; return () => { delete app.bySymbol[SYMBOL]; };
  }
}

function closureOf(held) { return () => held; }

function run() {
  app.cache = Cache;
  for (const name of NAMES) hold(name, new classes['Released' + name]())();
  for (const name of NAMES) hold(name, new classes[name]());
}

run();
setTimeout(() => { v8.writeHeapSnapshot(process.argv[2]); process.exit(0); }, 50);
