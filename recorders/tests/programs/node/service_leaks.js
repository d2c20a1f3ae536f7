// Twelve leaks that services have, and for each the mended twin. Each scenario answers the object that must be gone after it.
'use strict';

const { AsyncLocalStorage } = require('node:async_hooks');
const { EventEmitter } = require('node:events');
const http = require('node:http');
const { PassThrough } = require('node:stream');
const { Worker } = require('node:worker_threads');
const { HeapViolation, audited } = require(process.env.GCAUDIT_PACKAGE);

const scenarios = {};

// ---- a session whose listener isn't taken away

class Session {
  hear() {}
}

const bus = new EventEmitter();

scenarios.emitter = (leaks) => {
  const session = new Session();
  const listener = () => session.hear();
  bus.on('news', listener);
  if (!leaks) {
    bus.off('news', listener);
  }
  return session;
};

// ---- a callback that is kept, and closes over a window

class Window {}

const onQuit = [];

scenarios.closure = (leaks) => {
  const window = new Window();
  onQuit.push(() => window);
  if (!leaks) {
    onQuit.pop();
  }
  return window;
};

// ---- a watch whose timer isn't cleared

class Watch {
  look() {}
}

scenarios.timer = (leaks) => {
  const watch = new Watch();
  const timer = setInterval(() => watch.look(), 3600000);
  timer.unref();
  if (!leaks) {
    clearInterval(timer);
  }
  return watch;
};

// ---- a request that waits for an answer that never comes

class Order {}

const waiting = [];

scenarios['pending promise'] = (leaks) => {
  const order = new Order();
  new Promise((resolve) => waiting.push(resolve)).then(() => order);
  if (!leaks) {
    waiting.pop()();
  }
  return order;
};

// ---- what a request puts into its context, and a timer of that request keeps

class RequestContext {}

const contexts = new AsyncLocalStorage();

scenarios['async local storage'] = (leaks) => {
  const context = new RequestContext();
  const timer = contexts.run(context, () => setTimeout(() => {}, 3600000));
  timer.unref();
  if (!leaks) {
    clearTimeout(timer);
  }
  return context;
};

// ---- a customer who is stored under one name and taken away under another

class Customer {}

const customers = new Map();

scenarios.map = (leaks) => {
  const customer = new Customer();
  customers.set('Bob', customer);
  customers.delete(leaks ? 'bob' : 'Bob');
  return customer;
};

// ---- a stream that is never read to its end

class Upload {}

const streams = new Set();

scenarios.stream = (leaks) => {
  const upload = new Upload();
  const stream = new PassThrough({ objectMode: true });
  stream.write(upload);
  streams.add(stream);
  if (!leaks) {
    stream.destroy();
    streams.delete(stream);
  }
  return upload;
};

// ---- a request that was given up while it waited in an agent for a connection: the agent keeps it

class Download {}

const agents = { true: new http.Agent({ maxSockets: 1 }), false: new http.Agent() };
const server = http.createServer(() => {});

scenarios['agent of http'] = async (leaks) => {
  const download = new Download();
  const request = http.get({ agent: agents[leaks], port: server.address().port }, () => download);
  const closed = new Promise((resolve) => request.on('error', () => {}).on('close', resolve));
  request.destroy();
  if (!leaks) {
    await closed;
  }
  return download;
};

// ---- a cache without a limit

class Page {}

class Cache extends Map {
  constructor(most) {
    super();
    this.most = most;
  }

  add(number, page) {
    this.set(number, page);
    if (this.size > this.most) {
      this.delete(this.keys().next().value);
    }
  }
}

const caches = {};

scenarios.cache = (leaks) => {
  const cache = (caches[leaks] = new Cache(leaks ? Infinity : 10));
  const first = new Page();
  cache.add(0, first);
  for (let number = 1; number < 20; number++) {
    cache.add(number, new Page());
  }
  return first;
};

// ---- the state of a module, which is never replaced

class State {}

scenarios['state of a module'] = (leaks) => {
  const state = new State();
  exports.state = { last: state };
  if (!leaks) {
    exports.state = undefined;
  }
  return state;
};

// ---- a WeakMap whose key is a part of its value and is held elsewhere

class Element {}

class Bindings {
  constructor(element) {
    this.element = element;
  }
}

const bindings = new WeakMap();
const handlers = [];

scenarios['weak map'] = (leaks) => {
  const element = new Element();
  const bound = new Bindings(element);
  bindings.set(element, bound);
  handlers.push(element);
  if (!leaks) {
    handlers.pop();
  }
  return bound;
};

// ---- a message to a worker that never answers

class Task {}

const calls = new Map();
let worker;

scenarios['worker message'] = async (leaks) => {
  const task = new Task();
  const call = leaks ? 'lost' : 'echo';
  const answer = new Promise((resolve) => calls.set(call, { task, resolve }));
  worker.postMessage(call);
  if (!leaks) {
    await answer;
  }
  return task;
};

const work = `
  const { parentPort } = require('node:worker_threads');
  parentPort.on('message', (call) => call === 'echo' && parentPort.postMessage(call));
`;

async function assertDead(heap, leaks) {
  for (const name of Object.keys(scenarios)) {
    heap.assertDead(await scenarios[name](leaks));
  }
}

async function main() {
  worker = new Worker(work, { eval: true });
  worker.on('message', (call) => {
    calls.get(call).resolve();
    calls.delete(call);
  });
  await new Promise((resolve) => server.listen(0, '127.0.0.1', resolve));
  http.get({ agent: agents.true, port: server.address().port }).on('error', () => {});
  for (const leaks of [false, true]) {
    try {
      await audited(async (heap) => {
        await assertDead(heap, leaks);
        await heap.check();
        console.log('no violation');
        heap.assertInstances(EventEmitter, 1000);
      });
      console.log('no violation');
    } catch (error) {
      console.log(error instanceof HeapViolation ? error.message : error);
    }
  }
  process.exit(0);
}

main();
