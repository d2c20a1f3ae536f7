// A cache of texts, an array of numbers and a buffer, the larger the greater ROUNDS: node growing.js SNAPSHOT ROUNDS
'use strict';
const v8 = require('v8');

class Cache { constructor() { this.texts = new Map(); this.numbers = null; this.buffer = null; } }
const cache = new Cache();
globalThis.cache = cache;
const rounds = Number(process.argv[3]);
for (let at = 0; at < 100 * rounds; at++) cache.texts.set(at, ('x' + at).padEnd(10000, 'y').split('').reverse().join(''));
cache.numbers = new Array(250000 * rounds).fill(0.5);
cache.buffer = Buffer.alloc(3000000 * rounds);
setTimeout(() => v8.writeHeapSnapshot(process.argv[2]), 20);
