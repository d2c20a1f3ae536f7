// A service whose event bus may keep a session that ended: node session_leak.js leak|clean SNAPSHOT [COUNT]
'use strict';
const v8 = require('v8');

class Session { constructor(name) { this.name = name; this.seen = []; } }
class EndedSession extends Session { }
class EventBus { constructor() { this.listeners = []; } }
class Config { }
class Box { constructor(item) { this.item = item; } }
class Item { }
class TreeNode { constructor() { this.left = null; this.right = null; } }
class Entry { constructor(at) { this.at = at; this.note = { text: 'text' + at }; } }

const leaks = process.argv[2] === 'leak';
const app = { bus: new EventBus(), sessions: new Map(), recent: [], config: new Config(), tree: new TreeNode(), box: null };
globalThis.app = app;

function serve() {
  app.sessions.set('ada', new Session('ada'));
  const session = new EndedSession('bob');
  const listener = (event) => session.seen.push(event);
  app.bus.listeners.push(listener);
  app.weak = new WeakRef(session);
  if (!leaks) app.bus.listeners.pop();
  app.box = new Box(new Item());
  if (leaks) { app.recent.push(app.box.item); app.box.item = null; app.second = new Config(); }
  app.tree.left = new TreeNode();
  app.tree.right = new TreeNode();
  app.tree.left.left = new TreeNode();
  if (leaks) app.tree.right.left = app.tree.left.left;
  app.entries = [];
  for (let at = 0; at < Number(process.argv[4] || 0); at++) app.entries.push(new Entry(at));
}

serve();
setTimeout(() => v8.writeHeapSnapshot(process.argv[3]), 20);
