// Sessions of which every object is of a subclass: node subclasses.js leak|clean SNAPSHOT
'use strict';
const v8 = require('v8');

class Session { }
class SessionProxy extends Session { }
class SessionMock extends SessionProxy { }
class Config { }
class OtherConfig extends Config { }
class Box { constructor(item) { this.item = item; } }
class BoxProxy extends Box { }
class Item { }
class ItemProxy extends Item { }
class Unused { }

const app = { kept: [], recent: [], box: null, classes: [Session, SessionMock, Unused] };
globalThis.app = app;
app.box = new BoxProxy(new ItemProxy());
app.kept.push(new Config());
if (process.argv[2] === 'leak') {
  app.kept.push(new SessionProxy(), new SessionMock(), new OtherConfig());
  app.recent.push(new ItemProxy());
}
setTimeout(() => v8.writeHeapSnapshot(process.argv[3]), 20);
