// A heap of more objects than gcaudit takes. A session is held by one of them; when it is let go, nothing is violated.
'use strict';

const { HeapViolation, audited } = require(process.env.GCAUDIT_PACKAGE);

class Entry {
  attached = null;
}
class Session {}
class Config {}

const log = Array.from({ length: 1_100_000 }, () => new Entry());
globalThis.log = log;
globalThis.config = new Config();

function visit(heap) {
  const session = new Session();
  log[500_000].attached = session;
  heap.assertDead(session);
  heap.assertUnshared(globalThis.config);
}

async function said(work) {
  try {
    await audited(work);
    console.log('clean');
  } catch (error) {
    if (!(error instanceof HeapViolation)) {
      throw error;
    }
    console.log(error.message);
  }
}

(async () => {
  await said(visit);
  await said((heap) => {
    visit(heap);
    log[500_000].attached = null;
  });
})();
