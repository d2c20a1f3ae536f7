// What TypeScript allows with the package, and what it refuses: a line that it would allow after all is an error too.
import gcaudit, { HeapAudit, HeapAuditError, HeapViolation, audited, heapTest } from 'gcaudit';

class Session {
  private constructor(readonly user: string) {}

  static login(user: string): Session {
    return new Session(user);
  }
}

abstract class Shape {}

async function check(): Promise<number> {
  const heap: HeapAudit = new HeapAudit({ seconds: 60, mayBeEmpty: true });
  const session = Session.login('ada');
  heap.assertDead(session);
  heap.assertUnshared([session]);
  heap.assertOwnedBy(new Map([[session.user, session]]), session);
  heap.assertInstances(Session, 1);
  heap.assertInstances(Shape, 0);
  const visits: number = await heap.region(async () => 7, { ignore: ['Metric'] });
  await heap.check();
  await heap.check();
  heap.abandon();
  // @ts-expect-error: a text is no object
  heap.assertDead('ada');
  // @ts-expect-error: the limit is missing
  heap.assertInstances(Session);
  // @ts-expect-error: there is no such option
  new HeapAudit({ second: 60 });
  return visits;
}

const answer: Promise<string> = audited((heap) => {
  heap.assertDead(Session.login('bob'));
  return 'done';
});
const test: (...args: any[]) => Promise<void> = heapTest((heap) => heap.assertDead({}));

answer.catch((error: unknown) => {
  if (error instanceof HeapViolation) {
    const report: string = error.report;
    console.log(report, error.code);
  } else if (error instanceof HeapAuditError || error instanceof gcaudit.HeapAuditError) {
    console.log(error.message);
  }
});

void check;
void test;
