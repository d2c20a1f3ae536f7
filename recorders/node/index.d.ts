/** What an audit may be told. Each has an environment variable too, which is told in brackets. */
export interface HeapAuditOptions {
  /** The program gcaudit (GCAUDIT); without it the PATH tells it. */
  program?: string;
  /** Python 3.8 or newer, which reads snapshots (GCAUDIT_PYTHON); without it `python3`. */
  python?: string;
  /** The folder of the recorders in Python (GCAUDIT_RECORDERS); without it those that the package carries. */
  recorders?: string;
  /** A folder in which snapshots, traces and reports are kept (GCAUDIT_KEEP); without it they are deleted. */
  keep?: string;
  /** How many seconds an audit may take (GCAUDIT_SECONDS); without it 1800. */
  seconds?: number;
  /** It is no mistake where nothing was asserted. */
  mayBeEmpty?: boolean;
}

/** What a region may be told. */
export interface RegionOptions {
  /** How the names of types begin whose objects may stay. */
  ignore?: readonly string[];
}

/** Any class, also an abstract one or one whose constructor is private. */
export type Class = abstract new (...args: never[]) => object;

/** Assertions about objects of the running program. The objects are held weakly. */
export class HeapAudit {
  constructor(options?: HeapAuditOptions);
  /** The object must be gone at the check: nothing leads to it but weak references. */
  assertDead(object: object): void;
  /** One reference at most leads to the object. */
  assertUnshared(object: object): void;
  /** Where a root leads to the object past its owner, the owner leads to it too. */
  assertOwnedBy(owner: object, object: object): void;
  /** At most so many objects of exactly this class are reached. */
  assertInstances(type: Class | Function, limit: number): void;
  /** What is allocated while `work` runs must be gone at the check. The answer is that of `work`. */
  region<T>(work: () => T | Promise<T>, options?: RegionOptions): Promise<T>;
  /** Collects, and checks all that was asserted so far. */
  check(): Promise<void>;
  /** Ends the audit without a check. */
  abandon(): void;
}

/** Runs `work` with an audit that is checked when it is over. The answer is that of `work`. */
export function audited<T>(work: (heap: HeapAudit) => T | Promise<T>, options?: HeapAuditOptions): Promise<T>;

/** A function for `test` of node:test, `it` of mocha and `test` of jest: it runs `work` with an audit, and checks it then. */
export function heapTest(
  work: (heap: HeapAudit, ...args: any[]) => unknown,
  options?: HeapAuditOptions,
): (...args: any[]) => Promise<void>;

/** An assertion is violated. The message has the report, with a path for each group of violations. */
export class HeapViolation extends Error {
  name: 'HeapViolation';
  code: 'ERR_ASSERTION';
  /** The report of gcaudit, in groups and with properties named. */
  readonly report: string;
}

/** No verdict was reached, as where nothing was asserted or gcaudit isn't found. The message is a sentence for the user. */
export class HeapAuditError extends Error {
  name: 'HeapAuditError';
}

declare const gcaudit: {
  HeapAudit: typeof HeapAudit;
  HeapAuditError: typeof HeapAuditError;
  HeapViolation: typeof HeapViolation;
  audited: typeof audited;
  heapTest: typeof heapTest;
};
export default gcaudit;
