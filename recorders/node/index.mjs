import gcaudit from './index.js';

export const { HeapAudit, HeapAuditError, HeapViolation, audited, heapTest } = gcaudit;
export default gcaudit;
