'use strict';

const { HeapAudit, audited, heapTest } = require('./lib/heap_audit.js');
const { HeapAuditError, HeapViolation } = require('./lib/errors.js');

module.exports = { HeapAudit, HeapAuditError, HeapViolation, audited, heapTest };
