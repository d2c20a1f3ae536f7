'use strict';

const { AssertionError } = require('node:assert');

/** An assertion is violated. */
class HeapViolation extends AssertionError {
  constructor(message, report) {
    super({ message });
    this.name = 'HeapViolation';
    this.report = report;
  }
}

/** No verdict was reached. */
class HeapAuditError extends Error {
  constructor(message, options) {
    super(message, options);
    this.name = 'HeapAuditError';
  }
}

module.exports = { HeapAuditError, HeapViolation };
