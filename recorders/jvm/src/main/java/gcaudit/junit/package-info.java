/** The extension for JUnit 5, {@link gcaudit.junit.HeapAuditExtension}. */
package gcaudit.junit;
