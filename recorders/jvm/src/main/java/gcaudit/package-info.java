/**
 * Assertions about what is reachable in the heap of the running program, after E. Aftandilian and S. Guyer,
 * "GC Assertions: Using the Garbage Collector to Check Heap Properties" (2009). See {@link gcaudit.HeapAudit}.
 */
package gcaudit;
