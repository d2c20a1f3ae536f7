"""From a heap dump of a JVM to a trace for gcaudit. See README.md beside this file."""
