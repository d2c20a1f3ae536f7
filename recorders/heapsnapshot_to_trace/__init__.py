"""From a heap snapshot of V8 (Node, Chromium) to a trace for gcaudit. See README.md beside this file."""
