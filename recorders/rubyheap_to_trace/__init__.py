"""From a heap dump of Ruby (ObjectSpace.dump_all) to a trace for gcaudit. See README.md beside this file."""
