"""A start of Erlang looks for a hundred files, so the calls that may fail are those on the log and on what it is dumped into, by file."""

environment = {"FAULTS_POINTS": "file"}
