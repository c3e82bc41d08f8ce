# The programs of this harness source this file. unison names its archives by the paths of the replicas, which differ in each run, so it ignores them.
export UNISON="$PWD/archives" HOME="$TMPDIR" UNISONLOCALHOSTNAME=here

synchronize() { unison -ui text a b -batch -ignorearchives > "$TMPDIR/said" 2>&1; }
