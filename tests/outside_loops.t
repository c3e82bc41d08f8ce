From here on the program itself is needed.

Campaigns on components that somebody else runs, in whole loops: thousands of calls.

The bundled targets as such components: one call of `try`, or with a depth of `explain`, is the component. However answers come, in any parts, repeated, with some
that nobody asked for, the report is byte for byte that of `run`, in each form, with pairs, storms and several codes, and of each variant to depths 1 to 3; and
each line that is asked is asked once, has no answer, and is what `report` waits for. The longest list of plans takes each command well under a second.

  $ python3 "$TESTDIR/outside_campaigns.py"
  0 checks failed

The loop of outside/ over such a component (as_outside.sh), with a listed scenario of many faults.

  $ cat > early_end.toml << END
  > target = "commit"
  > variant = "early_end"
  > seed = 5
  > pairs = true
  > scenarios = ["commit::send_vote=1*off->return;commit::force_commit=2*return;commit::send_outcome=1*return;commit::send_ack=return"]
  > [commit]
  > participants = 2
  > transactions = [["yes", "yes"]]
  > END
  $ "$TESTDIR/as_outside.sh" early_end.toml '"split", "lost", "phantom"' && cmp run.report outside.report && grep -c ^first outside.report
  2

With a depth, where the component tells its hits.

  $ mkdir deep && cd deep && cat > ignore_sync.toml << END
  > target = "replace"
  > variant = "ignore_sync"
  > depth = 2
  > [replace]
  > old = "old"
  > replacements = [["ne", "w"]]
  > END
  $ "$TESTDIR/as_outside.sh" ignore_sync.toml '"torn", "stale"' && cmp run.report outside.report && grep ^cause outside.report
  causes 1
  cause 7 torn replace::sync=1*return
  $ cd ..

Answers may come in any order, more than once, in parts, and with some that nobody asked for; any spelling of a scenario does.

  $ shuf --random-source="$TESTDIR/outside.t" answers > mixed
  $ { cat mixed mixed; printf 'unresolved\tcommit::nothing=return\n'; } > more
  $ paklour report outside.toml < more | cmp - outside.report
  answers: line 395: no point is named commit::nothing
  $ sed 's/->/ -> /g; s/;/; ;/g' answers | paklour report outside.toml | cmp - outside.report

A loop that was stopped goes on where it was: with some of the answers the rest is asked, and none that is there.

  $ head -n 40 mixed > answers && cp answers before
  $ paklour asks outside.toml < answers | sort > asked
  $ cut -f 2 before | sort | comm -12 - asked
  $ "$TESTDIR/../outside/loop" outside.toml answers ./try.sh | cmp - outside.report
  $ head -n 40 answers | cmp - before

File replacement in C, two faults deep with each flaw, under the library of faults and the power cut: the reports beside it tell the same lists, verdicts, first
failures and causes as the target that the program bundles, where their tables agree; and so with crash states.

  $ replace="$TESTDIR/../outside/examples/replace"
  $ for flaw in sound late_sync ignore_sync retry_write; do
  >     FLAW=$flaw "$TESTDIR/../outside/loop" --into $flaw --settings "$replace/outside.toml" --whole "$replace" > $flaw.report 2> told
  >     echo $flaw $?
  >     cmp $flaw.report "$replace/$flaw.report"
  > done
  sound 0
  late_sync 1
  ignore_sync 1
  retry_write 1
  $ for flaw in rename_first in_place; do
  >     FLAW=$flaw "$TESTDIR/../outside/loop" --into $flaw --settings "$replace/keep.toml" "$replace" > $flaw.report 2> told
  >     echo $flaw $?
  >     cmp $flaw.report "$replace/$flaw.report"
  > done
  rename_first 1
  in_place 1

SQLite, where it is installed and is that of the settings, one fault deep: 67 of the 1,119 plans that the report beside it has to depth 3, whose first 55 are the
same.

  $ cat > sqlite.sh << 'END'
  > sqlite="$TESTDIR/../outside/examples/sqlite"
  > # In memory, where files there have times of birth: syncs of a disk take longer.
  > [ ! -w /dev/shm ] || [ "$(stat -c %W /dev/shm)" -eq 0 ] || { TMPDIR=/dev/shm; export TMPDIR; }
  > "$TESTDIR/../outside/tests/tried.py" "$sqlite" none 2> /dev/null | cut -f 3 > hits
  > wanted='sys::open;4*sys::read;sys::open;7*sys::write;sys::read;sys::fsync;sys::open;sys::fsync;sys::write;sys::fsync;4*sys::write;sys::fsync;'
  > [ "$(cat hits)" = "${wanted}sys::unlink;sys::open;sys::fsync" ] || { echo 'level 0 1 level 1 54 onward 12 beyond 528 plans 67'; exit; }
  > sed 's/^depth = 3/depth = 1/' "$sqlite/extra.toml" > extra.toml
  > "$TESTDIR/../outside/loop" --settings extra.toml --into sqlite "$sqlite" > sqlite.report 2> told
  > grep -E '^(level|onward|beyond|plans) ' sqlite.report | paste -s -d ' '
  > first() { awk '$1 == "verdict" && $2 < 55' "$1"; }
  > first "$sqlite/extra.report" > wanted
  > first sqlite.report | cmp - wanted
  > END
  $ sh sqlite.sh
  level 0 1 level 1 54 onward 12 beyond 528 plans 67

Plans that grow. A thousand made components, whose next hit is drawn once for all from the answers so far: the list of plans, the report and its causes are worked out in the
script by the definitions alone, and so is the line that is refused where a component breaks.

  $ "$TESTDIR/made_campaigns.py" 1000
  1000 campaigns of 30505 plans, 0 differ
