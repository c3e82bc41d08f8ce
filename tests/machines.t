`--json` and `--junit` write a report for programs: a JSON document, and JUnit's XML, as docs/MACHINES.md tells them. What is expected was
worked out by hand from there, and from docs/TARGETS.md and the order of plans: none; each site's fault once, from then on, and a panic.

  $ cat > small.toml <<'END'
  > target = "replace"
  > seed = 7
  > [replace]
  > old = "old"
  > replacements = [["ne", "w"]]
  > END
  $ sed '1a variant = "late_sync"' small.toml > late.toml

Of six sites the fourth is the sync. Where it comes too late its three plans leave a torn file.

  $ paklour run --json late.toml
  {
    "version": 1,
    "label": "replace late_sync",
    "seed": "7",
    "clean": {
      "verdict": "pass",
      "code": null
    },
    "census": [
      {
        "point": "replace::clear",
        "hits": 0
      },
      {
        "point": "replace::create",
        "hits": 1
      },
      {
        "point": "replace::write",
        "hits": 2
      },
      {
        "point": "replace::sync",
        "hits": 1
      },
      {
        "point": "replace::rename",
        "hits": 1
      },
      {
        "point": "replace::sync_dir",
        "hits": 1
      },
      {
        "point": "replace::unlink",
        "hits": 0
      }
    ],
    "counts": {
      "plans": 19,
      "pass": 16,
      "fail": 3,
      "unresolved": 0
    },
    "not_passed": [
      {
        "number": 10,
        "verdict": "fail",
        "code": "torn",
        "scenario": "replace::sync=1*return"
      },
      {
        "number": 11,
        "verdict": "fail",
        "code": "torn",
        "scenario": "replace::sync=return"
      },
      {
        "number": 12,
        "verdict": "fail",
        "code": "torn",
        "scenario": "replace::sync=1*panic"
      }
    ],
    "findings": [
      {
        "number": 10,
        "code": "torn",
        "scenario": "replace::sync=1*return",
        "reduced": "replace::sync=1*return",
        "tests": 1
      }
    ],
    "growth": null,
    "about": {
      "program_version": "0.9.0",
      "told_by": "target",
      "command": "paklour run --json FILE",
      "settings": "target = \"replace\"\nvariant = \"late_sync\"\nseed = 7\n[replace]\nold = \"old\"\nreplacements = [[\"ne\", \"w\"]]\n",
      "storms": [],
      "listed": [],
      "grown": [],
      "clean_run": {
        "explained": "verdict pass\nhit 1 replace::create 1 go\nhit 2 replace::write 1 go\nhit 3 replace::write 2 go\nhit 4 replace::rename 1 go\nhit 5 replace::sync_dir 1 go\nhit 6 replace::sync 1 go\n"
      },
      "finding_runs": [
        {
          "explained": "verdict fail torn\nhit 1 replace::create 1 go\nhit 2 replace::write 1 go\nhit 3 replace::write 2 go\nhit 4 replace::rename 1 go\nhit 5 replace::sync_dir 1 go\nhit 6 replace::sync 1 return\n"
        }
      ],
      "cause_runs": []
    }
  }
  [1]

  $ paklour run --junit late.toml
  <?xml version="1.0" encoding="UTF-8"?>
  <testsuites>
  <testsuite name="replace late_sync" tests="19" failures="3" errors="0" skipped="0">
  <testcase classname="replace late_sync" name="plan 0 none"/>
  <testcase classname="replace late_sync" name="plan 1 replace::create=1*return"/>
  <testcase classname="replace late_sync" name="plan 2 replace::create=return"/>
  <testcase classname="replace late_sync" name="plan 3 replace::create=1*panic"/>
  <testcase classname="replace late_sync" name="plan 4 replace::write=1*return"/>
  <testcase classname="replace late_sync" name="plan 5 replace::write=return"/>
  <testcase classname="replace late_sync" name="plan 6 replace::write=1*panic"/>
  <testcase classname="replace late_sync" name="plan 7 replace::write=1*off-&gt;1*return"/>
  <testcase classname="replace late_sync" name="plan 8 replace::write=1*off-&gt;return"/>
  <testcase classname="replace late_sync" name="plan 9 replace::write=1*off-&gt;1*panic"/>
  <testcase classname="replace late_sync" name="plan 10 replace::sync=1*return"><failure type="torn" message="fail torn">scenario replace::sync=1*return
  reduced replace::sync=1*return
  tests 1
  </failure></testcase>
  <testcase classname="replace late_sync" name="plan 11 replace::sync=return"><failure type="torn" message="fail torn">scenario replace::sync=return
  </failure></testcase>
  <testcase classname="replace late_sync" name="plan 12 replace::sync=1*panic"><failure type="torn" message="fail torn">scenario replace::sync=1*panic
  </failure></testcase>
  <testcase classname="replace late_sync" name="plan 13 replace::rename=1*return"/>
  <testcase classname="replace late_sync" name="plan 14 replace::rename=return"/>
  <testcase classname="replace late_sync" name="plan 15 replace::rename=1*panic"/>
  <testcase classname="replace late_sync" name="plan 16 replace::sync_dir=1*return"/>
  <testcase classname="replace late_sync" name="plan 17 replace::sync_dir=return"/>
  <testcase classname="replace late_sync" name="plan 18 replace::sync_dir=1*panic"/>
  </testsuite>
  </testsuites>
  [1]

A run that comes to nothing is skipped. After three hits there are three sites; four are asked where the second write fails and is cleaned up
after, and with no fault.

  $ sed '1a max_hits = 3' small.toml > short.toml
  $ paklour run --junit short.toml | sed -n '/<testsuite /p;/ 0 none/p;/ 7 /p'
  <testsuite name="replace sound" tests="10" failures="0" errors="0" skipped="3">
  <testcase classname="replace sound" name="plan 0 none"><skipped message="unresolved"/></testcase>
  <testcase classname="replace sound" name="plan 7 replace::write=1*off-&gt;1*return"><skipped message="unresolved"/></testcase>
  $ paklour run --json short.toml | sed -n '/"clean"/,/}/p;/"counts"/,/}/p'
    "clean": {
      "verdict": "unresolved",
      "code": null
    },
    "counts": {
      "plans": 10,
      "pass": 7,
      "fail": 0,
      "unresolved": 3
    },

Parsers of JSON and of XML read in them what the text says that people read, of each target, with pairs, storms, and a depth.

  $ compared() {
  >     paklour run "$1" > report || test $? -eq 1
  >     paklour plans "$1" > plans
  >     paklour run --json "$1" > document || test $? -eq 1
  >     paklour run --junit "$1" > cases || test $? -eq 1
  >     python3 "$TESTDIR/machines.py" report plans document cases
  > }
  $ compared late.toml
  19 plans
  $ compared short.toml
  10 plans
  $ sed 's/late_sync"/&\ndepth = 2/' late.toml > grown.toml
  $ compared grown.toml
  19 plans
  $ printf '%s\n' 'target = "replace"' 'variant = "ignore_sync"' 'seed = 3' 'workers = 2' 'pairs = true' 'storms = 5' 'rate = 300' 'scenarios = ["replace::write=pause"]' '[replace]' 'old = "a"' 'replacements = [["b"]]' > pairs.toml
  $ compared pairs.toml | sed 's/[0-9]* plans/so many plans/'
  so many plans
  $ printf '%s\n' 'target = "maildir"' 'variant = "link_first"' '[maildir]' 'messages = [["hi"]]' > mail.toml
  $ compared mail.toml | sed 's/[0-9]* plans/so many plans/'
  so many plans
  $ printf '%s\n' 'target = "commit"' 'variant = "early_end"' 'depth = 1' '[commit]' 'participants = 2' 'transactions = [["yes", "yes"], ["yes", "no"]]' > commit.toml
  $ compared commit.toml | sed 's/[0-9]* plans/so many plans/'
  so many plans

Exit statuses, and what is told beside, are those of the text.

  $ paklour run --json small.toml | tail -n 1
  }
  $ paklour run --junit --strict short.toml > /dev/null
  strict: clean unresolved
  strict: 3 of 10 plans unresolved
  strict: no run reaches replace::clear
  strict: no run reaches replace::sync
  strict: no run reaches replace::rename
  strict: no run reaches replace::sync_dir
  [5]
  $ paklour run --junit --strict late.toml > cases
  strict: no run reaches replace::clear
  [1]
  $ paklour run --json < small.toml | head -n 2
  {
    "version": 1,
  $ sed 's/^seed.*/seed = -1/' small.toml | paklour run --json
  settings: out of range seed
  [2]

A report is written in one form.

  $ paklour run --json --junit small.toml
  error: the argument '--json' cannot be used with '--junit'
  
  Usage: paklour run [OPTIONS] [FILE]
  
  For more information, try '--help'.
  [2]
  $ paklour run --junit --brief small.toml 2>&1 | head -n 1
  error: the argument '--brief' cannot be used with '--junit'
  $ paklour run small.toml --json --brief 2>&1 | head -n 1
  error: the argument '--brief' cannot be used with '--json'
  $ paklour run --brief --json --junit small.toml 2>&1 | head -n 1
  error: the argument '--brief' cannot be used with '--json'
  $ paklour page --junit small.toml 2>&1 | head -n 1
  error: unexpected argument '--junit' found
