The forms of a report by answers: `report` takes `--json`, `--junit` and `--page` beside `--brief`. The component is a bundled target, and one call of `try`
gives each answer; so what each form has to say is what `run` writes of that target. Of a JSON document that is all but its last member, `about`: the
settings and the command are others, and of runs that is told what answers tell.

  $ cat > late.toml <<'END'
  > target = "replace"
  > variant = "late_sync"
  > seed = 7
  > [replace]
  > old = "old"
  > replacements = [["ne", "w"]]
  > END
  $ "$TESTDIR/as_outside.sh" late.toml '"torn", "stale"'
  $ told() { form=$1; paklour report "--$form" outside.toml < answers > "told.$form" || echo "status $?"; }
  $ told brief && paklour run --brief late.toml | cmp - told.brief
  status 1
  $ told json
  status 1
  $ report_of() { sed '/^  "about": {$/,$d' "$1"; }
  $ paklour run --json late.toml > late.json
  [1]
  $ report_of late.json > late.report; report_of told.json | cmp - late.report
  $ told junit && paklour run --junit late.toml | cmp - told.junit
  status 1

Parsers of JSON and of XML read in them what the text says. Of six sites the fourth is the sync, one is hit twice, and each hit has three plans: 19.

  $ paklour plans outside.toml > plans
  $ python3 "$TESTDIR/machines.py" outside.report plans told.json told.junit
  19 plans

These answers don't tell what a run hits: no run is told, and that of the one finding is `null`. The page has the brief report and the document of the same
answers.

  $ sed -n '/"clean_run"/,$p' told.json
      "clean_run": null,
      "finding_runs": [
        null
      ],
      "cause_runs": []
    }
  }
  $ told page
  status 1
  $ python3 "$TESTDIR/page.py" told.page told.brief told.json
  paklour report --page FILE < ANSWERS
  0 differences

With a depth answers tell what a run hits, so each is explained as the target explains it; but nobody knows the limit of a component that somebody else runs.

  $ sed '/^seed/a depth = 2' late.toml > deep.toml
  $ "$TESTDIR/as_outside.sh" deep.toml '"torn", "stale"'
  $ cut -f 2 answers | while read -r scenario; do
  >     paklour report --explain "$scenario" outside.toml < answers > told
  >     paklour explain --scenario "${scenario#none}" deep.toml | grep -v '^stopped limit$' | cmp - told && echo same
  > done | sort | uniq -c | tr -s ' '
   19 same

Pairs, plans that are drawn, listed scenarios with many faults, and two codes.

  $ sed '/^seed/a pairs = true\nstorms = 20\nrate = 300\nscenarios = ["replace::write=return(<&>);replace::sync=return"]' late.toml | sed 's/late/ignore/' > more.toml
  $ "$TESTDIR/as_outside.sh" more.toml '"torn", "stale"'
  $ for form in brief junit; do told $form; paklour run "--$form" more.toml | cmp - told.$form; done
  status 1
  status 1
  $ told json; paklour run --json more.toml > more.json
  status 1
  [1]
  $ report_of more.json > more.report; report_of told.json | cmp - more.report
  $ told page; python3 "$TESTDIR/page.py" told.page told.brief told.json
  status 1
  paklour report --page FILE < ANSWERS
  0 differences

Nothing is written where something is still to be tried, in no form; and each of two points has a name that XML and HTML have to spell out.

  $ cat > odd.toml <<'END'
  > target = "outside"
  > seed = 3
  > scenarios = ["<&>=return"]
  > [outside]
  > label = "\"odd\" & <b>"
  > codes = ["l>st"]
  > points = ["<&>", "'"]
  > hits = [1, 0]
  > END
  $ for form in brief json junit page; do paklour report --$form odd.toml < /dev/null; echo $?; done
  not answered none
  2
  not answered none
  2
  not answered none
  2
  not answered none
  2
  $ printf 'pass\tnone\nfail l>st\t<&>=1*return\nunresolved\t<&>=return\npass\t<&>=1*panic\n' > answers
  $ paklour report --json odd.toml < answers > odd.json
  [1]
  $ python3 - <<'END'
  > import json
  > document = json.load(open("odd.json"))
  > print(document["label"], document["seed"], document["census"], document["counts"])
  > print(*document["not_passed"], *document["findings"], sep="\n")
  > END
  "odd" & <b> 3 [{'point': '<&>', 'hits': 1}, {'point': "'", 'hits': 0}] {'plans': 5, 'pass': 2, 'fail': 1, 'unresolved': 2}
  {'number': 1, 'verdict': 'fail', 'code': 'l>st', 'scenario': '<&>=1*return'}
  {'number': 2, 'verdict': 'unresolved', 'code': None, 'scenario': '<&>=return'}
  {'number': 4, 'verdict': 'unresolved', 'code': None, 'scenario': '<&>=return'}
  {'number': 1, 'code': 'l>st', 'scenario': '<&>=1*return', 'reduced': '<&>=1*return', 'tests': 1}
  $ for form in brief junit page; do paklour report --$form odd.toml < answers > odd.$form; done
  [1]
  $ python3 - <<'END'
  > import xml.etree.ElementTree as xml
  > suite = xml.parse("odd.junit").getroot()[0]
  > print(suite.attrib)
  > print(*(case.get("name") for case in suite if len(case)), sep="\n")
  > END
  {'name': '"odd" & <b>', 'tests': '5', 'failures': '1', 'errors': '0', 'skipped': '2'}
  plan 1 <&>=1*return
  plan 2 <&>=return
  plan 4 <&>=return
  $ python3 "$TESTDIR/page.py" odd.page odd.brief odd.json
  paklour report --page FILE < ANSWERS
  0 differences

What a report doesn't show is told beside each form, on standard error.

  $ paklour report --page --strict odd.toml < answers > page
  strict: 2 of 5 plans unresolved
  strict: no hit without faults of '
  [1]

One form at most is written.

  $ paklour report --json --page odd.toml < answers
  error: the argument '--json' cannot be used with '--page'
  
  Usage: paklour report [OPTIONS] <FILE>
  
  For more information, try '--help'.
  [2]
  $ paklour report --page --junit --brief odd.toml < answers 2>&1 | head -n 1
  error: the argument '--brief' cannot be used with '--junit'
