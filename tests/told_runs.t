Runs in the document of `--json`, hit by hit: that without faults, and that of each finding and each cause. Beside the run of a plan that grew by two faults or
more stands its parent's. Where answers tell runs, a run is `null` of which no answer tells the hits. What is expected was worked out by hand.

A component asks `a`, and then `b`; where `a` fails, it goes on with `c` in place of `b`. The plans are `none`, `a` and `b` with a return, `b` with a panic, and
behind the first of these `c`; behind them stands one that the settings list, which grew from none.

  $ cat > told.toml <<'END'
  > target = "outside"
  > seed = 5
  > depth = 2
  > scenarios = ["a=return(x)"]
  > [outside]
  > label = "a box"
  > codes = ["torn", "stale", "lost", "cold"]
  > points = ["a", "b", "c"]
  > [outside.kinds]
  > a = ["return"]
  > b = ["return", "panic"]
  > c = ["return"]
  > END
  $ line() { printf '%s\t%s\t%s\n' "$@"; }
  $ {
  >     line pass none 'a;b'
  >     line pass 'a=1*return' 'a;c'
  >     line 'fail torn' 'b=1*return' 'a;b'
  >     line 'fail stale' 'b=1*panic' 'a;b'
  >     line 'fail lost' 'a=1*return;c=1*return' 'a;c'
  >     line 'fail cold' 'a=return(x)' a
  > } > answers
  $ paklour asks told.toml < answers
  $ paklour report told.toml < answers | sed -n '/^verdict 0/,$p'
  verdict 0 pass
  verdict 1 pass
  verdict 2 fail torn
  verdict 3 fail stale
  verdict 4 fail lost
  verdict 5 fail cold
  first 2 torn
  scenario b=1*return
  reduced b=1*return
  tests 1
  first 3 stale
  scenario b=1*panic
  reduced b=1*panic
  tests 1
  first 4 lost
  scenario a=1*return;c=1*return
  reduced a=1*return;c=1*return
  tests 3
  first 5 cold
  scenario a=return(x)
  reduced a=return(x)
  tests 1
  causes 3
  cause 2 torn b=1*return
  cause 3 stale b=1*panic
  cause 4 lost a=1*return;c=1*return
  $ paklour report --json told.toml < answers > told.json
  [1]
  $ sed -n '/"grown"/,$p' told.json
      "grown": [
        "",
        "0 1 1*return",
        "1 1 1*return",
        "1 1 1*panic",
        "0 1 1*return; 2 1 1*return"
      ],
      "clean_run": {
        "explained": "verdict pass\nhit 1 a 1 go\nhit 2 b 1 go\n"
      },
      "finding_runs": [
        {
          "explained": "verdict fail torn\nhit 1 a 1 go\nhit 2 b 1 return\n"
        },
        {
          "explained": "verdict fail stale\nhit 1 a 1 go\nhit 2 b 1 panic\nstopped panic\n"
        },
        {
          "explained": "verdict fail lost\nhit 1 a 1 return\nhit 2 c 1 return\n",
          "parent": {
            "explained": "verdict pass\nhit 1 a 1 return\nhit 2 c 1 go\n"
          }
        },
        {
          "explained": "verdict fail cold\nhit 1 a 1 return(x)\n"
        }
      ],
      "cause_runs": [
        {
          "explained": "verdict fail torn\nhit 1 a 1 go\nhit 2 b 1 return\n"
        },
        {
          "explained": "verdict fail stale\nhit 1 a 1 go\nhit 2 b 1 panic\nstopped panic\n"
        },
        {
          "explained": "verdict fail lost\nhit 1 a 1 return\nhit 2 c 1 return\n",
          "parent": {
            "explained": "verdict pass\nhit 1 a 1 return\nhit 2 c 1 go\n"
          }
        }
      ]
    }
  }

The page has the same document in it, and each run is the one that `--explain` writes.

  $ paklour report --page told.toml < answers > told.page
  [1]
  $ paklour report --brief told.toml < answers > told.brief
  [1]
  $ python3 "$TESTDIR/page.py" told.page told.brief told.json
  paklour report --page FILE < ANSWERS
  0 differences
  $ paklour report --explain 'a=1*return;c=1*return' told.toml < answers
  verdict fail lost
  hit 1 a 1 return
  hit 2 c 1 return
  [1]

Without a depth an answer may tell hits or not, and no run has a parent. Of a run with 1,002 hits the first 1,000 have their lines, and what stopped it behind
these is told all the same.

  $ cat > long.toml <<'END'
  > target = "outside"
  > seed = 5
  > scenarios = ["a=return(x);b=1000*off->panic"]
  > [outside]
  > label = "a long box"
  > codes = ["torn", "cold"]
  > points = ["a", "b"]
  > hits = [1, 0]
  > END
  $ {
  >     line pass none a
  >     line pass 'a=1*return' a
  >     printf 'pass\ta=return\nfail torn\ta=1*panic\n'
  >     line 'fail cold' 'a=return(x);b=1000*off->panic' 'a;1001*b'
  >     printf 'pass\ta=return(x)\npass\tb=1000*off->panic\n'
  > } > answers
  $ paklour asks long.toml < answers
  $ paklour report --json long.toml < answers > long.json
  [1]
  $ cat > runs.py <<'END'
  > import json
  > about = json.load(open("long.json"))["about"]
  > print(about["clean_run"], about["cause_runs"])
  > untold, run = about["finding_runs"]
  > lines = run.pop("explained").splitlines()
  > print(untold, len(lines), *lines[:3], *lines[-2:], run, sep="\n")
  > END
  $ python3 runs.py
  {'explained': 'verdict pass\nhit 1 a 1 go\n'} []
  None
  1002
  verdict fail cold
  hit 1 a 1 return(x)
  hit 2 b 1 go
  hit 1000 b 999 go
  stopped panic
  {'left_out': 2}

Of a target that the program runs itself, each run is the one that `explain` writes. In this campaign each finding and each cause has three faults, of which the
last one stands behind the semicolon: 2 findings and 11 causes.

  $ deep="$TESTDIR/../examples/commit_depth.toml"
  $ paklour run --json "$deep" > deep.json
  [1]
  $ cat > each.py <<'END'
  > import json
  > document = json.load(open("deep.json"))
  > about, causes = document["about"], document["growth"]["causes"]
  > items = [*zip(document["findings"], about["finding_runs"]), *zip(causes, about["cause_runs"])]
  > for place, (item, run) in enumerate(items):
  >     for name, scenario, told in (("run", item["scenario"], run), ("parent", item["scenario"].split(";")[0], run["parent"])):
  >         with open(f"{name}.{place}", "w") as file:
  >             file.write(told["explained"])
  >         print(scenario, f"{name}.{place}")
  > END
  $ python3 each.py | while read -r scenario file; do
  >     paklour explain --scenario "$scenario" "$deep" | cmp - "$file" && echo "${file%.*}"
  > done | sort | uniq -c | tr -s ' '
   13 parent
   13 run
