`--brief` writes a report with one line of counts in place of the verdicts that pass, and beside each other verdict its scenario. What is
expected was worked out by hand from docs/TARGETS.md and the order of plans: none; each site's fault once, from then on, and a panic.

  $ cat > small.toml <<'END'
  > target = "replace"
  > seed = 7
  > [replace]
  > old = "old"
  > replacements = [["ne", "w"]]
  > END
  $ sed '1a variant = "late_sync"' small.toml > late.toml

Of six sites the fourth is the sync. Where it comes too late its three plans leave a torn file.

  $ paklour run --brief late.toml
  target replace late_sync
  seed 7
  clean pass
  census replace::clear 0
  census replace::create 1
  census replace::write 2
  census replace::sync 1
  census replace::rename 1
  census replace::sync_dir 1
  census replace::unlink 0
  plans 19
  counts pass 16 unresolved 0 torn 3
  verdict 10 fail torn replace::sync=1*return
  verdict 11 fail torn replace::sync=return
  verdict 12 fail torn replace::sync=1*panic
  first 10 torn
  scenario replace::sync=1*return
  reduced replace::sync=1*return
  tests 1
  [1]

Where all plans pass there is the line of counts alone.

  $ paklour run --brief small.toml | tail -n 3
  plans 19
  counts pass 19 unresolved 0
  first none

A run that comes to nothing is told too. After three hits there are three sites; four are asked where the second write fails and is cleaned
up after, and with no fault.

  $ sed '1a max_hits = 3' small.toml | paklour run --brief | sed -n '/^clean/p;/^plans/,$p'
  clean unresolved
  plans 10
  counts pass 7 unresolved 3
  verdict 0 unresolved none
  verdict 7 unresolved replace::write=1*off->1*return
  verdict 8 unresolved replace::write=1*off->return
  first none

All lines but these are those of the whole report.

  $ paklour run late.toml | grep -v ^verdict > whole
  $ paklour run --brief late.toml | grep -v -e ^verdict -e ^counts | cmp - whole

`report` has the same form, over the answers of a component that somebody else runs.

  $ printf '%s\n' 'target = "outside"' '[outside]' 'label = "a store"' 'codes = ["lost"]' 'points = ["a"]' 'hits = [1]' > outside.toml
  $ printf '%s\n' 'pass	none' 'fail lost	a=1*return' 'unresolved	a=return' 'pass	a=1*panic' > answers
  $ paklour report --brief outside.toml < answers
  target a store
  seed 0
  clean pass
  census a 1
  plans 4
  counts pass 2 unresolved 1 lost 1
  verdict 1 fail lost a=1*return
  verdict 2 unresolved a=return
  first 1 lost
  scenario a=1*return
  reduced a=1*return
  tests 1
  [1]

The report that docs/MACHINES.md shows: of examples/replace_depth.toml, whose whole report stands beside it.

  $ awk '/^```/ { if (inside) exit; inside = $0 == "```text"; next } inside' "$TESTDIR/../docs/MACHINES.md" > shown
  $ paklour run --brief "$TESTDIR/../examples/replace_depth.toml" | diff shown -
  $ grep -vE '^verdict |^counts ' shown > shown_alike
  $ grep -vE '^verdict ' "$TESTDIR/../examples/replace_depth.toml.stdout" | diff shown_alike -
