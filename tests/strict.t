`run --strict` writes the report that `run` writes, and tells on standard error what makes it say less than it seems to: a line each for a run
without faults that is unresolved, for plans that are, for a census without a hit, for storms that draw nothing, for points that no plan's
run reaches, and for names that no point has. Where a line is told and no verdict is fail, the status is 5. What is expected was worked out
by hand from docs/TARGETS.md.

  $ cat > small.toml <<'END'
  > target = "replace"
  > seed = 7
  > [replace]
  > old = "old"
  > replacements = [["ne", "w"]]
  > END
  $ same() { paklour run "$@" > plain; paklour run --strict "$@" > strict; status=$?; cmp plain strict; return $status; }

`clear` is asked where the file `tmp` of an earlier replacement is there. With one replacement there is none.

  $ same small.toml
  strict: no run reaches replace::clear
  [5]
  $ same --brief small.toml
  strict: no run reaches replace::clear
  [5]

With two, it takes a write and the `unlink` after it that both fail. `unlink` isn't asked without faults, so no plan lets it fail by itself.

  $ sed 's/= \[\[.*/= [["ne", "w"], ["er"]]/' small.toml > two.toml
  $ same two.toml
  strict: no run reaches replace::clear
  [5]
  $ sed '2a scenarios = ["replace::write=1*return;replace::unlink=1*return"]' two.toml > all.toml
  $ same all.toml

A limit of 3 hits ends the run without faults before its sync, and the two plans in which the second write fails before it is cleaned up.

  $ sed '2a max_hits = 3' small.toml > short.toml
  $ same short.toml
  strict: clean unresolved
  strict: 3 of 10 plans unresolved
  strict: no run reaches replace::clear
  strict: no run reaches replace::sync
  strict: no run reaches replace::rename
  strict: no run reaches replace::sync_dir
  [5]
  $ paklour run --brief short.toml | grep -v census
  target replace sound
  seed 7
  clean unresolved
  plans 10
  counts pass 7 unresolved 3
  verdict 0 unresolved none
  verdict 7 unresolved replace::write=1*off->1*return
  verdict 8 unresolved replace::write=1*off->return
  first none

Nothing to do, storms of rate 0, and a name that no point has.

  $ sed 's/= \[\[.*/= []/' small.toml > empty.toml
  $ same empty.toml
  strict: no hits without faults
  strict: no run reaches replace::clear
  strict: no run reaches replace::create
  strict: no run reaches replace::write
  strict: no run reaches replace::sync
  strict: no run reaches replace::rename
  strict: no run reaches replace::sync_dir
  strict: no run reaches replace::unlink
  [5]
  $ sed '2a storms = 3\nrate = 0' all.toml > still.toml
  $ same still.toml
  strict: storms of rate 0
  [5]
  $ sed 's/::unlink=1/::unlinked=1/' all.toml > named.toml
  $ same named.toml 2>&1 | sort -u
  settings: scenario 0: no point is named replace::unlinked
  strict: no run reaches replace::clear
  $ paklour run named.toml > plain
  settings: scenario 0: no point is named replace::unlinked

A control character of a listed scenario stands in the report as it is, so that what follows may look like a line of the report's own: that is noted, and counts.

  $ sed 's/^scenarios = ./&"replace::sync=print(\\nfirst 0 torn)", /' all.toml > forged.toml
  $ paklour run forged.toml 2>&1 > /dev/null
  settings: scenario 0: a control character: what follows it in the text may look like a line of its own
  $ paklour plans forged.toml 2> /dev/null | tail -n 3 | cut -d ' ' -f 3-
  replace::sync=print(
  torn)
  replace::write=1*return;replace::unlink=1*return
  $ paklour run --strict forged.toml 2>&1 > /dev/null
  settings: scenario 0: a control character: what follows it in the text may look like a line of its own
  [5]
  $ paklour try --scenario "replace::sync=print($(printf '\033'))" small.toml 2>&1 > /dev/null
  scenario: a control character: what follows it in the text may look like a line of its own

On standard error a key, a name or a word of answers has each control character as `\x` and two digits, so none begins a line or a command of the terminal.

  $ sed '1a "pears\\u001b[31m\\u009b\\nfirst none" = 1' small.toml | paklour run
  settings: unknown key pears\x1b[31m\x9b\x0afirst none
  [2]
  $ paklour try --scenario "evil$(printf '\033\177é')[2J=1*return" small.toml 2>&1 > /dev/null
  scenario: no point is named evil\x1b\x7fé[2J
  scenario: a control character: what follows it in the text may look like a line of its own
  $ printf 'target = "outside"\ndepth = 1\n[outside]\nlabel = "one"\ncodes = []\npoints = ["a"]\n' > one.toml
  $ printf 'pass\tnone\tb\r\n' | paklour asks one.toml
  answers: line 1: no such point "b\x0d"; points are a
  [2]

A failing plan's status is 1 all the same, what is refused 2, and a failed write 4.

  $ sed '1a variant = "late_sync"' small.toml > flawed.toml
  $ same flawed.toml
  strict: no run reaches replace::clear
  [1]
  $ sed '2a pears = true' small.toml | paklour run --strict
  settings: unknown key pears
  [2]
  $ paklour run --strict small.toml > /dev/full
  write failed after 0 bytes
  [4]
  $ paklour page --strict small.toml 2>&1 | head -n 1
  error: unexpected argument '--strict' found

`report --strict` tells of a component that somebody else runs what settings and answers say: unresolved answers, and points that aren't hit
without faults; which points the other runs reach, no answer tells. Names that no point has are told by `asks` and `report` in any case, of
the scenarios that settings list, numbered from 0 as where one is refused, and of the lines of answers, numbered from 1.

  $ cat > outside.toml <<'END'
  > target = "outside"
  > scenarios = ["b=1*panic", "c=return"]
  > [outside]
  > label = "two points"
  > codes = ["lost"]
  > points = ["a", "b"]
  > hits = [1, 0]
  > END
  $ paklour plans outside.toml 2>&1 > /dev/null
  settings: scenario 1: no point is named c
  $ paklour asks outside.toml < /dev/null
  none
  a=1*return
  a=return
  a=1*panic
  b=1*panic
  c=return
  settings: scenario 1: no point is named c
  $ printf 'pass\tnone\npass\ta=1*return\npass\ta=return\nunresolved\ta=1*panic\npass\tb=1*panic\npass\tc=return\npass\td=panic;a=panic\n' > answers
  $ paklour report --brief outside.toml < answers
  target two points
  seed 0
  clean pass
  census a 1
  census b 0
  plans 6
  counts pass 5 unresolved 1
  verdict 3 unresolved a=1*panic
  first none
  settings: scenario 1: no point is named c
  answers: line 6: no point is named c
  answers: line 7: no point is named d
  $ paklour report outside.toml < answers > plain 2> nothing
  $ paklour report --strict outside.toml < answers > strict
  settings: scenario 1: no point is named c
  answers: line 6: no point is named c
  answers: line 7: no point is named d
  strict: 1 of 6 plans unresolved
  strict: no hit without faults of b
  [5]
  $ cmp plain strict

Where nothing is told the status is 0, a failing plan keeps 1, and an answer that is lacking 2.

  $ sed -e '/^scenarios/d' -e 's/, "b"//' -e 's/, 0//' outside.toml > green.toml
  $ sed '4,$d' answers > three
  $ (cat three; printf 'pass\ta=1*panic\n') | paklour report --strict green.toml | tail -n 1
  first none
  $ (cat three; printf 'fail lost\ta=1*panic\n') | paklour report --strict green.toml > failing
  [1]
  $ paklour report --strict green.toml < three
  not answered a=1*panic
  [2]
  $ sed -e '2i storms = 2\nrate = 0' -e 's/= .1.$/= [0]/' green.toml > still.toml
  $ printf 'unresolved\tnone\n' | paklour report --strict still.toml > nothing
  strict: clean unresolved
  strict: 3 of 3 plans unresolved
  strict: no hits without faults
  strict: storms of rate 0
  strict: no hit without faults of a
  [5]

Where answers tell hits, plans that pass without meeting all of their faults are told too: here `b` is never hit, nor is `c`. With a depth it is runs whose hits
nobody knows.

  $ { printf 'pass\tnone\ta\npass\ta=1*return\ta\npass\ta=return\ta\npass\ta=1*panic\ta\n'; printf 'pass\tb=1*panic\ta\npass\tc=return\ta\n'; } > told
  $ paklour report --strict outside.toml < told > nothing
  settings: scenario 1: no point is named c
  answers: line 6: no point is named c
  strict: 2 of 6 plans pass without meeting all of their faults
  strict: no hit without faults of b
  [5]
  $ sed -e 's/^scenarios.*/depth = 1/' -e '/^hits/d' outside.toml > deep.toml
  $ printf 'pass\tnone\ta;b\nunresolved\ta=1*return\t-\nunresolved\ta=1*panic\ta\npass\tb=1*return\ta;b\npass\tb=1*panic\ta;b\n' > told
  $ paklour report --strict deep.toml < told > seen
  strict: 2 of 5 plans unresolved
  strict: 1 of 5 plans without known hits
  [5]
  $ grep -E '^(unseen|plans)' seen
  unseen 1
  plans 5
  $ paklour asks --strict green.toml < three 2>&1 | head -n 1
  error: unexpected argument '--strict' found
