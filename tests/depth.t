A campaign with a `depth` takes its plans from each run's own hits: level 0 is the run without faults, and each plan of the next level is one of
the level before with one more fault, at a hit of its own run after its last fault. What is expected was counted by an enumeration of all
runs, apart from this program.

  $ cat > small.toml <<'EOF'
  > target = "replace"
  > variant = "sound"
  > seed = 7
  > depth = 1
  > [replace]
  > old = "old"
  > replacements = [["ne", "w"]]
  > EOF
  $ told() { grep -E '^(depth|level|onward|beyond|plans|first|scenario|reduced|tests|causes|counts) '; }

Twelve runs have one fault. In eight of them the replacement cleans up, which asks once more.

  $ paklour run --brief small.toml
  target replace sound
  seed 7
  clean pass
  census replace::clear 0
  census replace::create 1
  census replace::write 2
  census replace::sync 1
  census replace::rename 1
  census replace::sync_dir 1
  census replace::unlink 0
  depth 1
  level 0 1
  level 1 12
  onward 0
  beyond 8
  reached replace::clear 0
  reached replace::create 1
  reached replace::write 2
  reached replace::sync 1
  reached replace::rename 1
  reached replace::sync_dir 1
  reached replace::unlink 1
  plans 13
  counts pass 13 unresolved 0
  first none
  causes 0

With two faults nothing is left: every behaviour there is was tried.

  $ sed 's/depth = 1/depth = 2/' small.toml > two.toml
  $ paklour run --brief two.toml | told
  depth 2
  level 0 1
  level 1 12
  level 2 8
  onward 0
  beyond 0
  plans 21
  counts pass 21 unresolved 0
  first none
  causes 0

A sync that comes late.

  $ sed 's/"sound"/"late_sync"/' two.toml > late.toml
  $ paklour run late.toml | grep -v census
  target replace late_sync
  seed 7
  clean pass
  depth 2
  level 0 1
  level 1 12
  level 2 6
  onward 0
  beyond 0
  reached replace::clear 0
  reached replace::create 1
  reached replace::write 2
  reached replace::sync 1
  reached replace::rename 1
  reached replace::sync_dir 1
  reached replace::unlink 1
  plans 19
  verdict 0 pass
  verdict 1 pass
  verdict 2 pass
  verdict 3 pass
  verdict 4 pass
  verdict 5 pass
  verdict 6 pass
  verdict 7 pass
  verdict 8 pass
  verdict 9 pass
  verdict 10 pass
  verdict 11 fail torn
  verdict 12 fail torn
  verdict 13 pass
  verdict 14 pass
  verdict 15 pass
  verdict 16 pass
  verdict 17 pass
  verdict 18 pass
  first 11 torn
  scenario replace::sync=1*return
  reduced replace::sync=1*return
  tests 1
  causes 2
  cause 11 torn replace::sync=1*return
  cause 12 torn replace::sync=1*panic
  $ paklour plans late.toml
  plan 0 none
  plan 1 replace::create=1*return
  plan 2 replace::create=1*panic
  plan 3 replace::write=1*return
  plan 4 replace::write=1*panic
  plan 5 replace::write=1*off->1*return
  plan 6 replace::write=1*off->1*panic
  plan 7 replace::rename=1*return
  plan 8 replace::rename=1*panic
  plan 9 replace::sync_dir=1*return
  plan 10 replace::sync_dir=1*panic
  plan 11 replace::sync=1*return
  plan 12 replace::sync=1*panic
  plan 13 replace::write=1*return;replace::unlink=1*return
  plan 14 replace::write=1*return;replace::unlink=1*panic
  plan 15 replace::write=1*off->1*return;replace::unlink=1*return
  plan 16 replace::write=1*off->1*return;replace::unlink=1*panic
  plan 17 replace::rename=1*return;replace::unlink=1*return
  plan 18 replace::rename=1*return;replace::unlink=1*panic

The report is that of one thread, for any number of workers.

  $ paklour run late.toml > one; for workers in 2 3 7 64; do sed "3a workers = $workers" late.toml | paklour run | cmp one - || exit; done

A plan's number is the same for each command.

  $ paklour reduce --plan 12 late.toml
  verdict fail torn
  reduced replace::sync=1*panic
  tests 1
  [1]
  $ paklour try --plan 17 late.toml | head -n 1
  verdict pass
  $ paklour explain --plan 13 late.toml
  verdict pass
  hit 1 replace::create 1 go
  hit 2 replace::write 1 return
  hit 3 replace::unlink 1 return
  $ paklour try --plan 19 late.toml
  plan: out of range 19
  [2]

Where a failed sync is ignored, one fault is enough.

  $ sed 's/"sound"/"ignore_sync"/' small.toml | paklour run --brief | told
  depth 1
  level 0 1
  level 1 12
  onward 0
  beyond 10
  plans 13
  counts pass 12 unresolved 0 torn 1
  first 7 torn
  scenario replace::sync=1*return
  reduced replace::sync=1*return
  tests 1
  causes 1
  $ sed 's/"sound"/"ignore_sync"/' two.toml | paklour run --brief | told | head -n 7
  depth 2
  level 0 1
  level 1 12
  level 2 10
  onward 0
  beyond 2
  plans 23

A transaction that is forced twice and then taken for committed: neither single faults nor pairs of the run without faults show it.

  $ cat > forced.toml <<'EOF'
  > target = "commit"
  > variant = "two_tries"
  > seed = 7
  > depth = 3
  > [commit]
  > participants = 2
  > transactions = [["yes", "yes"]]
  > EOF
  $ paklour run --brief forced.toml | told | grep -v counts
  depth 3
  level 0 1
  level 1 26
  level 2 66
  level 3 46
  onward 3
  beyond 20
  plans 142
  first 109 split
  scenario commit::force_commit=1*return->1*return;commit::send_outcome=1*return
  reduced commit::force_commit=1*return->1*return;commit::send_outcome=1*return
  tests 9
  first 110 lost
  scenario commit::force_commit=1*return->1*return;commit::send_outcome=1*panic
  reduced commit::force_commit=1*return->1*return;commit::send_outcome=1*panic
  tests 9
  causes 11

A delivery that appends to what an earlier attempt left behind, which couldn't be removed.

  $ cat > append.toml <<'EOF'
  > target = "maildir"
  > variant = "append_tmp"
  > seed = 7
  > depth = 2
  > [maildir]
  > messages = [["He", "llo"]]
  > EOF
  $ paklour run --brief append.toml | grep -E '^(level|onward|beyond|reached maildir::stat|plans|first|scenario|reduced|tests) '
  level 0 1
  level 1 14
  level 2 80
  onward 4
  beyond 106
  reached maildir::stat 0
  plans 99
  first 29 torn
  scenario maildir::write=1*return;maildir::unlink=1*return
  reduced maildir::write=1*return;maildir::unlink=1*return
  tests 3

A coordinator that ends too early forgets who wasn't told: with one participant untold, by either of two returns for each, the transaction is
split, and with both it is lost. A split is no cause of a loss: so each of the four pairs is a cause beside the four returns.

  $ cat > early.toml <<'EOF'
  > target = "commit"
  > variant = "early_end"
  > seed = 7
  > depth = 2
  > [commit]
  > participants = 2
  > transactions = [["yes", "yes"]]
  > EOF
  $ paklour run --brief early.toml | grep -E '^(level|plans|first|tests|cause)'
  level 0 1
  level 1 26
  level 2 56
  plans 85
  first 15 split
  tests 1
  first 65 lost
  tests 3
  causes 8
  cause 15 split commit::send_outcome=1*return
  cause 17 split commit::force_outcome=1*return
  cause 21 split commit::send_outcome=1*off->1*return
  cause 23 split commit::force_outcome=1*off->1*return
  cause 65 lost commit::send_outcome=1*return->1*return
  cause 67 lost commit::send_outcome=1*return;commit::force_outcome=1*return
  cause 71 lost commit::send_outcome=1*off->1*return;commit::force_outcome=1*return
  cause 73 lost commit::force_outcome=1*return->1*return

Where a run is stopped after three hits, plans grow at these three alone. A first write that fails leaves room for the clean-up, the second one
doesn't: its run is stopped before.

  $ sed 's/^depth = 2/max_hits = 3\ndepth = 2/' two.toml > short.toml
  $ paklour run short.toml | grep -E '^(clean|level|onward|beyond|reached|plans|verdict|causes) '
  clean unresolved
  level 0 1
  level 1 6
  level 2 2
  onward 0
  beyond 0
  reached replace::clear 0
  reached replace::create 1
  reached replace::write 2
  reached replace::sync 0
  reached replace::rename 0
  reached replace::sync_dir 0
  reached replace::unlink 1
  plans 9
  verdict 0 unresolved
  verdict 1 pass
  verdict 2 pass
  verdict 3 pass
  verdict 4 pass
  verdict 5 unresolved
  verdict 6 pass
  verdict 7 pass
  verdict 8 pass
  causes 0
  $ paklour plans short.toml | tail -n 4
  plan 5 replace::write=1*off->1*return
  plan 6 replace::write=1*off->1*panic
  plan 7 replace::write=1*return;replace::unlink=1*return
  plan 8 replace::write=1*return;replace::unlink=1*panic

Storms and listed scenarios stand behind the plans that grow.

  $ sed '4a storms = 2\nscenarios = ["replace::sync=return"]' small.toml > behind.toml
  $ paklour plans behind.toml | tail -n 1
  plan 15 replace::sync=return
  $ paklour run --brief behind.toml | told | grep -E '^(plans|counts)'
  plans 16
  counts pass 16 unresolved 0

A depth is 1 to 64, and goes with no pairs.

  $ sed 's/depth = 1/depth = 0/' small.toml | paklour run
  settings: out of range depth
  [2]
  $ sed '4a pairs = true' small.toml | paklour run
  settings: out of range pairs
  [2]

A level that would make more than 65536 plans isn't run, and nothing is written.

From here on the program itself is needed.

  $ sed 's/depth = 3/depth = 64/; s/, \["yes", "yes"\]//' forced.toml | sed 's/\[\["yes", "yes"\]\]/[["yes", "yes"], ["yes", "yes"], ["yes", "no"]]/' | paklour run
  too many plans
  [2]
