`explain` runs a target once under a scenario, as `try` does, and tells the run hit by hit: the number of the hit, its point, which hit of that
point it is, and the task that acted, or `go`. Then it says what stopped the run, and which faults never acted. What is expected was worked
out by hand from docs/TARGETS.md.

  $ cat > small.toml <<'END'
  > target = "replace"
  > seed = 7
  > [replace]
  > old = "old"
  > replacements = [["ne", "w"]]
  > END
  $ sed '1a variant = "late_sync"' small.toml > late.toml
  $ explains() { paklour explain --scenario "$1" small.toml; }

Without a fault six points are asked.

  $ explains ''
  verdict pass
  hit 1 replace::create 1 go
  hit 2 replace::write 1 go
  hit 3 replace::write 2 go
  hit 4 replace::sync 1 go
  hit 5 replace::rename 1 go
  hit 6 replace::sync_dir 1 go

A sync that fails is cleaned up after; and where it comes too late, the file is torn.

  $ paklour explain --plan 10 small.toml
  verdict pass
  hit 1 replace::create 1 go
  hit 2 replace::write 1 go
  hit 3 replace::write 2 go
  hit 4 replace::sync 1 return
  hit 5 replace::unlink 1 go
  $ paklour explain --plan 10 late.toml
  verdict fail torn
  hit 1 replace::create 1 go
  hit 2 replace::write 1 go
  hit 3 replace::write 2 go
  hit 4 replace::rename 1 go
  hit 5 replace::sync_dir 1 go
  hit 6 replace::sync 1 return
  [1]

A panic, a pause or the limit of hits stops the run.

  $ explains 'replace::rename=panic' | tail -n 2
  hit 5 replace::rename 1 panic
  stopped panic
  $ explains 'replace::write=1*off->pause'
  verdict unresolved
  hit 1 replace::create 1 go
  hit 2 replace::write 1 go
  hit 3 replace::write 2 pause
  stopped pause
  $ sed '1a max_hits = 2' small.toml | paklour explain --scenario ''
  verdict unresolved
  hit 1 replace::create 1 go
  hit 2 replace::write 1 go
  stopped limit

Notes and sleeping change nothing of the run.

  $ explains 'replace::create=3*print(x);replace::sync=sleep(5)' | grep -v ' go$'
  verdict pass
  hit 1 replace::create 1 print(x)
  hit 4 replace::sync 1 sleep(5)

A fault is idle that never acted: its point isn't asked, isn't there, or not so often.

  $ explains 'replace::unlink=return;elsewhere=2*panic;replace::write=2*off->return' 2> strange | tail -n 4
  hit 6 replace::sync_dir 1 go
  idle replace::unlink=return
  idle elsewhere=2*panic
  idle replace::write=return

That no point has such a name stands on standard error, once the text stands there whole.

  $ cat strange
  scenario: no point is named elsewhere
  $ explains 'b=off;replace::sync=off;a=off' | tail -n 1
  scenario: no point is named b
  scenario: no point is named a
  hit 6 replace::sync_dir 1 go
  $ paklour explain --scenario 'elsewhere=panic' small.toml 2>&1 > /dev/full
  write failed after 0 bytes
  [4]

A message is delivered, and a transaction committed.

  $ paklour explain --scenario '' <<'END' | cut -d ' ' -f 3-
  > target = "maildir"
  > [maildir]
  > messages = [["hi"]]
  > END
  
  maildir::stat 1 go
  maildir::create 1 go
  maildir::write 1 go
  maildir::sync 1 go
  maildir::link 1 go
  maildir::unlink 1 go
  maildir::sync_dir 1 go
  $ paklour explain --scenario 'commit::send_vote=1*return' <<'END' | cut -d ' ' -f 3-
  > target = "commit"
  > [commit]
  > participants = 2
  > transactions = [["yes", "yes"]]
  > END
  
  commit::send_prepare 1 go
  commit::force_prepare 1 go
  commit::send_vote 1 return
  commit::send_prepare 2 go
  commit::force_prepare 2 go
  commit::send_vote 2 go
  commit::send_outcome 1 go

What takes no scenario is told as `try` tells it.

  $ paklour explain --plan 19 small.toml
  plan: out of range 19
  [2]
  $ explains a
  scenario: NoAction entry 1 term 0
  [2]
  $ sed '1s/.*/target = "outside"/;/^.replace/,$d' small.toml > outside.toml
  $ printf '%s\n' '[outside]' 'label = "a store"' 'codes = []' 'points = ["a"]' 'hits = [1]' >> outside.toml
  $ paklour explain --plan 0 outside.toml
  settings: target outside: only plans, asks and report
  [2]

The run at the top of docs/TARGETS.md. By the table of the replacement its rename comes before the sync: create, two writes, rename, sync. Pending are the
create, the two appends at 0 and 2, and the rename.

  $ block() { awk -v begin='```'"$1" '/^```/ { if (inside) exit; inside = $0 == begin; next } inside' "$TESTDIR/../docs/TARGETS.md"; }
  $ block toml > shown.toml
  $ block text > shown
  $ paklour explain --plan 42 shown.toml | diff shown -
