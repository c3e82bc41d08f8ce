With `crash_states` the power cut at the end of a run asks `power::keep` for each pending write, in the order in which they were made: a return
keeps it. So what a disk may leave is tried, reduced, explained and replayed as any fault is. What is expected was counted by a model apart from
this program.

  $ settings() {
  >     printf 'target = "%s"\nvariant = "%s"\nseed = 7\ndepth = %s\ncrash_states = %s\n' "$1" "$2" "$3" "${4-true}"
  >     case $1 in
  >         replace) printf '[replace]\nold = "old"\nreplacements = [["ne", "w"]]\n' ;;
  >         maildir) printf '[maildir]\nmessages = [["He", "llo"]]\n' ;;
  >         commit) printf '[commit]\nparticipants = 2\ntransactions = [["yes", "yes"]]\n' ;;
  >     esac
  > }
  $ told() { settings "$@" | paklour run --brief | grep -E '^(level|onward|beyond|plans|first|causes|reached power::keep) '; }
  $ found() { settings "$@" | paklour run --brief | grep -E '^(plans|first|scenario|reduced|tests|causes) '; }

The sound protocols fail under no scenario, whatever the cut keeps.

  $ told replace sound 2
  level 0 1
  level 1 12
  level 2 31
  onward 13
  beyond 35
  reached power::keep 4
  plans 57
  first none
  causes 0
  $ told replace sound 3
  level 0 1
  level 1 12
  level 2 31
  level 3 35
  onward 14
  beyond 17
  reached power::keep 4
  plans 93
  first none
  causes 0
  $ told maildir sound 3
  level 0 1
  level 1 16
  level 2 126
  level 3 523
  onward 295
  beyond 1336
  reached power::keep 8
  plans 961
  first none
  causes 0
  $ told commit sound 3
  level 0 1
  level 1 27
  level 2 64
  level 3 24
  onward 0
  beyond 2
  reached power::keep 2
  plans 116
  first none
  causes 0

A sync that comes late is found as without crash states, and in more ways.

  $ told replace late_sync 2 | grep -v reached
  level 0 1
  level 1 12
  level 2 34
  onward 18
  beyond 44
  plans 65
  first 11 torn
  causes 6
  $ settings replace late_sync 2 | paklour run --brief | grep '^cause ' | sed -n '3p;$p'
  cause 38 torn replace::sync_dir=1*return;power::keep=3*off->1*return
  cause 62 torn replace::sync_dir=1*panic;power::keep=2*off->return
  $ settings replace late_sync 2 | paklour run --brief | grep -A 3 '^first'
  first 11 torn
  scenario replace::sync=1*return
  reduced replace::sync=1*return
  tests 1

A commit that answers before its records are forced.

  $ told commit lazy_prepare 2 | grep -v reached
  level 0 1
  level 1 27
  level 2 92
  onward 17
  beyond 106
  plans 137
  first 15 split
  first 16 lost
  causes 20

Flaws that only a kept write shows. A replacement that renames first, and syncs then:

  $ told replace rename_first 2 | head -n 4
  level 0 1
  level 1 12
  level 2 34
  onward 18
  $ found replace rename_first 2
  plans 65
  first 38 torn
  scenario replace::sync=1*return;power::keep=3*off->1*return
  reduced replace::sync=1*return;power::keep=3*off->1*return
  tests 3
  causes 4

One without a temporary file:

  $ told replace in_place 2 | head -n 4
  level 0 1
  level 1 12
  level 2 25
  onward 15
  $ found replace in_place 2
  plans 53
  first 13 torn
  scenario replace::create=1*return;power::keep=1*return
  reduced replace::create=1*return;power::keep=1*return
  tests 3
  causes 23

A commit that takes its end for known before its participants know it:

  $ told commit end_first 2 | head -n 4
  level 0 1
  level 1 27
  level 2 76
  onward 3
  $ found commit end_first 2
  plans 107
  first 80 split
  scenario commit::send_outcome=1*return;power::keep=1*return
  reduced commit::send_outcome=1*return;power::keep=1*return
  tests 3
  first 81 lost
  scenario commit::send_outcome=1*panic;power::keep=1*return
  reduced commit::send_outcome=1*panic;power::keep=1*return
  tests 3
  causes 9

And a delivery that writes where it is read:

  $ settings maildir deliver_in_new 2 > in_new.toml
  $ paklour try --scenario 'maildir::write=1*panic;power::keep=1*return' in_new.toml | head -n 1
  verdict fail torn

Without crash states none of them fails.

  $ told replace rename_first 2 false | grep -E '^(first|causes)'
  first none
  causes 0
  $ told replace in_place 2 false | grep -E '^(first|causes)'
  first none
  causes 0
  $ told commit end_first 2 false | grep -E '^(first|causes)'
  first none
  causes 0
  $ told maildir deliver_in_new 2 false | grep -E '^(first|causes)'
  first none
  causes 0

A scenario keeps what it says: nothing, where it doesn't speak of `power::keep`; all, under a return.

  $ settings replace rename_first 2 > first.toml
  $ paklour try --scenario 'replace::sync=1*return' first.toml | head -n 1
  verdict pass
  $ paklour try --scenario 'replace::sync=1*return;power::keep=return' first.toml | head -n 1
  verdict pass

The cut asks after a panic of the target, and not after a pause. An explained run tells which write each of the cut's hits stands for.

  $ paklour explain --scenario 'replace::sync=1*panic;power::keep=1*return' first.toml | grep -c 'power::keep'
  4
  $ paklour explain --scenario 'replace::sync=1*panic;power::keep=1*return' first.toml | grep '^keep'
  keep 1 create tmp
  keep 2 append tmp 0
  keep 3 append tmp 2
  keep 4 rename tmp target
  $ paklour explain --scenario 'replace::sync=1*panic;power::keep=1*off->1*pause' first.toml | grep '^keep'
  keep 1 create tmp
  keep 2 append tmp 0
  $ paklour explain --scenario 'replace::sync=1*pause;power::keep=1*return' first.toml
  verdict unresolved
  hit 1 replace::create 1 go
  hit 2 replace::write 1 go
  hit 3 replace::write 2 go
  hit 4 replace::rename 1 go
  hit 5 replace::sync 1 pause
  stopped pause
  idle power::keep=1*return

For any number of workers it is the same report.

  $ settings replace late_sync 2 > late.toml
  $ paklour run late.toml > one
  [1]
  $ for workers in 2 3 7 64; do sed "3a workers = $workers" late.toml | paklour run | cmp one - || exit; done

A failure that keeps twelve writes, and loses the last one, is cut down to one that keeps a single write.

  $ printf '%s\n' 'target = "replace"' 'variant = "in_place"' 'crash_states = true' '[replace]' 'old = "old"' \
  >     'replacements = [["a", "b", "c", "d", "e", "f", "g", "h", "i", "j", "k"]]' > many.toml
  $ kept=$(printf '1*return->%.0s' 1 2 3 4 5 6 7 8 9 10 11)1*return
  $ paklour try --scenario "replace::sync=1*return;power::keep=$kept" many.toml | head -n 1
  verdict fail torn
  $ paklour explain --scenario "replace::sync=1*return;power::keep=$kept" many.toml | grep power::keep | tail -n 2
  hit 26 power::keep 12 return
  hit 27 power::keep 13 go
  $ paklour reduce --scenario "replace::sync=1*return;power::keep=$kept" many.toml | grep reduced | grep -o '1\*return' | wc -l
  2
