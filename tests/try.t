`try` runs a target once under a scenario, and writes its verdict, how many points were asked, how many random words were drawn, how many
milliseconds were slept, and how many notes were taken. What is expected was worked out by hand from docs/TARGETS.md.

  $ cat > small.toml <<'END'
  > target = "replace"
  > seed = 7
  > [replace]
  > old = "old"
  > replacements = [["ne", "w"]]
  > END
  $ tries() { paklour try --scenario "$1" small.toml | paste -s -d ' ' -; }

Without a fault six points are asked: create, two writes, sync, rename, and a sync of the folder.

  $ paklour try --scenario '' small.toml
  verdict pass
  asked 6
  words 0
  millis 0
  notes 0

A step that fails is cleaned up after; one that panics ends the run.

  $ tries 'replace::sync=1*return'
  verdict pass asked 5 words 0 millis 0 notes 0
  $ tries 'replace::write=2*return'
  verdict pass asked 3 words 0 millis 0 notes 0
  $ tries 'replace::rename=panic'
  verdict pass asked 5 words 0 millis 0 notes 0

A pause nobody ends, so that nothing is said of what would have followed.

  $ tries 'replace::write=pause'
  verdict unresolved asked 2 words 0 millis 0 notes 0

Sleeping takes no time, and a note has no text here; both are counted.

  $ tries 'replace::create=3*print(x);replace::sync=sleep(5)'
  verdict pass asked 6 words 0 millis 5 notes 1

A name that the target doesn't have never acts. Each such name is told on standard error, once the verdict stands there, in the scenario's
order; the verdict and the exit status stay.

  $ tries 'elsewhere=panic'
  scenario: no point is named elsewhere
  verdict pass asked 6 words 0 millis 0 notes 0
  $ paklour try --scenario 'replace::sink=off;replace::sync=off; replace::Sync =off;Elsewhere=panic' small.toml 2>&1 > /dev/null
  scenario: no point is named replace::sink
  scenario: no point is named replace::Sync
  scenario: no point is named Elsewhere
  $ paklour try --scenario 'elsewhere=panic' small.toml 2> /dev/full | head -n 1
  verdict pass
  $ paklour try --scenario 'elsewhere=panic' small.toml 2> /dev/full > /dev/null
  $ paklour try --scenario 'elsewhere=panic' small.toml 2>&1 > /dev/full
  write failed after 0 bytes
  [4]

So is it by `reduce`, and for each scenario that settings list by `run`, `plans` and `page`, with the number that a fault of that scenario
would be told with, from 0.

  $ sed '2a scenarios = ["replace::sync=off", "elsewhere=panic"]' small.toml > listed.toml
  $ for command in run plans page; do paklour $command listed.toml 2>&1 > /dev/null; done
  settings: scenario 1: no point is named elsewhere
  settings: scenario 1: no point is named elsewhere
  settings: scenario 1: no point is named elsewhere
  $ for plan in '--scenario elsewhere=panic' '--plan 20'; do paklour reduce $plan listed.toml 2>&1 > /dev/null; done
  scenario: no point is named elsewhere
  scenario: no point is named elsewhere
  $ paklour try --plan 20 listed.toml
  verdict pass
  asked 6
  words 0
  millis 0
  notes 0
  scenario: no point is named elsewhere

Each of the two writes draws a word for a term that can't act.

  $ tries 'replace::write=0%panic'
  verdict pass asked 6 words 2 millis 0 notes 0

The last chain of a name counts.

  $ tries 'replace::write=panic;replace::write=2*off->return'
  verdict pass asked 6 words 0 millis 0 notes 0

A run that fails ends with 1. Here the sync fails and is ignored; an empty file is what was there before, and the replacement was
acknowledged.

  $ cat > stale.toml <<'END'
  > target = "replace"
  > variant = "ignore_sync"
  > [replace]
  > old = ""
  > replacements = [["ne", "w"]]
  > END
  $ paklour try --scenario 'replace::sync=1*return' stale.toml
  verdict fail stale
  asked 6
  words 0
  millis 0
  notes 0
  [1]

The sound commit passes where the variant that tries twice doesn't, in examples/commit_two_tries.toml: without a commit record it aborts,
and tells so to both participants after seven questions, the first of whom doesn't hear it.

  $ cat > commit.toml <<'END'
  > target = "commit"
  > [commit]
  > participants = 2
  > transactions = [["yes", "yes"]]
  > END
  $ paklour try --scenario 'commit::force_commit=2*return;commit::send_outcome=1*return' commit.toml
  verdict pass
  asked 9
  words 0
  millis 0
  notes 0

What a return says beside that a call fails changes nothing in a bundled target: each of the first nine plans with a return comes to the same.

  $ alike() {
  >     paklour plans "$1" | grep -m 9 return | while read -r plan number scenario; do
  >         paklour try --scenario "$scenario" "$1" > plain
  >         paklour try --scenario "$(echo "$scenario" | sed 's/return/return(disk full)/g')" "$1" | cmp - plain && grep -qx 'asked [0-9]*' plain && echo alike
  >     done | sort | uniq -c
  > }
  $ for target in replace_depth maildir_depth commit_depth; do alike "$TESTDIR/../examples/$target.toml"; done
        9 alike
        9 alike
        9 alike

Notes have the text of their term without a copy of it: here 5,000 notes have 60,000 bytes each, where 50 megabytes are all that there is.

  $ many=$(printf ', "a"%.0s' $(seq 999))
  $ { printf 'target = "replace"\nmax_hits = 6000\n[replace]\nold = ""\nreplacements = [\n'; for each in 1 2 3 4 5; do echo "[\"a\"$many],"; done; echo ']'; } > many.toml
  $ (ulimit -v 50000; paklour try --scenario "replace::write=print($(printf '%060000d' 0))" many.toml)
  verdict pass
  asked 5020
  words 0
  millis 0
  notes 5000
