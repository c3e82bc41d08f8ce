`--plan N` takes the scenario of plan N of the campaign, under N as its stream number, so that a line of a report can be run again as it was.
What is expected was worked out by hand from docs/TARGETS.md, and from the order of plans: none; each site's fault once, from then on, and a
panic; the pairs; storms; the listed scenarios.

  $ cat > small.toml <<'END'
  > target = "replace"
  > seed = 7
  > [replace]
  > old = "old"
  > replacements = [["ne", "w"]]
  > END
  $ sed '1a variant = "late_sync"' small.toml > late.toml
  $ cat > mail.toml <<'END'
  > target = "maildir"
  > variant = "ignore_write"
  > [maildir]
  > messages = [["hi"]]
  > END
  $ cat > commit.toml <<'END'
  > target = "commit"
  > variant = "lazy_prepare"
  > [commit]
  > participants = 1
  > transactions = [["yes"]]
  > END

Plan 0 has no fault. Of the small workload's six sites (create, two writes, sync, rename, a sync of the folder) plans 3n + 1 to 3n + 3 are those
of site n, from 0: plan 10 lets the sync fail once, plan 13 the rename, and plan 18 stops at the sync of the folder.

  $ paklour try --plan 0 small.toml
  verdict pass
  asked 6
  words 0
  millis 0
  notes 0
  $ for number in 10 13 18; do paklour try --plan $number small.toml | sed -n 2p; done
  asked 5
  asked 6
  asked 6

A component that syncs too late is torn by plan 10.

  $ paklour reduce --plan 10 late.toml
  verdict fail torn
  reduced replace::sync=1*return
  tests 1
  [1]
  $ paklour reduce --plan 0 late.toml
  verdict pass

There are 19 plans. What is past them has a line of its own, and so has a list that is too long.

  $ paklour try --plan 19 small.toml
  plan: out of range 19
  [2]
  $ paklour reduce --plan 65535 small.toml
  plan: out of range 65535
  [2]
  $ for command in try reduce; do paklour $command --plan 19 small.toml 2> /dev/null; done
  [2]
  $ cat > many.toml <<END
  > target = "replace"
  > pairs = true
  > [replace]
  > old = ""
  > replacements = [[$(for number in $(seq 300); do printf '"x", '; done)]]
  > END
  $ paklour try --plan 0 many.toml
  too many plans
  [2]

Faults of the settings come first, and whoever runs the component runs its plans.

  $ { echo 'workers = 0'; cat small.toml; } | paklour try --plan 19
  settings: out of range workers
  [2]
  $ printf '%s\n' 'target = "outside"' '[outside]' 'label = "a store"' 'codes = []' 'points = ["a"]' 'hits = [1]' | paklour try --plan 0
  settings: target outside: only plans, asks and report
  [2]

As in the report
----------------

Each line of a report says what its plan gives, also where shares are drawn: these draw other words under each number, so that of eight
plans with one scenario some fail and some pass.

  $ agrees() {
  >     paklour run "$1" | grep '^verdict ' > whole
  >     for number in $(seq 0 $(($(wc -l < whole) - 1))); do
  >         paklour try --plan $number "$1" | sed -n "s/^verdict /verdict $number /p"
  >     done | diff - whole
  > }
  $ for file in small late mail commit; do agrees $file.toml; done
  $ { echo 'scenarios = ['; for number in $(seq 8); do echo '"replace::sync=50%return",'; done; echo ']'; } > shares
  $ sed 's/late_sync/ignore_sync/' late.toml | sed '2r shares' > drawn.toml
  $ agrees drawn.toml
  $ tail -n 8 whole | cut -d ' ' -f 3 | sort -u
  fail
  pass

Rows of plans
-------------

Workers take plans one at a time, and of more than 1,024 sixteen. Whatever they take, each line is that of its
plan: the numbers stand in their order, and the first lines, the last two and each 97th are what `try` says of their plans. A transaction of one
participant has 7 sites, and of two 13, and n sites and their pairs make (n + 1) * (n + 1) plans: 29 * 29 and 183 storms are 1,024, and
118 * 118 and 2,460 are 16,384.

  $ rows() {
  >     { printf 'target = "commit"\nvariant = "lazy_prepare"\nseed = 7\nworkers = 3\npairs = true\nstorms = %d\nrate = 20\n' $3
  >       printf '[commit]\nparticipants = %d\ntransactions = [' $1
  >       for transaction in $(seq $2); do
  >           printf '["yes"%s], ' "$([ $1 = 1 ] || printf ', "yes"')"
  >       done
  >       echo ']'; } > rows.toml
  >     paklour run rows.toml | grep '^verdict ' > whole
  >     plans=$(wc -l < whole)
  >     awk '$2 != NR - 1' whole
  >     awk "\$2 < 3 || \$2 % 97 == 0 || \$2 > $plans - 3" whole > sampled
  >     for number in $(cut -d ' ' -f 2 sampled); do
  >         paklour try --plan $number rows.toml | sed -n "s/^verdict /verdict $number /p"
  >     done | diff - sampled && echo $plans $(cut -d ' ' -f 3- sampled | sort -u)
  > }
  $ rows 1 4 183
  1024 fail lost pass
  $ rows 1 4 184
  1025 fail lost pass

Of more than 16,384 plans sixty-four are taken.

From here on the program itself is needed.

  $ rows 2 9 2460
  16384 fail lost fail split pass
  $ rows 2 9 2461
  16385 fail lost fail split pass
  $ rows 2 10 0
  17161 fail lost fail split pass
