`plans` lists the plans of a campaign: none; for each hit of each point that fault once, from then on, and a panic; two for each two hits,
if `pairs` asks for them; storms; and the listed scenarios. examples/list_plans.toml has the plans of the small workload, whose six sites
make 1 + 6 * 3 plans, and 15 * 2 for its pairs.

  $ plans() { { echo 'target = "replace"'; cat; printf '[replace]\nold = "old"\nreplacements = [["ne", "w"]]\n'; } | paklour plans; }
  $ cp "$TESTDIR/../examples/list_plans.toml.stdout" pairs
  $ head -n 19 pairs > single
  $ echo 'seed = 7' | plans | diff - single
  $ echo 'pairs = true' | plans | diff - pairs

Storms
------

They come after the pairs. Those of rate 1000 take each site, those of rate 500 about half of them, and those of rate 0 none. The words
are those of the streams 4294967296 and on for seed 7, as a program in another language drew them.

  $ plans > storms <<'END'
  > seed = 7
  > pairs = true
  > storms = 2
  > rate = 1000
  > END
  $ diff pairs storms
  49a50,51
  > plan 49 replace::create=1*return;replace::write=1*return->1*return;replace::sync=1*return;replace::rename=1*panic;replace::sync_dir=1*return
  > plan 50 replace::create=1*return;replace::write=1*return->1*return;replace::sync=1*return;replace::rename=1*return;replace::sync_dir=1*panic
  [1]
  $ plans > storms <<'END'
  > seed = 7
  > pairs = true
  > storms = 4
  > rate = 500
  > END
  $ diff pairs storms
  49a50,53
  > plan 49 replace::create=1*return;replace::write=1*return;replace::sync=1*return;replace::rename=1*panic;replace::sync_dir=1*return
  > plan 50 replace::create=1*return;replace::write=1*return->1*return
  > plan 51 replace::create=1*return;replace::write=1*return
  > plan 52 replace::create=1*return;replace::write=1*return;replace::sync_dir=1*panic
  [1]
  $ printf 'storms = 2\nrate = 0\n' | plans | diff single -
  19a20,21
  > plan 19 none
  > plan 20 none
  [1]

A storm takes no more than 64 sites: here there are 104, after whose 313 plans it comes.

  $ chunks() { for number in $(seq $1); do printf '"x", '; done; }
  $ cat > many.toml <<END
  > target = "replace"
  > storms = 1
  > rate = 1000
  > [replace]
  > old = ""
  > replacements = [[$(chunks 100)]]
  > END
  $ paklour plans many.toml | tail -n 1 | tr ' ;>' '\n' | grep -c '1\*[rp]'
  64
  $ paklour plans many.toml | wc -l
  314

Listed scenarios
----------------

They come last, in the shortest form. With a limit of one hit there is one site, and so no pair.

  $ plans <<'END'
  > max_hits = 1
  > pairs = true
  > storms = 2
  > rate = 0
  > scenarios = [" ", "replace::sync = 25.50%print(hi) ;other=2*off->yield"]
  > END
  plan 0 none
  plan 1 replace::create=1*return
  plan 2 replace::create=return
  plan 3 replace::create=1*panic
  plan 4 none
  plan 5 none
  plan 6 none
  plan 7 replace::sync=25.5%print(hi);other=2*off->yield
  settings: scenario 1: no point is named other

The longest list
----------------

There are up to 65536 plans. One replacement of 251 chunks has 255 sites: 1 + 255 * 3 plans, and 255 * 254 for its pairs.

From here on the program itself is needed.

  $ replaced() { printf 'target = "replace"\n[replace]\nold = ""\nreplacements = [%s]\n' "$1"; }
  $ replaced "[$(chunks 251)]" > longest
  $ { echo 'pairs = true'; cat longest; } | paklour plans > list
  $ wc -l < list
  65536
  $ sed -n '/^plan 76[67] /p' list
  plan 766 replace::create=1*return;replace::write=1*return
  plan 767 replace::create=1*return;replace::write=1*panic
  $ tail -n 2 list
  plan 65534 replace::rename=1*return;replace::sync_dir=1*return
  plan 65535 replace::rename=1*return;replace::sync_dir=1*panic

One plan more is refused, whatever the number of workers. 258 replacements of 81 chunks have 21930 sites, and 65791 plans without pairs.
65 replacements of 1000 chunks and one of 271 have 65535 sites, whose pairs make 4294967296 plans.

  $ for workers in 1 2 8; do
  >     for command in run plans; do
  >         { printf 'pairs = true\nstorms = 1\nworkers = %s\n' $workers; cat longest; } | paklour $command
  >     done
  > done 2>&1 | uniq -c | tr -s ' '
   6 too many plans
  $ { echo 'max_hits = 100000'; replaced "$(for number in $(seq 258); do printf '[%s], ' "$(chunks 81)"; done)"; } | paklour run
  too many plans
  [2]
  $ thousands=$(for number in $(seq 65); do printf '[%s], ' "$(chunks 1000)"; done)
  $ { printf 'max_hits = 100000\npairs = true\n'; replaced "$thousands[$(chunks 271)]"; } | paklour plans
  too many plans
  [2]

A command of one scenario makes no plans. None of the 255 questions fails.

  $ { printf 'pairs = true\nstorms = 1\n'; cat longest; } > too_many.toml
  $ paklour try --scenario '' too_many.toml
  verdict pass
  asked 255
  words 0
  millis 0
  notes 0
  $ paklour reduce --scenario '' too_many.toml
  verdict pass
