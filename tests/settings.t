What is wrong with settings is told by one line on standard error, and the exit status is 2. The first thing wrong is told, in this
order: the size of the text, UTF-8, TOML, keys that aren't known, and then one key after the other, as `paklour help` lists them. For
one key it is first whether it is there, then its type, then its range.

Nothing is on standard output then, and `run` and `plans` say the same. `told` shows it for the keys that it is given, between a front
and a back.

  $ told() {
  >     { cat front; printf '%b\n' "$1"; cat back; } > settings.toml
  >     for command in run plans; do
  >         paklour $command settings.toml > out 2> err
  >         status=$?
  >         grep -v ': no point is named ' err
  >         case $status in 0) echo accepted ;; 2) cat out ;; *) echo "another status" ;; esac
  >     done 2>&1 | uniq
  > }
  $ touch front back

The text
--------

It is TOML in UTF-8, with a byte order mark or without.

  $ told '\0377'
  settings: not UTF-8
  $ told '='
  settings: not TOML
  $ told 'target = '
  settings: not TOML
  $ told '\0357\0273\0277seeds = 1'
  settings: unknown key seeds

The number has no room in 64 bits, a key stands twice, or lists are nested a thousand deep.

  $ told 'storms = 9223372036854775808'
  settings: not TOML
  $ told 'storms = -9223372036854775809'
  settings: not TOML
  $ told 'rate = 1e400'
  settings: not TOML
  $ told 'rate = '
  settings: not TOML
  $ told 'seed = 7\nseed = 7'
  settings: not TOML
  $ told "target = $(printf '%01000d' 0 | tr 0 '[')$(printf '%01000d' 0 | tr 0 ']')"
  settings: not TOML

It has up to 1048576 bytes. A byte past them is told before it is seen that they are no text.

  $ head -c 1048576 /dev/zero | tr '\0' '#' > full
  $ { cat full; echo; } | paklour run
  settings: too long
  [2]
  $ head -c 1048577 /dev/zero | tr '\0' '\377' | paklour run
  settings: too long
  [2]

Keys at the top
---------------

  $ told ''
  settings: missing target
  $ told 'seed = true'
  settings: missing target
  $ told 'target = 1'
  settings: wrong type target
  $ told 'target = "x"'
  settings: out of range target
  $ told 'target = "replace"'
  settings: missing replace
  $ told 'target = "replace"\nreplace = 1'
  settings: wrong type replace
  $ told 'target = "replace"\n[[replace]]'
  settings: wrong type replace
  $ told 'target = "replace"\nvariant = 1'
  settings: wrong type variant

A variant is one of the target's own.

  $ told 'target = "maildir"\nvariant = "late_sync"\n[maildir]\nmessages = []'
  settings: out of range variant
  $ told 'target = "replace"\nvariant = "lazy_prepare"\n[replace]\nold = ""\nreplacements = []'
  settings: out of range variant
  $ told 'target = "maildir"\nvariant = "in_place"\n[maildir]\nmessages = []'
  settings: out of range variant
  $ told 'target = "replace"\nvariant = "rename_first"\n[replace]\nold = ""\nreplacements = []'
  accepted
  $ told 'target = "replace"\nvariant = "in_place"\n[replace]\nold = ""\nreplacements = []'
  accepted
  $ told 'target = "maildir"\nvariant = "deliver_in_new"\n[maildir]\nmessages = []'
  accepted
  $ told 'target = "commit"\nvariant = "end_first"\n[commit]\nparticipants = 1\ntransactions = []'
  accepted

Of several unknown keys the least is told, by its bytes. The table of another target is unknown, and where the target is none of the
three, each table is. An unknown key comes before all that is wrong with the others.

  $ told 'zeta = 1\nalpha = 1'
  settings: unknown key alpha
  $ told 'a = 1\nZ = 1'
  settings: unknown key Z
  $ told '"é" = 1\nz = 1'
  settings: unknown key z
  $ told '"a b" = 1\nz = 1'
  settings: unknown key a b
  $ told '"" = 1\na = 1' | sed 's/$/./'
  settings: unknown key .
  $ told 'zeal = 1\nseed = true\nadd = 1'
  settings: unknown key add
  $ told 'target = "replace"\nworkers = 65\nzeta = 1'
  settings: unknown key zeta
  $ told 'target = "replace"\n[maildir]'
  settings: unknown key maildir
  $ told 'target = "replace"\n[maildir]\nmessages = []'
  settings: unknown key maildir
  $ told 'target = "commit"\nseed = -1\n[replace]'
  settings: unknown key replace
  $ told '[replace]'
  settings: unknown key replace
  $ told '[commit]\n[maildir]'
  settings: unknown key commit
  $ told 'target = 1\n[replace]'
  settings: unknown key replace
  $ told 'target = "x"\n[replace]'
  settings: unknown key replace

Types and ranges
----------------

From here on the keys stand in settings that have all that is needed.

  $ echo 'target = "replace"' > front
  $ printf '[replace]\nold = "old"\nreplacements = [["ne", "w"]]\n' > back

  $ told 'variant = "append_tmp"'
  settings: out of range variant
  $ told 'seed = "7"'
  settings: wrong type seed
  $ told 'seed = -1'
  settings: out of range seed
  $ told 'seed = 0'
  accepted
  $ told 'seed = 9223372036854775807'
  accepted

  $ told 'workers = "2"'
  settings: wrong type workers
  $ told 'workers = 0'
  settings: out of range workers
  $ told 'workers = 1'
  accepted
  $ told 'workers = 64'
  accepted
  $ told 'workers = 65'
  settings: out of range workers

  $ told 'max_hits = 0'
  settings: out of range max_hits
  $ told 'max_hits = 1'
  accepted
  $ told 'max_hits = 100000'
  accepted
  $ told 'max_hits = 100001'
  settings: out of range max_hits

  $ told 'pairs = 1'
  settings: wrong type pairs
  $ told 'pairs = "true"'
  settings: wrong type pairs

  $ told 'storms = 1.5'
  settings: wrong type storms
  $ told 'storms = -1'
  settings: out of range storms
  $ told 'storms = 0'
  accepted
  $ told 'storms = 10001'
  settings: out of range storms

  $ told 'rate = 1.0'
  settings: wrong type rate
  $ told 'rate = nan'
  settings: wrong type rate
  $ told 'rate = 1979-05-27'
  settings: wrong type rate
  $ told 'rate = 1979-05-27T07:32:00Z'
  settings: wrong type rate
  $ told 'rate = -9223372036854775808'
  settings: out of range rate
  $ told 'rate = 0'
  accepted
  $ told 'rate = 1000'
  accepted
  $ told 'rate = 1001'
  settings: out of range rate

  $ told 'depth = "2"'
  settings: wrong type depth
  $ told 'depth = 2.0'
  settings: wrong type depth
  $ told 'depth = -1'
  settings: out of range depth
  $ told 'depth = 0'
  settings: out of range depth
  $ told 'depth = 1'
  accepted
  $ told 'depth = 64'
  accepted
  $ told 'depth = 65'
  settings: out of range depth

A depth leaves no room for pairs. That is told after what is wrong with either of them alone, and with the keys between, and before what is
wrong with the scenarios.

  $ told 'depth = 2\npairs = false'
  accepted
  $ told 'depth = 2\npairs = true'
  settings: out of range pairs
  $ told 'depth = 65\npairs = true'
  settings: out of range depth
  $ told 'depth = 2\npairs = 1'
  settings: wrong type pairs
  $ told 'depth = 2\npairs = true\nrate = 1001'
  settings: out of range rate
  $ told 'depth = 2\npairs = true\nscenarios = 1'
  settings: out of range pairs

Crash states go with a depth and without one, and with pairs. They come after the depth and the pairs beside it, and before the scenarios.

  $ told 'crash_states = 1'
  settings: wrong type crash_states
  $ told 'crash_states = "true"'
  settings: wrong type crash_states
  $ told 'crash_states = false'
  accepted
  $ told 'crash_states = true'
  accepted
  $ told 'crash_states = true\npairs = true'
  accepted
  $ told 'crash_states = true\ndepth = 2'
  accepted
  $ told 'crash_states = 1\ndepth = 65'
  settings: out of range depth
  $ told 'crash_states = 1\ndepth = 2\npairs = true'
  settings: out of range pairs
  $ told 'scenarios = 1\ncrash_states = 1'
  settings: wrong type crash_states
  $ told 'scenarios = 1\ncrash_states = true'
  settings: wrong type scenarios

  $ told 'scenarios = "a=off"'
  settings: wrong type scenarios
  $ told 'scenarios = [1]'
  settings: wrong type scenarios
  $ told 'scenarios = ["a", 1]'
  settings: wrong type scenarios
  $ told 'scenarios = ["a=off"]'
  accepted

Of two keys the earlier one is told, whatever their order in the text.

  $ told 'variant = "append_tmp"\nseed = -1'
  settings: out of range variant
  $ told 'seed = -1\nvariant = "link_first"'
  settings: out of range variant
  $ told 'seed = -1\nworkers = 0'
  settings: out of range seed
  $ told 'seed = "7"\nworkers = 0'
  settings: wrong type seed
  $ told 'workers = 65\nmax_hits = 0'
  settings: out of range workers
  $ told 'max_hits = 0\npairs = 1'
  settings: out of range max_hits
  $ told 'pairs = 1\nstorms = -1'
  settings: wrong type pairs
  $ told 'storms = 10001\nrate = -1'
  settings: out of range storms
  $ told 'storms = [1]\nrate = 1001'
  settings: wrong type storms
  $ told 'rate = 1001\ndepth = 0'
  settings: out of range rate
  $ told 'depth = 65\nscenarios = 1'
  settings: out of range depth
  $ told 'rate = 1001\nstorms = 10001\nworkers = 0'
  settings: out of range workers
  $ told 'scenarios = ["=off"]\nworkers = 0'
  settings: out of range workers

Of the listed scenarios, numbered from 0, the first one with a fault is told.

  $ told 'scenarios = ["a=off", "a=3*20%off"]'
  settings: scenario 1: BadPercent entry 1 term 1
  $ told 'scenarios = ["", ";b", "=off"]'
  settings: scenario 1: NoAction entry 2 term 0
  $ told 'scenarios = ["a=off", "=off"]'
  settings: scenario 1: NoName entry 1 term 0
  $ told 'scenarios = ["a=off->panic->", "a=3*20%off"]'
  settings: scenario 0: UnknownTask entry 1 term 3
  $ told 'scenarios = ["a=sleep(1000000001)"]'
  settings: scenario 0: BadMillis entry 1 term 1

Up to a thousand may be listed, and one more is told before any of their faults. A member that is no text is told before both.

  $ listed() { for number in $(seq $1); do printf '"%s", ' "$2"; done; }
  $ told "scenarios = [$(listed 1001 =off)]"
  settings: out of range scenarios
  $ told "scenarios = [$(listed 1000 =off)1]"
  settings: wrong type scenarios

What is wrong with the settings comes before what is wrong with the scenario of a command.

  $ paklour try --scenario = settings.toml
  settings: wrong type scenarios
  [2]
  $ paklour reduce --scenario = settings.toml
  settings: wrong type scenarios
  [2]
  $ told ''
  accepted
  $ paklour try --scenario = settings.toml
  scenario: NoName entry 1 term 0
  [2]

The most that are taken
-----------------------

From here on the program itself is needed.

  $ told 'storms = 10000'
  accepted
  $ told "scenarios = [$(listed 1000 a=off)]"
  accepted
  $ paklour run full
  settings: missing target
  [2]
  $ head -c 1048576 /dev/zero | tr '\0' 'x' | paklour run
  settings: not TOML
  [2]
