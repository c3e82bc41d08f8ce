How many plans a depth has: the table of docs/TARGETS.md. Plans that grow are the runs that returns and panics can bring about, each once, and
those from then on. all_runs.py counts these runs from what the steps are, without a plan, and the sizes here are its own.

`grown` is what the reports tell of it to each of these depths, of a variant and a workload of these sizes.

  $ grown() {
  >     target=$1 variant=$2 sizes=$3
  >     shift 3
  >     for depth in "$@"; do
  >         { printf 'target = "%s"\nvariant = "%s"\nworkers = 2\ndepth = %s\n' $target $variant $depth; cat $target.$sizes; } > settings.toml
  >         paklour run --brief settings.toml > report
  >         grep -E '^(depth|level|onward|beyond|plans) ' report
  >         grep -E '^(counts|first|causes) ' report >> verdicts
  >     done > told
  >     python3 "$TESTDIR/all_runs.py" $target $variant $sizes "$@" | cmp told - || cat told
  >     grep -E '^(depth|beyond|plans) ' told | paste -d ' ' - - -
  > }

The small workloads. With two faults the whole of a replacement is tried, with four that of a delivery or a commit.

  $ printf '[replace]\nold = "old"\nreplacements = [["ne", "w"]]\n' > replace.2
  $ printf '[maildir]\nmessages = [["He", "llo"]]\n' > maildir.2
  $ printf '[commit]\nparticipants = 2\ntransactions = [["yes", "yes"]]\n' > commit.2
  $ grown replace sound 2 1 2 3
  depth 1 beyond 8 plans 13
  depth 2 beyond 0 plans 21
  depth 3 beyond 0 plans 21
  $ grown replace late_sync 2 1 2 3
  depth 1 beyond 6 plans 13
  depth 2 beyond 0 plans 19
  depth 3 beyond 0 plans 19
  $ grown replace ignore_sync 2 1 2 3
  depth 1 beyond 10 plans 13
  depth 2 beyond 2 plans 23
  depth 3 beyond 0 plans 25
  $ grown maildir append_tmp 2 1 2 3 4
  depth 1 beyond 80 plans 20
  depth 2 beyond 106 plans 99
  depth 3 beyond 40 plans 201
  depth 4 beyond 0 plans 241
  $ grown commit two_tries 2 1 2 3 4
  depth 1 beyond 66 plans 34
  depth 2 beyond 46 plans 97
  depth 3 beyond 20 plans 142
  depth 4 beyond 0 plans 159

Two replacements of two chunks, two transactions, a message of two chunks and one of one; and two messages of two chunks. What is sound passes
under each plan, to depth 3 and of the whole.

From here on the program itself is needed.

  $ printf '[replace]\nold = "old"\nreplacements = [["ne", "w"], ["ag", "ain"]]\n' > replace.2,2
  $ printf '[maildir]\nmessages = [["He", "llo"], ["you"]]\n' > maildir.2,1
  $ printf '[maildir]\nmessages = [["He", "llo"], ["yo", "u"]]\n' > maildir.2,2
  $ printf '[commit]\nparticipants = 2\ntransactions = [["yes", "yes"], ["yes", "yes"]]\n' > commit.2,2
  $ rm verdicts
  $ grown replace sound 2,2 1 2 3 4
  depth 1 beyond 88 plans 31
  depth 2 beyond 104 plans 113
  depth 3 beyond 32 plans 217
  depth 4 beyond 0 plans 249
  $ grown commit sound 2,2 1 2 3 8
  depth 1 beyond 450 plans 72
  depth 2 beyond 1492 plans 611
  depth 3 beyond 2040 plans 2198
  depth 8 beyond 0 plans 5407
  $ grown maildir sound 2,1 1 2 3 8
  depth 1 beyond 296 plans 44
  depth 2 beyond 1572 plans 423
  depth 3 beyond 5722 plans 2250
  depth 8 beyond 0 plans 28799
  $ grown maildir sound 2,2 1 2 3 8
  depth 1 beyond 340 plans 47
  depth 2 beyond 1944 plans 478
  depth 3 beyond 7682 plans 2729
  depth 8 beyond 0 plans 41471
  $ sed 's/^counts pass [0-9]* //' verdicts | sort | uniq -c
       16 causes 0
       16 first none
       16 unresolved 0
