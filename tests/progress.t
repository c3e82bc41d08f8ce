How far plans and a reduction are, which `--progress` shows in one line of standard error: the report stays what it is, and nothing is left of
the line. What stands on the line is written over: a carriage return and the three bytes ESC [ K, which erase it on a terminal, here `<`.

  $ cat > given << END
  > target = "replace"
  > variant = "late_sync"
  > pairs = true
  > [replace]
  > old = "old"
  > replacements = [["ne", "w"]]
  > END
  $ lines() { tr '\r\033' '<>' | sed 's/<>\[K/</g'; }
  $ for words in run 'run --brief' page 'reduce --scenario replace::sync=return;replace::write=off'; do
  >     paklour $words given > plain 2> nothing
  >     status=$?
  >     for option in --progress --progress=line --progress=plain; do
  >         paklour $words $option given > out 2> fault
  >         test $? -eq $status || echo "$words $option: another status"
  >         cmp plain out || echo "$words $option: another text"
  >     done
  >     test ! -s nothing || echo "$words: shown without the option"
  > done

With one worker the first line is that of the first plan, of as many as `plans` lists, and the last bytes erase the line.

  $ paklour plans given | wc -l
  49
  $ paklour run --progress given 2>&1 > /dev/null | lines | cut -d '<' -f 2
  plans 1 of 49, 0 failing
  $ paklour run --progress=line given 2>&1 > /dev/null | lines | cut -d '<' -f 2
  plans 1 of 49, 0 failing
  $ paklour run --progress given 2>&1 > /dev/null | lines | grep -c '<$'
  1

Each line has one of these forms. The pace is told once a second of the plans has gone.

  $ pace=', [0-9]* a second, [0-9]*:[0-5][0-9]:[0-5][0-9] left'
  $ paklour run --progress given 2>&1 > /dev/null | lines | tr '<' '\n' | grep -v -x -e "plans [0-9]* of 49, [0-9]* failing\($pace\)\?" -e 'reducing: test [0-9]*' -e ''
  [1]
  $ paklour reduce --progress --scenario 'replace::sync=return;replace::write=off' given 2>&1 > /dev/null | lines | grep -c -x '<reducing: test 1\(<reducing: test [0-9]*\)*<'
  1

In a campaign that takes more than a second, the pace stands there, and the rest takes about as long as plans do at that pace: as many as
have begun have ended, but for those of a range of 16.

  $ long() {
  >     printf 'target = "replace"\nvariant = "late_sync"\nseed = 7\nmax_hits = 100000\nstorms = %s\n[replace]\nold = "old"\nreplacements = [["ne", "w"]' $1
  >     for n in $(seq $2); do printf ', ['; seq -s , $3 | sed 's/[0-9][0-9]*/"&"/g' | tr -d '\n'; printf ']'; done
  >     echo ']'
  > }
  $ for size in '3000 2 2' '10000 2 2' '10000 200 2' '10000 900 2' '10000 400 40'; do
  >     long $size > slow
  >     paklour run --brief --progress slow 2>&1 > /dev/null | lines | tr '<' '\n' > shown
  >     ! grep -q ' a second' shown || break
  > done
  $ grep -q ' a second' shown || echo 'no pace'
  $ plans=$(paklour plans slow | wc -l)
  $ grep -v -x -e "plans [0-9]* of $plans, [0-9]* failing\($pace\)\?" -e 'reducing: test [0-9]*' -e '' shown
  [1]
  $ tr ',:' '  ' < shown | awk '/a second/ {
  >     rest = $4 - $2; rate = $7; left = ($10 * 60 + $11) * 60 + $12
  >     if (left < rest / (rate + 1) || left > (rest + 16) / rate + 1) print "another time left:", $0
  > }'

Lines for logs are whole lines without control bytes: one at the first plan, one at the first test, and others no sooner than five seconds
after the last.

  $ paklour run --progress=plain given 2>&1 > /dev/null | head -n 1
  plans 1 of 49, 0 failing
  $ paklour run --progress=plain given 2>&1 > /dev/null | grep -c -x 'reducing: test 1'
  1
  $ paklour run --progress=plain given 2>&1 > /dev/null | tr -d '\n' | LC_ALL=C grep -c '[[:cntrl:]]'
  0
  [1]
  $ paklour run --progress=plain given 2>&1 > /dev/null | grep -v -x -e "plans [0-9]* of 49, [0-9]* failing\($pace\)\?" -e 'reducing: test [0-9]*'
  [1]
  $ paklour reduce --progress=plain --scenario 'replace::sync=return;replace::write=off' given 2>&1 > /dev/null | head -n 1
  reducing: test 1

Where both are asked for it is lines for logs.

  $ paklour run --progress --progress=plain given 2>&1 > /dev/null | head -n 1
  plans 1 of 49, 0 failing

Of a list that grows each level is a stage, as large as depth.t has it, and the plans from then on are one. How many fail is told of all levels so
far.

  $ cat > forced << END
  > target = "commit"
  > variant = "two_tries"
  > seed = 7
  > depth = 3
  > [commit]
  > participants = 2
  > transactions = [["yes", "yes"]]
  > END
  $ paklour run --progress=plain forced 2>&1 > /dev/null | cut -d , -f 1
  level 0: plan 1 of 1
  level 1: plan 1 of 26
  level 2: plan 1 of 66
  level 3: plan 1 of 46
  onward: plan 1 of 3
  reducing: test 1
  $ paklour run forced | grep '^verdict ' | head -n 139 | grep -c ' fail '
  9
  $ paklour run --progress=plain forced 2>&1 > /dev/null | grep onward
  onward: plan 1 of 3, 9 failing
  $ form="\(level [0-3]:\|onward:\) plan [0-9]* of [0-9]*, [0-9]* failing\($pace\)\?\(; [0-9]* in the next so far\)\?"
  $ paklour run --progress forced 2>&1 > /dev/null | lines | tr '<' '\n' | grep -v -x -e "$form" -e 'reducing: test [0-9]*' -e ''
  [1]

Where the command is refused before anything has run, or its output takes nothing, the line of the fault stands alone at the end.

  $ paklour run --progress < /dev/null
  settings: missing target
  [2]
  $ paklour run --progress given 2>&1 > /dev/full | lines | sed 's/^.*<//'
  write failed after 0 bytes
  $ paklour run --progress=plain given 2>&1 > /dev/full | tail -n 1
  write failed after 0 bytes

Standard error that takes nothing, or that nobody reads, changes nothing.

  $ paklour run given > plain
  [1]
  $ for option in --progress --progress=plain; do
  >     paklour run $option given > out 2> /dev/full
  >     echo $?; cmp plain out
  >     paklour run $option given > out 2>&-
  >     echo $?; cmp plain out
  >     (paklour run $option given 2>&1 > out; echo $? > status) | true
  >     cat status; cmp plain out
  > done
  1
  1
  1
  1
  1
  1
