Campaigns with a depth on components that somebody else runs: plans grow from the hits that answers tell.

One by hand. Without faults it hits `a` and `b`; where one fails, `c` cleans up, and a panic ends it. The first failure behind a failure that is lost is that of
`a`, whose clean-up fails.

  $ cat > three.toml << END
  > target = "outside"
  > depth = 2
  > [outside]
  > label = "three points"
  > codes = ["lost"]
  > points = ["a", "b", "c"]
  > END
  $ line() { printf '%s\t%s\t%s\n' "$@"; }
  $ paklour asks three.toml < /dev/null
  none
  $ line pass none 'a;b' > answers
  $ paklour asks three.toml < answers
  a=1*return
  a=1*panic
  b=1*return
  b=1*panic

No level waits for the one before, and the report waits for the first plan in order.

  $ line pass 'b=1*return' 'a;b;c' >> answers; line pass 'a=1*return' 'a;c' >> answers
  $ paklour asks three.toml < answers
  a=1*panic
  b=1*panic
  a=1*return;c=1*return
  a=1*return;c=1*panic
  b=1*return;c=1*return
  b=1*return;c=1*panic
  $ paklour report three.toml < answers
  not answered a=1*panic
  [2]
  $ line unresolved 'a=1*panic' 'a' >> answers; line pass 'b=1*panic' 'a;b' >> answers
  $ line 'fail lost' ' a = 1*return ; c=1*return' 'a;c' >> answers; line pass 'a=1*return;c=1*panic' 'a;c' >> answers
  $ line pass 'b=1*return;c=1*return' 'a;b;c' >> answers; line pass 'b=1*return;c=1*panic' 'a;b;c' >> answers
  $ paklour asks three.toml < answers
  $ paklour report three.toml < answers
  target three points
  seed 0
  clean pass
  census a 1
  census b 1
  census c 0
  depth 2
  level 0 1
  level 1 4
  level 2 4
  onward 0
  beyond 0
  reached a 1
  reached b 1
  reached c 1
  plans 9
  verdict 0 pass
  verdict 1 pass
  verdict 2 unresolved
  verdict 3 pass
  verdict 4 pass
  verdict 5 fail lost
  verdict 6 pass
  verdict 7 pass
  verdict 8 pass
  first 5 lost
  scenario a=1*return;c=1*return
  reduced a=1*return;c=1*return
  tests 3
  causes 1
  cause 5 lost a=1*return;c=1*return
  [1]
  $ paklour report --strict three.toml < answers 2>&1 > /dev/null
  strict: 1 of 9 plans unresolved
  [1]

A point that plans reach only behind the depth is one that no run reaches, unless a listed scenario does: here `c` cleans up after both fail.

  $ sed 's/depth = 2/depth = 1/' three.toml > both.toml
  $ for at in a b; do for kind in return panic; do line pass "$at=1*$kind" "$([ $at-$kind = a-panic ] && echo a || echo 'a;b')"; done; done > each
  $ line pass none 'a;b' | cat - each > both
  $ paklour report --strict both.toml < both > /dev/null
  strict: no run reaches c
  [5]
  $ sed -i '2a scenarios = ["a=return;b=return"]' both.toml
  $ line pass 'a=return;b=return' 'a;b;c' >> both
  $ paklour report --strict both.toml < both > /dev/null

Each run that is told is explained, hit by hit; any spelling of its scenario does.

  $ paklour report --explain none three.toml < answers
  verdict pass
  hit 1 a 1 go
  hit 2 b 1 go
  $ paklour report --explain 'a=1*return; c = 1*return ' three.toml < answers
  verdict fail lost
  hit 1 a 1 return
  hit 2 c 1 return
  [1]
  $ paklour report --explain a=1*panic three.toml < answers
  verdict unresolved
  hit 1 a 1 panic
  stopped panic
  $ { cat answers; line pass 'b=1*off->return;c=pause' 'a;b'; } > more
  $ paklour report --explain 'b=1*off->return;c=pause' three.toml < more
  verdict pass
  hit 1 a 1 go
  hit 2 b 1 go
  idle b=return
  idle c=pause
  $ paklour report --explain c=1*return three.toml < answers
  not answered c=1*return
  [2]
  $ paklour report --explain 'c=1*return->1*return;c' three.toml < answers
  scenario: NoAction entry 2 term 0
  [2]

To depth 1 the same answers do, with nothing behind them: `a` isn't hit again after its failure, nor is `b`.

  $ sed 's/depth = 2/depth = 1/' three.toml > one.toml
  $ paklour asks one.toml < answers
  $ paklour report --brief one.toml < answers | grep -E '^(level|onward|beyond|reached c|plans|counts|first|causes)'
  level 0 1
  level 1 4
  onward 0
  beyond 4
  reached c 1
  plans 5
  counts pass 4 unresolved 1
  first none
  causes 0

Settings may list which faults are tried at a point, and in which order: here a disk that is full, then any other failure, and no panic. From then on each
return goes on with its own text.

  $ cat > kinds.toml << END
  > target = "outside"
  > depth = 1
  > [outside]
  > label = "a full disk"
  > codes = ["lost"]
  > points = ["a", "b"]
  > [outside.kinds]
  > a = ["return(ENOSPC)", "return"]
  > END
  $ line pass none 'a;b' > answers
  $ paklour asks kinds.toml < answers
  a=1*return(ENOSPC)
  a=1*return
  b=1*return
  b=1*panic
  $ line 'fail lost' 'a=1*return(ENOSPC)' '2*a' >> answers; line pass a=1*return a >> answers
  $ line pass b=1*return 'a;b' >> answers; line pass b=1*panic 'a;b' >> answers
  $ paklour asks kinds.toml < answers
  a=return(ENOSPC)
  $ line 'fail lost' 'a=return(ENOSPC)' '2*a' >> answers
  $ paklour asks kinds.toml < answers
  $ paklour report kinds.toml < answers
  target a full disk
  seed 0
  clean pass
  census a 1
  census b 1
  depth 1
  level 0 1
  level 1 4
  onward 1
  beyond 2
  reached a 2
  reached b 1
  plans 6
  verdict 0 pass
  verdict 1 fail lost
  verdict 2 pass
  verdict 3 pass
  verdict 4 pass
  verdict 5 fail lost
  first 1 lost
  scenario a=1*return(ENOSPC)
  reduced a=1*return(ENOSPC)
  tests 1
  causes 2
  cause 1 lost a=1*return(ENOSPC)
  cause 5 lost a=return(ENOSPC)
  [1]

The document tells each plan that grew by its faults, in the order in which they act, and so the one from then on.

  $ paklour report --json kinds.toml < answers | sed -n '/"grown": \[/,/\]/p'
      "grown": [
        "",
        "0 1 1*return(ENOSPC)",
        "0 1 1*return",
        "1 1 1*return",
        "1 1 1*panic",
        "0 1 return(ENOSPC)"
      ],

Hits in a row, and a fault from then on, which is asked where its point is hit again.

  $ cat > row.toml << END
  > target = "outside"
  > depth = 1
  > [outside]
  > label = "a row"
  > codes = []
  > points = ["a"]
  > END
  $ { line pass none '2*a'; line pass a=1*return '3*a'; line pass 'a=1*off->1*return' '2*a'; } > answers
  $ { line pass a=1*panic 'a'; line pass 'a=1*off->1*panic' '2*a'; } >> answers
  $ paklour asks row.toml < answers
  a=return
  $ line pass a=return '2*a' >> answers
  $ paklour report --brief row.toml < answers
  target a row
  seed 0
  clean pass
  census a 2
  depth 1
  level 0 1
  level 1 4
  onward 1
  beyond 4
  reached a 3
  plans 6
  counts pass 6 unresolved 0
  first none
  causes 0

Where nothing is hit there is one plan; where too much is, the list is refused before its first plan with a fault is asked. The longest list is
at the end.

  $ line pass none '' | paklour report --brief row.toml | grep -E '^(level|plans)'
  level 0 1
  level 1 0
  plans 1
  $ line pass none '32768*a' | paklour asks row.toml
  too many plans
  [2]

What is wrong with a line
-------------------------

  $ told() { line "$@" | paklour asks three.toml; }
  $ printf 'pass\tnone\n' | paklour asks three.toml
  answers: line 1: no hits; with a depth they stand behind a second tab, or - if nobody knows them
  [2]
  $ told pass none 'a;d'
  answers: line 1: no such point "d"; points are a, b, c
  [2]
  $ told pass none 'a;'
  answers: line 1: no such point ""; points are a, b, c
  [2]
  $ told pass none 'a; b'
  answers: line 1: no such point " b"; points are a, b, c
  [2]
  $ told pass none 'a;a'
  answers: line 1: one point twice in a row; write it once with its count, such as 2*a
  [2]
  $ told pass none '2*a;3*a'
  answers: line 1: one point twice in a row; write it once with its count, such as 2*a
  [2]
  $ told pass none 'a;2*d'
  answers: line 1: no such point "d"; points are a, b, c
  [2]
  $ told pass none '1*a'
  answers: line 1: bad count
  [2]
  $ told pass none '02*a'
  answers: line 1: bad count
  [2]
  $ told pass none '*a'
  answers: line 1: bad count
  [2]
  $ told pass none '65535*a;2*b'
  answers: line 1: bad count
  [2]

A line has 65536 hits at most, and is refused before any hit is made of its counts: also where only 10 MB of memory are to be had.

  $ told pass none '65535*a;b'
  too many plans
  [2]
  $ (ulimit -v 10240; told pass none '1000000000*a')
  answers: line 1: bad count
  [2]
  $ told pass 'd=retrun' 'a;a'
  answers: line 1: UnknownTask entry 1 term 1
  [2]
  $ { line pass 'b=1*return' 'a;b'; line pass ' b=1*return' 'a;b;c'; } | paklour asks three.toml
  answers: line 2: contradicts line 1, which answers the same scenario otherwise
  [2]
  $ { line pass 'b=1*return' 'a;b'; line unresolved ' b=1*return' 'a;b'; } | paklour asks three.toml
  answers: line 2: contradicts line 1, which answers the same scenario otherwise
  [2]

A component that doesn't do the same twice
------------------------------------------

A run goes as the one that it grew from, up to its last fault. It is refused where it hits another point, and where it ends before. What comes behind the fault is its own.

  $ broken() { { line pass none 'a;b'; line "$@"; } > broken; paklour asks three.toml < broken; paklour report three.toml < broken; }
  $ broken pass 'b=1*return' 'c;b'
  answers: line 2: hits differ from line 1 at hit 1
  answers: line 2: hits differ from line 1 at hit 1
  [2]
  $ broken pass 'b=1*return' 'a;c;b'
  answers: line 2: hits differ from line 1 at hit 2
  answers: line 2: hits differ from line 1 at hit 2
  [2]
  $ broken pass 'b=1*panic' 'a'
  answers: line 2: hits differ from line 1 at hit 2
  answers: line 2: hits differ from line 1 at hit 2
  [2]
  $ broken pass 'a=1*return' ''
  answers: line 2: hits differ from line 1 at hit 1
  answers: line 2: hits differ from line 1 at hit 1
  [2]
  $ broken unresolved 'a=1*return' 'a;c;b' 2>&1 | head -n 1
  a=1*panic

With its last fault from then on a run goes as with this fault once, up to the next hit of the point; what comes behind that is its own. The line that is
named beside it is the first that says what comes after the answers so far: before any answer that is line 1, and after the return line 2.

  $ row() { head -n 5 answers > row; line "$@" >> row; paklour asks row.toml < row; paklour report row.toml < row; }
  $ sed -i 's/"a"/"a", "b"/' row.toml
  $ { line pass none '2*a'; line pass a=1*return '2*a'; line pass a=1*panic 'a'; } > answers
  $ { line pass 'a=1*off->1*return' '2*a'; line pass 'a=1*off->1*panic' '2*a'; } >> answers
  $ row pass a=return 'b;2*a'
  answers: line 6: hits differ from line 1 at hit 1
  answers: line 6: hits differ from line 1 at hit 1
  [2]
  $ row pass a=return 'a;b;a'
  answers: line 6: hits differ from line 2 at hit 2
  answers: line 6: hits differ from line 2 at hit 2
  [2]
  $ row pass a=return ''
  answers: line 6: hits differ from line 1 at hit 1
  answers: line 6: hits differ from line 1 at hit 1
  [2]
  $ row pass a=return 'a'
  answers: line 6: hits differ from line 2 at hit 2
  answers: line 6: hits differ from line 2 at hit 2
  [2]
  $ row pass a=return '2*a;b' | tail -n 1
  causes 0

The first of them by the plans' order is told, whatever the lines' order. If the run that they grew from isn't known, two others may contradict
each other.

  $ { line pass 'b=1*return;c=1*return' 'a;b'; line pass 'b=1*return' 'a;b;c'; line pass 'b=1*panic' 'b'; line pass none 'a;b'; } > broken
  $ paklour asks three.toml < broken
  answers: line 3: hits differ from line 4 at hit 1
  [2]
  $ sed '3d' broken | paklour asks three.toml
  answers: line 1: hits differ from line 2 at hit 3
  [2]
  $ sed '3,4d' broken | paklour asks three.toml
  answers: line 2: hits differ from line 1 at hit 3
  [2]

Two lines with one run
----------------------

Where the faults of a scenario act as those of a plan do, it has the plan's run. Its line has to say so, whether the settings list it or nobody asked. Here both
hits of `a` return one by one, and that is what a return from then on does.

  $ cat > both.toml << END
  > target = "outside"
  > depth = 1
  > scenarios = ["a=1*return->1*return"]
  > [outside]
  > label = "both"
  > codes = ["bad"]
  > points = ["a", "b"]
  > END
  $ { line pass none '2*a'; line pass a=1*return '2*a'; line pass a=1*panic a; line pass 'a=1*off->1*return' '2*a'; } > both
  $ { line pass 'a=1*off->1*panic' '2*a'; line pass a=return '2*a'; } >> both
  $ both() { { cat both; line "$@"; } > told; for words in asks report 'report --partial'; do paklour $words both.toml < told; done; }
  $ both 'fail bad' 'a=1*return->1*return' '2*a'
  answers: line 7: verdict differs from line 6
  answers: line 7: verdict differs from line 6
  answers: line 7: verdict differs from line 6
  [2]
  $ both unresolved 'a=1*return->1*return' - 2>&1 | sort -u
  answers: line 7: verdict differs from line 6
  $ both 'fail bad' 'a=1*return->1*return' 'a;b' 2>&1 | sort -u
  answers: line 7: hits differ from line 2 at hit 2
  $ both pass 'a=1*return->1*return' '2*a;b' 2>&1 | sort -u
  answers: line 7: hits differ from line 6 at hit 3
  $ both pass 'a=1*return->1*return' a 2>&1 | sort -u
  answers: line 7: hits differ from line 2 at hit 2
  $ both pass 'a=2*off->1*panic;b=1*return' '2*a;b' 2>&1 | sort -u
  answers: line 7: hits differ from line 1 at hit 3

The first such line is told, by the lines' order. It is told once the plan's line is there, and may stand before that.

  $ { line 'fail bad' 'a=1*return->1*return' '2*a'; line 'fail bad' b=1*return '2*a'; cat both; } | paklour asks both.toml
  answers: line 1: verdict differs from line 8
  [2]
  $ { head -n 5 both; line 'fail bad' 'a=1*return->1*return' '2*a'; line 'fail bad' b=1*return '2*a'; } | paklour asks both.toml
  answers: line 7: verdict differs from line 1
  [2]
  $ { head -n 5 both; line 'fail bad' 'a=1*return->1*return' '2*a'; } | paklour asks both.toml
  a=return

Lines that say the same are taken, and so is a scenario whose run is that of no plan: two faults that act, where a plan has one.

  $ { cat both; line pass b=1*return '2*a'; line pass 'a=1*return->1*return' '2*a'; cat both; } > told
  $ paklour asks both.toml < told
  $ paklour report --brief both.toml < told | grep -E '^(plans|counts|first)'
  plans 7
  counts pass 7 unresolved 0
  first none
  $ { cat told; line 'fail bad' 'a=1*return->1*panic' '2*a'; } | paklour asks both.toml

Runs that were ended
--------------------

Their hits are those up to there: what would have come behind these nobody knows. So where the next level is empty, the page says for how many runs that is
no end.

  $ cat > ended.toml << END
  > target = "outside"
  > depth = 1
  > [outside]
  > label = "ended"
  > codes = []
  > points = ["a", "b"]
  > END
  $ { line pass none 'a;b;a'; line unresolved a=1*return a; line unresolved a=1*panic a; line unresolved b=1*return 'a;b'; } > ended
  $ { line pass b=1*panic 'a;b'; line pass 'a=1*off->1*return' 'a;b;a'; line pass 'a=1*off->1*panic' 'a;b;a'; } >> ended
  $ paklour report --brief ended.toml < ended | grep -E '^(beyond|counts)'
  beyond 0
  counts pass 4 unresolved 3

Hits that nobody knows
----------------------

A run without them has no children, and the report counts it. Another verdict than `unresolved` tells hits.

  $ told pass none -
  answers: line 1: no such point "-"; points are a, b, c
  [2]
  $ { line pass none 'a;b'; line unresolved 'a=1*return' -; } > unknown
  $ paklour asks three.toml < unknown
  a=1*panic
  b=1*return
  b=1*panic
  $ { line pass a=1*panic a; line pass b=1*return 'a;b'; line pass b=1*panic 'a;b'; } >> unknown
  $ paklour asks three.toml < unknown
  $ paklour report --brief three.toml < unknown
  target three points
  seed 0
  clean pass
  census a 1
  census b 1
  census c 0
  depth 2
  level 0 1
  level 1 4
  level 2 0
  onward 0
  beyond 0
  unseen 1
  reached a 1
  reached b 1
  reached c 0
  plans 5
  counts pass 4 unresolved 1
  verdict 1 unresolved a=1*return
  first none
  causes 0
  $ { sed 2d unknown; line unresolved 'a=1*return' a; } | paklour report --brief three.toml | grep -E '^(beyond|unseen|reached a|plans|counts)'
  beyond 0
  reached a 1
  plans 5
  counts pass 4 unresolved 1
  $ paklour report --explain 'a = 1*return' three.toml < unknown
  answers: line 2: hits unknown; only a run whose hits are recorded can be explained
  [2]

Of a run without faults nobody may know them either: then there is no census, and no plan but it.

  $ line unresolved none - | paklour asks three.toml
  $ line unresolved none - | paklour report three.toml | grep -vE '^(target|seed|depth)'
  clean unresolved
  census a 0
  census b 0
  census c 0
  level 0 1
  level 1 0
  level 2 0
  onward 0
  beyond 0
  unseen 1
  reached a 0
  reached b 0
  reached c 0
  plans 1
  verdict 0 unresolved
  first none
  causes 0

So it goes in the loop, where a run takes too long and nobody knows its hits; without its line it is tried again, and nothing else is.

  $ cat > try.sh << 'END'
  > #!/bin/sh
  > echo "$1" >> tried
  > [ "$1" != b=1*return ] || [ ! -e slow ] || sleep 60
  > case $1 in
  > none | 'b=1*panic') hits='a;b' ;;
  > 'a=1*panic') hits=a ;;
  > a=*) hits='a;c' ;;
  > *) hits='a;b;c' ;;
  > esac
  > [ "$1" = 'a=1*return;c=1*return' ] && verdict='fail lost' || verdict=pass
  > printf '%s\t%s\t%s\n' "$verdict" "$1" "$hits"
  > END
  $ chmod +x try.sh
  $ loop() { "$TESTDIR/../outside/loop" -j 1 --seconds 5 --brief three.toml looped ./try.sh; }
  $ touch slow
  $ loop 2> ended | grep -E '^(level|unseen|counts|first|cause)'; cat ended
  level 0 1
  level 1 4
  level 2 2
  unseen 1
  counts pass 5 unresolved 1 lost 1
  first 5 lost
  causes 1
  cause 5 lost a=1*return;c=1*return
  loop: the run was ended after 5 seconds (--seconds): b=1*return
  $ rm slow tried
  $ sed -i '/\t-$/d' looped
  $ loop | grep -E '^(counts|first|cause)'
  counts pass 8 unresolved 0 lost 1
  first 5 lost
  causes 1
  cause 5 lost a=1*return;c=1*return
  $ cat tried
  b=1*return
  b=1*return;c=1*return
  b=1*return;c=1*panic
  a=1*return;c=1*return

And where it doesn't do the same twice.

  $ rm looped
  $ sed -i "s/^none | /'b=1*panic') hits='c;b' ;;\n&/" try.sh
  $ loop
  answers: line 5: hits differ from line 1 at hit 1
  loop: line 5 is the run of b=1*panic, which doesn't repeat an earlier run: look for clocks, threads, random names, or a port that runs share (-j 1)
  [2]

The longest list
----------------

A run without faults that hits one point 32,767 times has 65,534 plans with one fault. With itself, and the one whose fault is from then on, these are
all 65,536 plans that a list has.

From here on the program itself is needed.

  $ printf '%s\n' 'target = "outside"' 'depth = 1' '[outside]' 'label = "a row"' 'codes = []' 'points = ["a"]' > row.toml
  $ line pass none '32767*a' | paklour asks row.toml | wc -l
  65534

Runs that hit a point thousands of times are compared by what they have in common, and not hit by hit. After all runs of 16,000 hits with one fault the
onward plans are left: one for each hit but the last. Hit by hit these are 400 million comparisons, which takes longer than this allows.

  $ python3 - << 'END' > long
  > count = lambda hits: "a" if hits == 1 else f"{hits}*a"
  > print(f"pass\tnone\t{count(16000)}")
  > for hit in range(1, 16001):
  >     before = f"{hit - 1}*off->" if hit > 1 else ""
  >     print(f"pass\ta={before}1*return\t{count(16000)}")
  >     print(f"pass\ta={before}1*panic\t{count(hit)}")
  > END
  $ (ulimit -t 15; paklour asks row.toml < long | wc -l)
  15999
