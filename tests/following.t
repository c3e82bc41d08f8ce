`asks --follow` asks while answers come: each scenario once, as soon as it is known.

  $ cat > two.toml << END
  > target = "outside"
  > depth = 2
  > [outside]
  > label = "two points"
  > codes = ["lost"]
  > points = ["a", "b"]
  > END
  $ line() { printf '%s\t%s\t%s\n' "$@"; }
  $ mkfifo answers asked
  $ paklour asks --follow two.toml < answers > asked &
  $ exec 3> answers 4< asked
  $ next() { read -r scenario <&4 && echo "$scenario"; }

At first nothing is answered. The run without faults hits `a` alone.

  $ next
  none
  $ line pass none a >&3
  $ next; next
  a=1*return
  a=1*panic

If `a` fails, `b` is hit too. What grows from this run is asked for before the other run of its level is answered.

  $ line pass 'a=1*return' 'a;b' >&3
  $ next; next
  a=1*return;b=1*return
  a=1*return;b=1*panic

An answer may come in pieces, and several may come together. Once nothing is left to be tried, the command ends, though more could come.

  $ printf 'pass\ta=1*pan' >&3; printf 'ic\ta\n' >&3
  $ { line pass 'a=1*return;b=1*panic' 'a;b'; line 'fail lost' 'a=1*return;b=1*return' 'a;b'; } > last
  $ cat last >&3
  $ wait $!
  $ next
  [1]
  $ exec 3>&- 4<&-

A file is read whole. What its answers answer is asked for only as far as nothing was known at first.

  $ { line pass none a; line pass 'a=1*return' 'a;b'; } > known
  $ paklour asks --follow two.toml < known
  none
  a=1*panic
  a=1*return;b=1*return
  a=1*return;b=1*panic
  $ paklour asks --follow two.toml < /dev/null
  none

Without a depth all plans are known from the beginning.

  $ cat > counted.toml << END
  > target = "outside"
  > [outside]
  > label = "one point"
  > codes = ["lost"]
  > points = ["a"]
  > hits = [1]
  > END
  $ printf 'pass\tnone\nfail lost\ta=1*return\n' | paklour asks --follow counted.toml
  none
  a=1*return
  a=return
  a=1*panic

The answers are refused as by `asks`, once they are whole lines or at their end.

  $ { cat known; line passed 'a=1*panic' a; } > refused
  $ paklour asks --follow two.toml < refused
  none
  answers: line 3: no such verdict "passed"; verdicts are pass, unresolved, and fail with a code
  [2]
  $ { line pass none a; line pass 'a=1*return' b; } > broken
  $ paklour asks --follow two.toml < broken
  none
  answers: line 2: hits differ from line 1 at hit 1
  [2]
  $ printf 'pass\tnone' > torn
  $ paklour asks --follow two.toml < torn
  none
  answers: line 1: not ended; a line feed is missing, so the line may have been cut off: delete it
  [2]

Names that no point has are noted at the end.

  $ { cat known last; line pass 'a=1*panic' a; line pass 'c=1*return' a; } > named
  $ paklour asks --follow two.toml < named
  none
  answers: line 6: no point is named c

Settings of another target and settings that aren't there are refused before any answer is read, and so is an output that is full once something was to
be written.

  $ printf 'target = "commit"\n[commit]\nparticipants = 1\ntransactions = [["yes"]]\n' > commit.toml
  $ paklour asks --follow commit.toml < known
  settings: target not outside: only run, plans, try, reduce and explain
  [2]
  $ paklour asks --follow none.toml < known
  settings: not readable
  [2]
  $ paklour asks --follow two.toml < known > /dev/full
  write failed after 0 bytes
  [4]
