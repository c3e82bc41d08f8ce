Campaigns on components that somebody else runs, as docs/OUTSIDE.md tells: settings say what a component is, `asks` says what is still to be
tried, a file of answers is all that is known, and `report` tells what comes of it.

What is asked of two points before anything is known, tidied, each once; and what is told where a plan lacks its answer.

  $ cat > small.toml << END
  > target = "outside"
  > scenarios = ["a=1*return->off;b=0*panic", "b= 1*return(no)"]
  > [outside]
  > label = "two points"
  > codes = ["lost", "torn"]
  > points = ["a", "b"]
  > hits = [1, 0]
  > END
  $ paklour asks small.toml < /dev/null
  none
  a=1*return
  a=return
  a=1*panic
  b=1*return(no)
  $ paklour report small.toml < /dev/null
  not answered none
  [2]
  $ printf 'pass\tnone\npass\ta=return\nunresolved\ta=1*panic\n' > answers
  $ paklour asks small.toml < answers
  a=1*return
  b=1*return(no)
  $ paklour report small.toml < answers
  not answered a=1*return
  [2]

A failure is reduced: the candidates of its first round are asked before the other plans.

  $ cat > two.toml << END
  > target = "outside"
  > scenarios = ["a=return;b=return", "c=return"]
  > [outside]
  > label = "three points"
  > codes = ["lost", "torn"]
  > points = ["a", "b", "c"]
  > hits = [0, 0, 0]
  > END
  $ printf 'pass\tnone\nfail torn\ta=return;b=return\n' > answers
  $ paklour asks two.toml < answers
  a=return
  b=return
  c=return
  $ printf 'fail lost\ta=return\npass\tb=return\nunresolved\tc=return\n' >> answers
  $ paklour asks two.toml < answers
  $ paklour report two.toml < answers
  target three points
  seed 0
  clean pass
  census a 0
  census b 0
  census c 0
  plans 3
  verdict 0 pass
  verdict 1 fail torn
  verdict 2 unresolved
  first 1 torn
  scenario a=return;b=return
  reduced a=return;b=return
  tests 3
  [1]

Answers may tell hits without a depth too. Then each run that tells them is explained, and plans are counted that pass without meeting all of their faults.

  $ cat > met.toml << END
  > target = "outside"
  > scenarios = ["a=return;b=1*return"]
  > [outside]
  > label = "two points"
  > codes = ["lost"]
  > points = ["a", "b"]
  > hits = [1, 0]
  > END
  $ { printf 'pass\tnone\ta\npass\ta=1*return\t2*a\npass\ta=return\n'; printf 'unresolved\ta=1*panic\t-\npass\ta=return;b=1*return\t2*a\n'; } > told
  $ paklour asks met.toml < told
  $ paklour report met.toml < told
  target two points
  seed 0
  clean pass
  census a 1
  census b 0
  plans 5
  verdict 0 pass
  verdict 1 pass
  verdict 2 pass
  verdict 3 unresolved
  verdict 4 pass
  unmet 1
  first none
  $ paklour report --brief met.toml < told | tail -n 4
  counts pass 4 unresolved 1
  verdict 3 unresolved a=1*panic
  unmet 1
  first none
  $ paklour report --explain ' a = return ;b=1*return' met.toml < told
  verdict pass
  hit 1 a 1 return
  hit 2 a 2 return
  idle b=1*return
  $ paklour report --explain a=return met.toml < told
  answers: line 3: hits unknown; only a run whose hits are recorded can be explained
  [2]
  $ paklour report --explain a=1*panic met.toml < told
  answers: line 4: hits unknown; only a run whose hits are recorded can be explained
  [2]
  $ paklour report --explain b=return met.toml < told
  not answered b=return
  [2]

The hits of the run without faults have to be those of the settings. What one line tells of hits and another doesn't, or tells otherwise, contradicts it.

  $ for question in asks report 'report --partial'; do sed 's/none\ta/none\t2*a/' told | paklour $question met.toml; done
  answers: line 1: hits differ from the settings; the hits of none are those of outside.hits
  answers: line 1: hits differ from the settings; the hits of none are those of outside.hits
  answers: line 1: hits differ from the settings; the hits of none are those of outside.hits
  [2]
  $ (cat told; printf 'pass\ta=return\ta\n') | paklour asks met.toml
  answers: line 6: contradicts line 3, which answers the same scenario otherwise
  [2]
  $ (cat told; printf 'pass\tnone\n') | paklour asks met.toml
  answers: line 6: contradicts line 1, which answers the same scenario otherwise
  [2]
  $ printf 'pass\tnone\ta;c\n' | paklour asks met.toml
  answers: line 1: no such point "c"; points are a, b
  [2]

Each fault of the answers is told with its line; the first one is told.

  $ told() { printf "$1" | paklour report small.toml; }
  $ told 'pass none\n'
  answers: line 1: no tab; a verdict and a scenario are written with a tab between them
  [2]
  $ told 'pass\tnone\npassed\ta=return\n'
  answers: line 2: no such verdict "passed"; verdicts are pass, unresolved, and fail with a code
  [2]
  $ told 'fail lost\tnone\nfail\tnone\n'
  answers: line 2: no such verdict "fail"; verdicts are pass, unresolved, and fail with a code
  [2]
  $ told 'fail stale\tnone\n'
  answers: line 1: no such code "stale"; codes are lost, torn
  [2]
  $ told 'fail \tnone\n'
  answers: line 1: no such code ""; codes are lost, torn
  [2]
  $ sed 's/^codes = .*/codes = []/' small.toml > none.toml
  $ printf 'fail lost\tnone\n' | paklour report none.toml
  answers: line 1: no such code "lost"; there are no codes
  [2]
  $ told 'pass\ta=retrun\n'
  answers: line 1: UnknownTask entry 1 term 1
  [2]
  $ told 'pass\ta=return(\001)\n'
  answers: line 1: a control character in the scenario; a scenario has none
  [2]
  $ told 'pass\t\377\n'
  answers: line 1: not UTF-8
  [2]
  $ told 'pass\tnone\npass\ta=return'
  answers: line 2: not ended; a line feed is missing, so the line may have been cut off: delete it
  [2]
  $ told '\n'
  answers: line 1: no tab; a verdict and a scenario are written with a tab between them
  [2]
  $ told 'pass\ta=1*return\nfail torn\tnone\nunresolved\ta= 1*return -> off\n'
  answers: line 3: contradicts line 1, which answers the same scenario otherwise
  [2]
  $ paklour asks small.toml < .
  answers: not readable
  [2]

Settings of such a component and a bundled target are taken for one another by no command; FILE has to be there, since standard input has the
answers.

  $ paklour run small.toml
  settings: target outside: only plans, asks and report
  [2]
  $ paklour try --scenario a=return small.toml
  settings: target outside: only plans, asks and report
  [2]
  $ paklour reduce --scenario a=return small.toml
  settings: target outside: only plans, asks and report
  [2]
  $ printf '%s\n' 'target = "commit"' 'seed = 5' '[commit]' 'participants = 2' 'transactions = [["yes", "yes"]]' > bundled.toml
  $ paklour asks bundled.toml < /dev/null
  settings: target not outside: only run, plans, try, reduce and explain
  [2]
  $ paklour report no_such_file < /dev/null
  settings: not readable
  [2]
  $ paklour asks < /dev/null 2>&1 | head -n 1
  error: the following required arguments were not provided:

Answers have up to 268435456 bytes.

From here on the program itself is needed.

  $ head -c 268435457 /dev/zero | paklour asks small.toml
  answers: too long
  [2]
