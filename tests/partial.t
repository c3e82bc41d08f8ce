What is known before all is answered.

  $ cat > two.toml << END
  > target = "outside"
  > seed = 3
  > [outside]
  > label = "two points"
  > codes = ["lost", "torn"]
  > points = ["a", "b"]
  > hits = [2, 1]
  > END

What is known so far is no report: plans without an answer may fail too.

  $ : > answers
  $ paklour report --partial two.toml < answers
  target two points
  seed 3
  answered 0 of 10
  first so far none
  $ printf 'pass\tnone\nfail torn\ta=1*return\nunresolved\tb=return\nfail lost\ta=return\n' > answers
  $ paklour report --partial two.toml < answers
  target two points
  seed 3
  answered 4 of 10
  known fail torn a=1*return
  known fail lost a=return
  known unresolved b=return
  first so far torn a=1*return
  [1]
  $ paklour report two.toml < answers
  not answered a=1*panic
  [2]

With a depth the list is known as far as answers tell hits.

  $ sed -i -e 's/^hits.*//' -e 's/^seed.*/&\ndepth = 1/' two.toml
  $ printf 'pass\tnone\ta;b\n' > answers
  $ paklour report --partial two.toml < answers
  target two points
  seed 3
  answered 1 of 5 known
  first so far none
  $ printf 'unresolved\tb=1*panic\t-\nfail lost\ta=1*return\t2*a;b\n' >> answers
  $ paklour report --partial two.toml < answers
  target two points
  seed 3
  answered 3 of 6 known
  known fail lost a=1*return
  known unresolved b=1*panic
  first so far lost a=1*return
  [1]

Where a run breaks with another one nothing is told.

  $ printf 'pass\tb=1*return\ta;a;b\n' | sed 's/a;a/2*a/' >> answers
  $ paklour report --partial two.toml < answers
  answers: line 4: hits differ from line 1 at hit 2
  [2]
