From here on the program itself is needed.

A report with a depth says something of each component that agrees with the answers. So answers with which none agrees ought to be refused, and all others ought to
be taken. all_answers.py tries small texts, and decides by a search of its own, which knows no plans, whether a component agrees. Each refusal has to name two
lines with which none does, and the place at which they differ.

One kind of text is refused though a component agrees: it answers one scenario twice, once with hits and once without. Any other difference fails.

  $ "$TESTDIR/all_answers.py" 97
  5447 texts, 4337 refused
  1110 taken, and some component agrees, 360 of them with nothing left to ask
    pass none
  4333 refused, and none does
    pass none / pass none 3*b
  4 refused, though one does: one scenario, with hits and without
    unresolved none a;2*b / unresolved none -
