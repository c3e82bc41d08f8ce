The examples of docs/GUIDE.md, as a reader performs those of each section in a folder of their own: what their commands write is what the page shows. What fails follows from what
each program does wrong, and what its judge wants:

- `log.py` and `deliver.py` don't look at how much was written. `deliver.py` and `serve.py` go on where the sync of their file fails; that of the folder is the
first sync of `serve.py`, and ends it.
- `save.py` has a name on the disk before the contents, where the sync behind the rename fails or ends the run.
- `count.py` takes what it can't read for nothing: its second start opens `count` fourth, behind three opens of the first, and reads it twice, up to its end.
- `add.py` hits open, read, write, fsync in the first process, with `order::next` before each, as the second one waits; then four calls in the second. These are
8 calls with two kinds and 4 hits with one, so plans 1 to 20. Each of the first 8 hits has a later one of its point, so 21 to 28 are from then on, in the order of
the hits. A line is lost where the second process reads between the read and the write of the first: it has to go first twice, at its open and its read, so
from the third choice on. That is the fifth of these hits: plan 25. From another choice on either process is through before the other reads.

- `accept.py` hits open twice, write, fsync, rename, `ask` and fsync: 14 plans, 2 more of the write, and `none`. Python writes what is left once more as it closes the
file, so a write that fails or does half is followed by another one: 3 more are from then on. Only where `ask` fails is the word refused.

- `put.sh` hits open, write, open, fsync, rename, open, fsync: 14 plans, 2 more of the write, and `none`. From then on: a write that does half goes on by halves,
a `sync` whose open fails tries it once more, twice, and the first fsync goes on to the second. These are 21.

  $ guide=$TESTDIR/../docs/GUIDE.md
  $ for section in 'Crash states' Recovery Servers Mail 'Threads and processes' 'Points of your own' CI 'Many machines'; do "$TESTDIR/outside_page.py" "$guide#$section"; done
  7 compared, 0 differ
  5 compared, 0 differ
  3 compared, 0 differ
  2 compared, 0 differ
  3 compared, 0 differ
  3 compared, 0 differ
  4 compared, 0 differ
  5 compared, 0 differ

README's two commands, with all that they need.

  $ "$TESTDIR/outside_page.py" "$TESTDIR/../README.md#Two commands"
  2 compared, 0 differ

From here on the program itself is needed.

A page that shows otherwise: what is told, a report's end, and a comment.

  $ sed 's/^fail lost: the 2nd sys::read/fail lost: the 3rd sys::read/; s/^reduced order::next=2/reduced order::next=1/; s/# same$/# other/' "$TESTDIR/../docs/GUIDE.md" > guide.md
  $ "$TESTDIR/outside_page.py" guide.md
  shows otherwise: fail lost: the 1st sys::read (count) fails
  shows otherwise: plans 29
  no line other
  32 compared, 3 differ
  [1]
