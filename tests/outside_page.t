docs/TUTORIAL.md, the script of docs/OUTSIDE.md that takes the place of its harness, and the file of Python of docs/HARNESS.md that does too, as a reader performs
them: what their commands write is what the pages show. With that file the mended program is run once more, where nothing fails.
The program that renames first has 6 hits, so 12 plans of one fault, and 2 more of the write: a full disk and a half. As Python writes again when it closes, the write
in three ways is also tried from then on. With plan 0 these are 18; plans 11 and 12 are of the fsync behind the rename. There `note` is in the state in which the
changes of names are kept, and none of its bytes.

The mended program has the rename behind the fsync of the file. What is pending at the cut, and so hit by power::keep, follows from docs/OUTSIDE.md, "The power
cut". Two faults deep it has

- none behind an open that fails or ends the run, as Python ends there with nothing changed;
- behind each of two ways in which the write fails, the next write in four ways, and the name `new` is asked for: 10. Without it the contents aren't;
- behind a write that does half, the next write in four ways, and each later hit in two: 10; where the write ends the run, the name: 1;
- the name behind the fsync of the file: 2. That fsync makes it last, so nothing is asked for behind the rename. Behind the fsync of the folder it is the rename,
then each of its two ends alone, as the fsync of the file may take along a rename in its folder: 6.

These are 29. From then on there are the 3 of one fault; 6 in which the second write fails in another way than the first; and 6 where something more is asked for
behind what is kept: the length behind the name, for two of the writes and the fsync of the file, and the second end of the rename behind the first: 15. With 14 of
one fault and plan 0 all are 59. The script's settings have two kinds at each hit: 12 plans of one fault, 12 of two (3 and 1 behind the write, 2 and 6 behind the
fsyncs) and 6 from then on: 31.

  $ pages() { "$TESTDIR/outside_page.py" "${1:-$TESTDIR/../docs/TUTORIAL.md}" "${2:-$TESTDIR/../docs/OUTSIDE.md}#By a script" "$TESTDIR/../docs/HARNESS.md#The harness"; }
  $ pages
  16 compared, 0 differ

From here on the program itself is needed.

Pages that show otherwise: a comment, a report's end, what is told, lines that the text names, and commands that fail.

  $ sed 's/^first 11 torn/first 12 torn/; s/^pending: 1 create new/pending: 1 create old/' "$TESTDIR/../docs/TUTORIAL.md" > tutorial.md
  $ sed 's/`first none`/`first some`/; s/# 5	sys::rename/# 4	sys::rename/' "$TESTDIR/../docs/OUTSIDE.md" > script.md
  $ pages tutorial.md script.md
  shows otherwise: fail lost: without any fault
  shows otherwise: plans 18
  shows otherwise:     1 sys::open 1 (.) 3
  no line 4	sys::rename	1	go	note
  no line first some
  16 compared, 5 differ
  [1]
  $ sed 's/^paklour-loop --depth 2 saving/paklour-loop --none saving/' "$TESTDIR/../docs/TUTORIAL.md" > tutorial.md
  $ pages tutorial.md
  ended with 2: paklour-loop --none saving
  shows otherwise: plans 59
  16 compared, 2 differ
  [1]
