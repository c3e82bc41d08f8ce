Reports of campaigns. examples/ has one for each variant of each target; here are those of further settings. All plans but those that are
named here pass. What is expected was worked out by hand from docs/TARGETS.md.

A report is the same from 1, 2, 8 and 64 workers. `reports` shows it for the settings that it is given, with the exit status at its end and
without the verdicts that are pass, once it has seen that there is one for each plan.

  $ reports() {
  >     cat > settings.toml
  >     for workers in 1 2 8 64; do
  >         { echo "workers = $workers"; cat settings.toml; } | paklour run > $workers.txt 2>&1
  >         echo $? >> $workers.txt
  >     done
  >     for workers in 2 8 64; do cmp 1.txt $workers.txt; done
  >     grep '^verdict ' 1.txt | cut -d ' ' -f 1,2 > verdicts
  >     seq -f 'verdict %.0f' 0 $(($(sed -n 's/^plans //p' 1.txt) - 1)) | cmp - verdicts
  >     grep -v '^verdict [0-9]* pass$' 1.txt
  > }

File replacement
----------------

The sound replacement passes all plans: with pairs, with storms that take nothing, and, replacing a file three times, once by no chunk at
all, with storms that take each of its 15 sites. These make 1 + 3 * 15 plans, 15 * 14 for the pairs, and 200 storms.

  $ reports <<'END'
  > target = "replace"
  > variant = "sound"
  > seed = 7
  > pairs = true
  > [replace]
  > old = "old"
  > replacements = [["ne", "w"]]
  > END
  target replace sound
  seed 7
  clean pass
  census replace::clear 0
  census replace::create 1
  census replace::write 2
  census replace::sync 1
  census replace::rename 1
  census replace::sync_dir 1
  census replace::unlink 0
  plans 49
  first none
  0
  $ reports <<'END' | tail -n 3
  > target = "replace"
  > seed = 7
  > storms = 2
  > rate = 0
  > [replace]
  > old = "old"
  > replacements = [["ne", "w"]]
  > END
  plans 21
  first none
  0
  $ reports <<'END'
  > target = "replace"
  > seed = 7
  > pairs = true
  > storms = 200
  > rate = 1000
  > [replace]
  > old = "old"
  > replacements = [["ne", "w"], [], ["a"]]
  > END
  target replace sound
  seed 7
  clean pass
  census replace::clear 0
  census replace::create 3
  census replace::write 3
  census replace::sync 3
  census replace::rename 3
  census replace::sync_dir 3
  census replace::unlink 0
  plans 456
  first none
  0

With three hits a run creates the file and writes both chunks. Only those that fail before the last chunk come to their end; what would
have followed the others is unresolved, which is no failure.

  $ reports <<'END'
  > target = "replace"
  > seed = 7
  > max_hits = 3
  > [replace]
  > old = "old"
  > replacements = [["ne", "w"]]
  > END
  target replace sound
  seed 7
  clean unresolved
  census replace::clear 0
  census replace::create 1
  census replace::write 2
  census replace::sync 0
  census replace::rename 0
  census replace::sync_dir 0
  census replace::unlink 0
  plans 10
  verdict 0 unresolved
  verdict 7 unresolved
  verdict 8 unresolved
  first none
  0

Maildir delivery
----------------

Where the second attempt appends to the file of the first, no single fault shows it.

  $ reports <<'END'
  > target = "maildir"
  > variant = "append_tmp"
  > seed = 7
  > [maildir]
  > messages = [["hi"]]
  > END
  target maildir append_tmp
  seed 7
  clean pass
  census maildir::stat 0
  census maildir::create 1
  census maildir::write 1
  census maildir::sync 1
  census maildir::link 1
  census maildir::unlink 1
  census maildir::sync_dir 1
  plans 19
  first none
  0

Two faults do: the unlink fails after the sync, or the link, has failed. After a write that has failed it shows too, as half of `hi` isn't
empty. Half of the message in examples/maildir_append_tmp.toml is.

  $ reports <<'END' | tail -n +11
  > target = "maildir"
  > variant = "append_tmp"
  > seed = 7
  > pairs = true
  > [maildir]
  > messages = [["hi"]]
  > END
  plans 49
  verdict 33 fail torn
  verdict 39 fail torn
  verdict 43 fail torn
  first 33 torn
  scenario maildir::write=1*return;maildir::unlink=1*return
  reduced maildir::write=1*return;maildir::unlink=1*return
  tests 3
  1
