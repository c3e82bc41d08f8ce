What a delivery into a maildir asks, step by step, and what it comes to: the table of docs/TARGETS.md, by examples. steps.py shows the
steps; one that fails has a mark of exclamation.

  $ deliver() {
  >     variant=$1 messages=$2
  >     shift 2
  >     printf 'target = "maildir"\nvariant = "%s"\n[maildir]\nmessages = %s\n' $variant "$messages" > settings.toml
  >     python3 "$TESTDIR/steps.py" settings.toml "$@"
  > }

Where nothing fails, each variant delivers the message. One links it first, and one uses the name of the first attempt, whatever is there.

  $ deliver sound '[["hi"]]'
  pass: stat create write sync link unlink sync_dir
  $ deliver ignore_write '[["hi"]]'
  pass: stat create write sync link unlink sync_dir
  $ deliver link_first '[["hi"]]'
  pass: stat create link write sync unlink sync_dir
  $ deliver append_tmp '[["hi"]]'
  pass: create write sync link unlink sync_dir

A write fails. The message is tried again under another name; where the first one was linked, its half stays. Where nobody looks at the
failure, half a message is delivered.

  $ deliver sound '[["hi"]]' write:1
  pass: stat create write! unlink stat create write sync link unlink sync_dir
  $ deliver link_first '[["hi"]]' write:1
  torn: stat create link write! unlink stat create link write sync unlink sync_dir
  $ deliver ignore_write '[["hi"]]' write:1
  torn: stat create write! sync link unlink sync_dir

The second attempt appends to what the first one has left: all of `m` after a sync that failed, half of `hi` after a write, and nothing of
`m`, whose half is empty. The sound delivery has another name then.

  $ deliver append_tmp '[["m"]]' sync:1 unlink:1
  torn: create write sync! unlink! create write sync link unlink sync_dir
  $ deliver append_tmp '[["hi"]]' write:1 unlink:1
  torn: create write! unlink! create write sync link unlink sync_dir
  $ deliver append_tmp '[["m"]]' write:1 unlink:1
  pass: create write! unlink! create write sync link unlink sync_dir
  $ deliver sound '[["m"]]' sync:1 unlink:1
  pass: stat create write sync! unlink! stat create write sync link unlink sync_dir
  $ deliver sound '[["hi"]]' write:1 unlink:1
  pass: stat create write! unlink! stat create write sync link unlink sync_dir

A message is given up after two attempts. Without an acknowledgement there is no second one. The next message follows in each case.

  $ deliver sound '[["ab"], ["cd"]]' create:1 create:2 create:3 create:4
  pass: stat create! stat create! stat create! stat create!
  $ deliver sound '[["ab"], ["cd"]]' sync_dir:1
  pass: stat create write sync link unlink sync_dir! stat create write sync link unlink sync_dir

Messages may be empty, and there may be none.

  $ deliver sound '[]'
  pass:
  $ deliver sound '[[]]'
  pass: stat create sync link unlink sync_dir
  $ deliver link_first '[[]]'
  pass: stat create link sync unlink sync_dir
