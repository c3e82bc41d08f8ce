What a replacement of a file asks, step by step, and what it comes to: the table of docs/TARGETS.md, by examples. The contents `old` are
replaced by the chunks `ne` and `w`, where nothing else is said. steps.py shows the steps; one that fails has a mark of exclamation.

  $ replace() {
  >     variant=$1 old=$2 new=$3
  >     shift 3
  >     printf 'target = "replace"\nvariant = "%s"\n[replace]\nold = "%s"\nreplacements = %s\n' $variant "$old" "$new" > settings.toml
  >     python3 "$TESTDIR/steps.py" settings.toml "$@"
  > }
  $ small='[["ne", "w"]]'

Where nothing fails, each variant does its work. Two of them sync after the rename, and one writes `target` itself.

  $ replace sound old "$small"
  pass: create write write sync rename sync_dir
  $ replace ignore_sync old "$small"
  pass: create write write sync rename sync_dir
  $ replace retry_write old "$small"
  pass: create write write sync rename sync_dir
  $ replace late_sync old "$small"
  pass: create write write rename sync_dir sync
  $ replace rename_first old "$small"
  pass: create write write rename sync sync_dir
  $ replace in_place old "$small"
  pass: clear create write write sync sync_dir

A sync fails. The sound replacement cleans up and leaves the old contents. Where it is late or ignored an empty file is left, which is stale
where the old contents were empty too.

  $ replace sound old "$small" sync:1
  pass: create write write sync! unlink
  $ replace late_sync old "$small" sync:1
  torn: create write write rename sync_dir sync!
  $ replace ignore_sync old "$small" sync:1
  torn: create write write sync! rename sync_dir
  $ replace ignore_sync '' "$small" sync:1
  stale: create write write sync! rename sync_dir

A write fails, and leaves half its chunk. The sound replacement cleans up. The variant that writes once more leaves the half and the whole:
`nnew`, and `aabcd`, as the half of three bytes is one. These are torn, and stale where just they were the old contents. Half a letter of
two bytes is no letter. Half of nothing is nothing.

  $ replace sound old "$small" write:1
  pass: create write! unlink
  $ replace retry_write old "$small" write:1
  torn: create write! write write sync rename sync_dir
  $ replace retry_write nnew "$small" write:1
  stale: create write! write write sync rename sync_dir
  $ replace retry_write old '[["abc", "d"]]' write:1
  torn: create write! write write sync rename sync_dir
  $ replace retry_write aabcd '[["abc", "d"]]' write:1
  stale: create write! write write sync rename sync_dir
  $ replace retry_write old '[["é", ""]]' write:1
  torn: create write! write write sync rename sync_dir
  $ replace retry_write old '[["", "x"]]' write:1
  pass: create write! write write sync rename sync_dir

These two sync the file before the directory, whose sync alone makes a name last. So they pass without crash states, whatever fails. Where the
sync fails there is nothing to clean up. `in_place` clears the `target` that is there, and so none where an earlier replacement has unlinked it.

  $ replace rename_first old "$small" write:1
  pass: create write! unlink
  $ replace rename_first old "$small" rename:1
  pass: create write write rename! unlink
  $ replace rename_first old "$small" sync:1
  pass: create write write rename sync!
  $ replace rename_first old '[["ab"], ["cd"]]' sync:1
  pass: create write rename sync! create write rename sync sync_dir
  $ replace in_place old "$small" clear:1
  pass: clear!
  $ replace in_place old "$small" write:1
  pass: clear create write!
  $ replace in_place old "$small" sync:1
  pass: clear create write write sync!
  $ replace in_place old '[["ab"], ["cd"]]' create:1
  pass: clear create! create write sync sync_dir
  $ replace in_place old '[["ab"], ["cd"]]' sync:1
  pass: clear create write sync! clear create write sync sync_dir

Chunks, and lists of them, may be empty.

  $ replace sound old '[]'
  pass:
  $ replace sound old '[[]]'
  pass: create sync rename sync_dir
  $ replace sound old '[["", "x"]]'
  pass: create write write sync rename sync_dir

Of two replacements the second one clears what the first has left. Nobody does so after the last one.

  $ replace sound old '[["ab"], ["cd"]]' write:1 unlink:1
  pass: create write! unlink! clear create write sync rename sync_dir
  $ replace sound old "$small" sync:1 unlink:1
  pass: create write write sync! unlink!

The contents last acknowledged are allowed. A sync that fails once the first replacement was acknowledged brings the old contents back, which
aren't allowed any longer.

  $ replace sound old '[["ab"], ["cd"]]' sync_dir:2
  pass: create write sync rename sync_dir create write sync rename sync_dir!
  $ replace ignore_sync '' '[["ab"], ["cd"]]' sync:2
  stale: create write sync rename sync_dir create write sync! rename sync_dir

A panic and a pause end the run. What a pause leaves nobody can say.

  $ replace sound old "$small" > /dev/null
  $ paklour try --scenario 'replace::rename=1*panic' settings.toml | head -n 2
  verdict pass
  asked 5
  $ paklour try --scenario 'replace::rename=1*pause' settings.toml | head -n 2
  verdict unresolved
  asked 5
