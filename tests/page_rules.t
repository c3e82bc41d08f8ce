`tools/page_rules` holds pages to what is there: links, commands, options, files and keys of settings, and what reports say. What a page of no
fault and one of faults come to was worked out by hand from its own head.

  $ rules() { "$TESTDIR/../tools/page_rules" "$PWD/page.md" 2>&1 | sed "s,$PWD/,,g"; }

  $ cat > page.md <<'END'
  > # A title, with a mark!
  > [itself](#a-title-with-a-mark) [elsewhere](https://example.org/x)
  > `paklour run --brief` and `make build`, and `make -C outside test`, see `tools/prove`
  > `paklour-loop -j 2 --brief save.toml -- --workdir .`, `paklour-faults --pin cat --number`, `paklour-powercut`
  > ```toml
  > target = "replace"
  > [replace]
  > old = "x"
  > ```
  > END
  $ rules

  $ cat > page.md <<'END'
  > # A title
  > [one](nowhere.md) [two](#another)
  > `paklour walk`, `paklour run --loud`, `make haste`, `tools/none`
  > `paklour-leap`, `paklour-loop --loud save.toml -y`, `paklour-faults --pinned cat`
  > ```toml
  > tarjet = "replace"
  > [replace]
  > new = "x"
  > [shelf]
  > ```
  > END
  $ rules
  pages:
  page.md: no file nowhere.md
  page.md: no heading #another
  page.md: paklour has no command walk: paklour walk
  page.md: paklour has no option --loud: paklour run --loud
  page.md: make has no target haste: make haste
  page.md: no file tools/none: tools/none
  page.md: no command paklour-leap: paklour-leap
  page.md: paklour-loop has no option --loud: paklour-loop --loud save.toml -y
  page.md: paklour-loop has no option -y: paklour-loop --loud save.toml -y
  page.md: paklour-faults has no option --pinned: paklour-faults --pinned cat
  page.md: settings have no key tarjet
  page.md: settings have no key replace.new
  page.md: settings have no table shelf

What a page shows of a report that stands in this repository, and what a table tells of one: of LevelDB 136 plans and 3 that are lost.

  $ printf '%s\n' '```sh' 'paklour run examples/replace_late_sync.toml' '```' '' 'It ends:' '' '```' > begin.md
  $ { cat begin.md; tail -n 2 "$TESTDIR/../examples/replace_late_sync.toml.stdout"; printf '%s\n' '```' '| `leveldb` | LevelDB | 105 | 2 lost |'; } > page.md
  $ rules
  $ { cat begin.md; printf '%s\n' 'reduced none' 'tests 1' '```' '| `leveldb` | LevelDB | 106 | 2 lost |' '| `dovecot` | a lda | 175 | 1 lost |'; } > page.md
  $ rules
  pages:
  page.md: examples/replace_late_sync.toml.stdout ends otherwise: reduced none
  page.md: outside/examples/leveldb/report has 105 plans, failing 2 lost: leveldb
  page.md: outside/examples/dovecot/report has 175 plans, failing none: dovecot

Of a loop over an example of outside/: the lines that are shown, of which `..` stands for some, and those that the text names. Three faults deep SQLite
has 1,119 plans, and one cause is the last that is told.

  $ printf '%s\n' '```sh' 'paklour-loop --settings ../paklour/outside/examples/sqlite/extra.toml ../paklour/outside/examples/sqlite' '```' '' > begin.md
  $ shown() { { cat begin.md; printf '%s\n' "$1" '```' "$2" '..' "$3" '..' '```' "$4"; } > page.md; rules; }
  $ shown 'Of `plans 1119`' 'tests 1' 'causes 1' '| `sqlite` | three deep (`extra.toml`) | 1,119 | 3 lost |'
  $ shown 'Of `plans 1118`' 'tests 1' 'causes 1' '`level 3 537`, `census TRACE`, and `level 3 536`'
  pages:
  page.md: outside/examples/sqlite/extra.report has no line plans 1118
  page.md: outside/examples/sqlite/extra.report has no line level 3 537
  $ shown '' 'causes 1' 'tests 1' '| `sqlite` | three deep (`extra.toml`) | 1,119 | 2 lost |'
  pages:
  page.md: outside/examples/sqlite/extra.report ends otherwise: causes 1
  page.md: outside/examples/sqlite/extra.report has 1119 plans, failing 3 lost: sqlite
  $ { cat begin.md; printf '%s\n' '**2. Another**' 'has `plans 7`'; } > page.md; rules
  $ { cat begin.md; printf '%s\n' '```' 'tests 1' '```'; } > page.md; rules
  pages:
  page.md: outside/examples/sqlite/extra.report ends otherwise: tests 1

How many plans a depth has: tests/sizes.t has 13, 21 and 21 of a small replacement, of which nothing is left from depth 2 on, and 13, 23 and 25 of
`ignore_sync`, from depth 3 on.

  $ printf '%s\n' '| Target, variant | Depth 1 | Depth 2 | Depth 3 | Whole |' '|---|---|---|---|---|' > head.md
  $ { cat head.md; printf '| %s |\n' 'file replacement, small, `sound` | 13 | 21 | 21 | 21, at 2' 'the same, `ignore_sync` | 13 | 23 | 25 | 25, at 3'; } > page.md
  $ rules
  $ { cat head.md; printf '| %s |\n' 'file replacement, small, `sound` | 13 | 22 | 21 | 21, at 3' 'the same, `ignore_sync` | 13 | 23 | 25 | 23, at 2'; } > page.md
  $ rules
  pages:
  page.md: tests/sizes.t has not so many plans to depth 2: file replacement, small, sound
  page.md: tests/sizes.t is whole at another depth: file replacement, small, sound
  page.md: tests/sizes.t is whole at another depth: the same, ignore_sync
  $ printf '| %s |\n' 'delivery, large, `sound` | 44 | 423 | 2,250 | 28,799, at 8' 'commit, small, `sound` | 34 | 97 | 142 | 159, at 4' | cat head.md - > page.md
  $ rules
  pages:
  page.md: tests/sizes.t has not so many plans to depth 1: commit, small, sound
  page.md: tests/sizes.t has not so many plans to depth 2: commit, small, sound
  page.md: tests/sizes.t has not so many plans to depth 3: commit, small, sound
  page.md: tests/sizes.t has not so many plans to depth 4: commit, small, sound
  page.md: tests/sizes.t is whole at another depth: commit, small, sound
