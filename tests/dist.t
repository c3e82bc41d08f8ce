`tools/dist held` holds the program of dist/ to the text beside it, to the history, and to what the tree gives. The repository here has just what
it looks at, its toolchain is a stand-in, and the program of its dist/ is the one that these sessions try. What is expected was worked out by hand
from docs/WORKING.md, "A release".

  $ mkdir -p bin repo/tools repo/examples repo/crates/paklour/src repo/crates/command_words/src
  $ printf '#!/bin/sh\necho kit-1b logic 0a\n' > bin/rt && chmod +x bin/rt && PATH=$PWD/bin:$PATH
  $ cp "$TESTDIR/../tools/dist" "$TESTDIR/../tools/logic" "$TESTDIR/../tools/prove_program" repo/tools
  $ cp "$TESTDIR/../examples/replace_late_sync.toml" "$TESTDIR/../examples/replace_late_sync.toml.stdout" repo/examples
  $ cd repo
  $ git() { command git -c user.name=a -c user.email=a@example.org -c commit.gpgsign=false -c init.defaultBranch=main "$@"; }
  $ version=$(paklour --version)
  $ echo 'paklour:' > crates.txt && touch HANDLES crates/paklour/src/main.rt
  $ printf 'pub const VERSION: &str = "%s";\n' "${version#paklour }" > crates/command_words/src/words.rt
  $ git init -q . && git add . && git commit -qm one
  $ commit=$(git rev-parse HEAD)
  $ held() { tools/dist held "$@" > ../said 2>&1; status=$?; sed "s/$commit/COMMIT/; s/^$version of/paklour VERSION of/; s/: $version of/: paklour VERSION of/" ../said; return $status; }

Without either file there is nothing to hold.

  $ held
  dist: no program is there

The program, and the text beside it: its commit, its toolchain, its checksum.

  $ mkdir dist && cp "$(command -v paklour)" dist/paklour-x86_64-linux
  $ program=dist/paklour-x86_64-linux text=dist/paklour-x86_64-linux.sha256
  $ write() { printf '# commit %s\n# toolchain %s\n' "$1" "$2"; (cd dist && sha256sum paklour-x86_64-linux); }
  $ write "$commit" 'kit-1b logic 0a' > $text
  $ held
  dist: paklour VERSION of commit COMMIT
  $ (cd dist && sha256sum --check paklour-x86_64-linux.sha256)
  paklour-x86_64-linux: OK

What this tree's own build gives has to have the same bytes, as long as nothing that the program is made of has changed.

  $ held $program
  dist: paklour VERSION of commit COMMIT
  $ echo other > ../other
  $ held ../other | grep '^dist'
  dist: the same files have given other bytes here
  $ echo changed > README.md && git add README.md && git commit -qm two
  $ held ../other | grep '^dist'
  dist: the same files have given other bytes here
  $ echo '// changed' > crates/paklour/src/main.rt
  $ held ../other
  dist: not compared with what this tree gives, whose files or logic are others
  dist: paklour VERSION of commit COMMIT
  $ git checkout -q crates

The logic decides. What was proved under another isn't compared, and another kit of the same one may give other bytes, which is told.

  $ write "$commit" 'kit-1b logic 0b' > $text
  $ held ../other
  dist: not compared with what this tree gives, whose files or logic are others
  dist: paklour VERSION of commit COMMIT
  $ tools/dist again
  dist: it was built by kit-1b logic 0b, and this is kit-1b logic 0a
  [1]
  $ write "$commit" 'kit-1a logic 0a' > $text
  $ held $program
  dist: it was built by kit-1a logic 0a, and this is kit-1b logic 0a
  dist: paklour VERSION of commit COMMIT
  $ held ../other | grep '^dist'
  dist: it was built by kit-1a logic 0a, and this is kit-1b logic 0a
  dist: the bytes are others, by another kit of the same logic
  dist: paklour VERSION of commit COMMIT
  $ held ../other > ../said
  $ tools/prove_program --stamp > ../stamp && sed -i 's/1b/1c/' ../bin/rt && tools/prove_program --stamp | cmp - ../stamp
  $ sed -i 's/0a/0c/' ../bin/rt && tools/prove_program --stamp | cmp -s - ../stamp
  [1]
  $ sed -i 's/1c logic 0c/1b logic 0a/' ../bin/rt

Proved anew from nothing, by the same kit it has to have the same bytes. What stands in for the proof here gives the bytes of a file.

  $ cp tools/prove_program ../proves && printf '#!/bin/sh\ncp "$GIVES" "$5"\n' > tools/prove_program
  $ again() { GIVES=$1 tools/dist again > ../said 2>&1; status=$?; sed "s/$commit/COMMIT/; s/same [0-9]* bytes/same N bytes/" ../said | grep '^dist'; return $status; }
  $ again $program
  dist: it was built by kit-1a logic 0a, and this is kit-1b logic 0a
  dist: commit COMMIT, proved from nothing, gives the same N bytes
  $ again ../other
  dist: it was built by kit-1a logic 0a, and this is kit-1b logic 0a
  dist: the bytes are others, by another kit of the same logic
  $ write "$commit" 'kit-1b logic 0a' > $text
  $ again $program
  dist: commit COMMIT, proved from nothing, gives the same N bytes
  $ again ../other
  dist: what commit COMMIT gives isn't dist/paklour-x86_64-linux
  [1]
  $ cp ../proves tools/prove_program

A version that has no program yet is told, and refused is none.

  $ write "$commit" 'kit-1b logic 0a' > $text
  $ echo 'pub const VERSION: &str = "99.0.0";' > crates/command_words/src/words.rt && git commit -qam three
  $ echo '// changed' > crates/paklour/src/main.rt
  $ held
  dist: not compared with what this tree gives, whose files or logic are others
  dist: version 99.0.0 has no program there yet: make dist
  dist: paklour VERSION of commit COMMIT
  $ git checkout -q crates

Another program, a file that is missing, a checksum of another file, a commit that isn't in the history, another version.

  $ cp $program ../kept && echo x >> $program
  $ held | grep '^dist'
  dist: the checksum is another
  $ cp ../kept $program && chmod -x $program
  $ held
  dist: dist/paklour-x86_64-linux or dist/paklour-x86_64-linux.sha256 is missing, or isn't to be executed
  [1]
  $ rm $program
  $ held
  dist: dist/paklour-x86_64-linux or dist/paklour-x86_64-linux.sha256 is missing, or isn't to be executed
  [1]
  $ cp ../kept $program && mv $text ../text
  $ held
  dist: dist/paklour-x86_64-linux or dist/paklour-x86_64-linux.sha256 is missing, or isn't to be executed
  [1]
  $ sed 's/paklour-x86_64-linux$/..\/..\/kept/' ../text > $text
  $ held
  dist: dist/paklour-x86_64-linux.sha256 has more than the checksum of dist/paklour-x86_64-linux
  [1]
  $ write "$(printf '%040d' 1)" 'kit-1b logic 0a' > $text
  $ held | grep '^dist'
  dist: commit 0000000000000000000000000000000000000001 isn't in the history of this one
  $ write "$(git rev-parse HEAD)" 'kit-1b logic 0a' > $text
  $ held | sed "s/$(git rev-parse HEAD)/HEAD/"
  dist: --version isn't paklour 99.0.0, as commit HEAD has it

A program whose report of the first example is another.

  $ git reset -q --hard "$commit" && echo other > examples/replace_late_sync.toml.stdout && git commit -qam four
  $ write "$(git rev-parse HEAD)" 'kit-1b logic 0a' > $text
  $ held | grep '^dist' | sed "s/$(git rev-parse HEAD)/HEAD/"
  dist: it doesn't write the report that commit HEAD has in examples/

Words that it doesn't know, and commits.

  $ tools/dist
  dist: make [COMMIT], again, or held [PROGRAM]
  [1]
  $ tools/dist make nosuch
  dist: no commit nosuch
  [1]
  $ tools/prove_program --commit nosuch --stamp 2>&1 | tail -n 1
  no files of a commit nosuch

A clone without the whole history has no such commit: there the checksum alone is held.

  $ git reset -q --hard "$commit" && mkdir -p dist && cp "$(command -v paklour)" $program && write "$commit" 'kit-1b logic 0a' > $text
  $ git add . && git commit -qm five && git clone -q --depth 1 "file://$PWD" ../shallow && cd ../shallow
  $ held
  dist: held to its checksum alone: this clone has no whole history, and commit COMMIT isn't in it
  $ echo more >> $program
  $ held | grep '^dist'
  dist: the checksum is another
