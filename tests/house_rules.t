`tools/house_rules` holds README.md to the number of the toolchain's logic; its kit has any letter. The repository here has what the rule looks at, its
toolchain is a stand-in, and so are the tools that hold pages.

  $ mkdir -p bin repo/tools repo/examples/own_target
  $ toolchain() { printf '#!/bin/sh\necho %s\n' "$1" > "$TMPDIR/bin/rt"; }
  $ TMPDIR=$PWD PATH=$PWD/bin:$PATH && toolchain 'kit-1b logic 0a' && chmod +x bin/rt
  $ cp "$TESTDIR/../tools/house_rules" "$TESTDIR/../tools/logic" repo/tools && cd repo
  $ for tool in page_rules layers believe frame uncited; do printf '#!/bin/sh\n' > tools/$tool && chmod +x tools/$tool; done
  $ touch crates.txt examples/own_target/main.rt.txt examples/own_target/commands.rt.txt
  $ echo 'It is proved with logic 0a.' > README.md && git init -q . && git add .
  $ tools/house_rules
  $ toolchain 'kit-1c logic 0a' && tools/house_rules
  $ toolchain 'kit-1b logic 0b' && tools/house_rules
  README.md is proved with another logic than that of
  kit-1b logic 0b
  [1]
  $ toolchain 'kit-1b' && tools/house_rules
  logic: rt version names none
  README.md is proved with another logic than that of
  kit-1b
  [1]

No file but the notes of a release and the texts of dist/ names a kit.

  $ toolchain 'kit-1b logic 0a' && mkdir dist docs
  $ echo "proved with rattle-""kit-1b" | tee CHANGELOG.md dist/text > docs/PAGE.md && git add . && tools/house_rules 2>&1 | sed 's/rattle-//'
  names of a kit:
  docs/PAGE.md:1:proved with kit-1b

The frame of the page is what viewer/ makes. As it is made its lines may be long and many, those of no other file.

  $ rm -r docs dist CHANGELOG.md && cp "$TESTDIR/../tools/frame" tools && cp -r "$TESTDIR/../viewer" . && mkdir -p crates/report_page/src
  $ tools/frame --write && git add . && tools/house_rules
  $ cp crates/report_page/src/frame.rt crates/report_page/src/page.rt && git add . && tools/house_rules 2>&1 | cut -d : -f 1 | sort -u
  crates/report_page/src/page.rt
  files over 800 lines
  lines over 160 characters
  $ rm crates/report_page/src/page.rt && git add . && echo 'p { color: red; }' >> viewer/style.css && tools/house_rules
  tools/frame: crates/report_page/src/frame.rt isn't the frame of viewer/: tools/frame --write
  [1]

Files of crates are in the toolchain's layout, which a stand-in for `rt fmt` tells of one file.

  $ tools/frame --write && mkdir -p crates/small/src && touch crates/small/src/lib.rt && echo '[ "$1" != fmt ] || grep -rl unlaid src | sed "s/^/rt: formatted /"' >> ../bin/rt
  $ sed -i 's/^echo/[ "$1" = fmt ] || &/' ../bin/rt && git add . && tools/house_rules
  $ echo unlaid > crates/small/src/lib.rt && tools/house_rules
  files that aren't in the layout of rt fmt:
  crates/small/src/lib.rt
  [1]

A lemma that nothing cites is told, though it cites itself; one that its own file or another one cites isn't.

  $ echo laid > crates/small/src/lib.rt && cp "$TESTDIR/../tools/uncited" tools && mkdir -p crates/small/proofs/double
  $ printf 'pub twice : A → A\ntwice a = once (once a)\n\nonce : A → A\nonce a = a\n\npub over : A → A\nover a = over a\n' > crates/small/proofs/Lemmas.antt
  $ printf 'use Rattle.small.proofs.Lemmas.{twice}\n\npub returns : goal.returns\nreturns c = twice c\n' > crates/small/proofs/double/Answers.antt
  $ git add . && tools/house_rules
  definitions and lemmas that nothing cites:
  crates/small/proofs/Lemmas.antt:7: over
  [1]

So is a record that nothing cites; one is cited through the name that a file gives its module, too. If the tool itself fails, that is told.

  $ printf 'pub record Pair : Type 0 where\n  pub one : A\n\npub data Two : Type 0 where\n  two : Two\n' > crates/small/proofs/Lemmas.antt
  $ printf 'use Rattle.small.proofs.Lemmas as lemmas\n\npub returns : goal.returns\nreturns c = lemmas.Pair\n' > crates/small/proofs/double/Answers.antt
  $ git add . && tools/house_rules
  definitions and lemmas that nothing cites:
  crates/small/proofs/Lemmas.antt:4: Two
  [1]
  $ printf '#!/bin/sh\nexit 2\n' > tools/uncited && git add . && tools/house_rules
  definitions and lemmas that nothing cites:
  tools/uncited fails
  [1]
  $ printf '#!/bin/sh\n' > tools/uncited

A file that `rt fmt` can't read is told too.

  $ rm -r crates/small/proofs && git add . && echo '[ "$1" != fmt ] || { echo src/lib.rt:1: error; exit 1; }' >> ../bin/rt && tools/house_rules
  files that aren't in the layout of rt fmt:
  rt fmt fails: src/lib.rt:1: error
  [1]
