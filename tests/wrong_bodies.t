`tools/wrong_bodies` tries edits over a prover: here one that says of each function what its body says that it comes to (tests/toy). What is expected was
worked out by hand from the head of the tool.

  $ PATH="$TESTDIR/toy:$PATH"; bodies() { "$TESTDIR/../tools/wrong_bodies" "$@"; }
  $ git init -q . && git config user.name t && git config user.email t@example.org
  $ mkdir -p tools crates/toy/src crates/toy/must-fail crates/toy/proofs/scripted
  $ for name in plain other scripted; do printf 'fn %s() {\n    proved %s\n}\n\n' $name $name; done > crates/toy/src/lib.rt
  $ printf 'use a\n\npub returns : goal.returns\nreturns c = c\n\npub old : goal.old\nold c = c\n' > crates/toy/proofs/scripted/Answers.antt
  $ edit() { printf 'file: src/lib.rt\nold: proved %s\nnew: %s\n' "$2" "$3" > "crates/toy/must-fail/$1.edit"; }

A body is refused where a goal stays open, or where its answer doesn't prove it; the first goal is told.

  $ edit open plain 'open returns'; edit answered other 'script returns-sums'
  $ bodies --all
  toy/answered: refused: toy::other at returns-sums (whole)
  toy/open: refused: toy::plain at returns (whole)
  2 passed, 0 failed
  $ edit open plain 'cycle returns'
  $ bodies --all
  toy/answered: refused: toy::other at returns-sums (whole)
  toy/open: refused: toy::plain at returns (whole)
  2 passed, 0 failed

A goal that stays open is told before one whose answer doesn't fit: that answer may only miss the edit's shape.

  $ edit open plain 'script invariant_of-self open returns'
  $ bodies toy | grep open
  toy/open: refused: toy::plain at returns (whole)

A body that is proved isn't refused.

  $ edit right plain 'proved otherwise'; edit open plain 'open returns'
  $ bodies --all
  toy/answered: refused: toy::other at returns-sums (whole)
  toy/open: refused: toy::plain at returns (whole)
  toy/right: NOT REFUSED: proved
  2 passed, 1 failed
  [1]
  $ rm crates/toy/must-fail/right.edit

Where only the script doesn't fit, as it names a goal that the edit took away, that answer is left out: what is proved then isn't refused.

  $ edit stale scripted 'gone old'
  $ bodies toy
  toy/answered: refused: toy::other at returns-sums (whole)
  toy/open: refused: toy::plain at returns (whole)
  toy/stale: NOT REFUSED: proved
  2 passed, 1 failed
  [1]
  $ edit stale scripted 'gone old open returns'
  $ bodies toy
  toy/answered: refused: toy::other at returns-sums (whole)
  toy/open: refused: toy::plain at returns (whole)
  toy/stale: refused: toy::scripted at returns (without)
  3 passed, 0 failed

A long error goes on in lines that begin with two blanks. An error in a lemma takes that lemma away, and neither what is imported nor the answers behind it.

  $ edit stale scripted 'long old'
  $ bodies toy | grep stale
  toy/stale: NOT REFUSED: proved
  $ cp crates/toy/proofs/scripted/Answers.antt answers; sed -i '2a help : x\nhelp = x\n' crates/toy/proofs/scripted/Answers.antt
  $ edit stale scripted 'lemma help'
  $ bodies toy | grep stale
  toy/stale: NOT REFUSED: proved
  $ mv answers crates/toy/proofs/scripted/Answers.antt; edit stale scripted 'gone old open returns'; bodies toy > told

An edit is refused for its reason at a goal of its own function, or at one that it names.

  $ edit open plain 'open fill-requires'
  $ bodies toy | grep open
  toy/open: NOT REFUSED: it is refused at no goal of its own, toy::plain at fill-requires
  $ echo 'at: fill-requires' >> crates/toy/must-fail/open.edit
  $ bodies toy | grep open
  toy/open: refused: toy::plain at fill-requires (whole)
  $ edit open plain 'open returns'

Where answers were left out, they are from the body as it is too: a clause that isn't proved there either shows nothing, whatever the way to it is. A right body in
the edit's shape shows it, or a reason that somebody wrote.

  $ sed -i 's/proved scripted/needs returns/' crates/toy/src/lib.rt
  $ renamed() { printf 'file: src/lib.rt\nold: needs returns\nnew: gone returns open %s\n%s\n' "$1" "${2-}" > crates/toy/must-fail/stale.edit; bodies toy | grep stale; }
  $ renamed returns-else
  toy/stale: NOT REFUSED: its control isn't proved either, toy::scripted at returns-else
  $ renamed returns-else-clause-sum
  toy/stale: refused: toy::scripted at returns-else-clause-sum (without)
  $ renamed loop-n-preserved
  toy/stale: refused: toy::scripted at loop-n-preserved (without)
  $ renamed loop-n-preserved-then-x-2 'right: open loop-n-preserved'; renamed loop-n-preserved-then-x-2 'right: open loop-n-init'
  toy/stale: NOT REFUSED: its control isn't proved either, toy::scripted at loop-n-preserved-then-x-2
  toy/stale: refused: toy::scripted at loop-n-preserved-then-x-2 (right)
  $ renamed returns-else 'right: proved otherwise'; renamed returns-else 'right: open returns'; renamed returns-else 'by hand: the sum is one too large'
  toy/stale: refused: toy::scripted at returns-else (right)
  toy/stale: NOT REFUSED: its control isn't proved either, toy::scripted at returns-else
  toy/stale: refused: toy::scripted at returns-else (by hand)
  $ echo 'by hand: so it is' >> crates/toy/must-fail/open.edit
  $ bodies toy | grep more
  NOT REFUSED: more than one edit in 20 is judged by hand: toy/open, toy/stale
  $ sed -i 's/needs returns/proved scripted/' crates/toy/src/lib.rt; edit open plain 'open returns'; edit stale scripted 'gone old open returns'; bodies toy > told

What was refused before there were controls stays so in the gate, until it is tried anew.

  $ sed -i 's/proved scripted/needs returns/' crates/toy/src/lib.rt; renamed returns-else
  toy/stale: NOT REFUSED: its control isn't proved either, toy::scripted at returns-else
  $ printf 'toy/stale\t0\ttoy::scripted\treturns-else\tunshown\n' >> tools/wrong_bodies.tsv; bodies | grep stale
  toy/stale: refused: toy::scripted at returns-else (unshown)
  $ bodies toy | grep stale
  toy/stale: NOT REFUSED: its control isn't proved either, toy::scripted at returns-else
  $ sed -i 's/needs returns/proved scripted/' crates/toy/src/lib.rt; edit stale scripted 'gone old open returns'; bodies toy > told

The list has where each was refused, and a digest of what that rests on.

  $ cut -f 1,3- tools/wrong_bodies.tsv
  toy/answered	toy::other	returns-sums	whole
  toy/open	toy::plain	returns	whole
  toy/stale	toy::scripted	returns	without
  $ cut -f 2 tools/wrong_bodies.tsv | grep -cE '^[0-9a-f]{20}$'
  3

Without a word those are tried that the list doesn't have as they are now, those of a promise, and up to 20 that are drawn, at most five of a crate: here all. One
that is refused elsewhere than the list says fails, and so does a line without an edit.

  $ bodies
  toy/answered: refused: toy::other at returns-sums (whole)
  toy/open: refused: toy::plain at returns (whole)
  toy/stale: refused: toy::scripted at returns (without)
  3 passed, 0 failed
  $ sed -i 's/returns-sums/returns-products/' tools/wrong_bodies.tsv; printf 'toy/lost\t0\ttoy::plain\treturns\twhole\n' >> tools/wrong_bodies.tsv
  $ bodies
  toy/lost: NOT REFUSED: tools/wrong_bodies.tsv has a line for it, and there is no such edit
  toy/answered: NOT REFUSED where tools/wrong_bodies.tsv says, toy::other at returns-products, but toy::other at returns-sums
  toy/open: refused: toy::plain at returns (whole)
  toy/stale: refused: toy::scripted at returns (without)
  2 passed, 2 failed
  [1]

An edit that reaches beyond the bodies is tried over the whole crate; once the list has it, over the function at which it was refused, and over the crate if it
isn't refused there.

  $ rm crates/toy/must-fail/*; checks() { WRONG_BODIES_TIMES=1 bodies "$@" 2>&1 | sed 's/^ *[0-9]*[.][0-9] //'; }
  $ printf 'const LIMIT: u32 = 1;\n' >> crates/toy/src/lib.rt; edit wide other 'open returns'; printf 'old: u32 = 1\nnew: u32 = 2\n' >> crates/toy/must-fail/wide.edit
  $ checks --all; checks
  toy, the whole crate: wide
  toy/wide: refused: toy::other at returns (whole)
  1 passed, 0 failed
  toy: wide
  toy/wide: refused: toy::other at returns (whole)
  1 passed, 0 failed
  $ sed -i 's/toy::other/toy::plain/' tools/wrong_bodies.tsv; checks
  toy: wide
  toy, the whole crate: wide
  toy/wide: NOT REFUSED where tools/wrong_bodies.tsv says, toy::plain at returns, but toy::other at returns
  0 passed, 1 failed
  $ rm crates/toy/must-fail/wide.edit; edit open plain 'open returns'; edit answered other 'script returns-sums'; edit stale scripted 'gone old open returns'

Of a public constant with a text of more than 4,096 bytes its name counts, and not what the text is; a shorter text counts, and so does one that isn't public.

  $ constant() { printf '%s WHOLE: &str = r###"%s"###;\n\npub const LAST: &str = r###"z"###;\n' "$1" "$(head -c "$2" /dev/zero | tr '\0' "$3")" > crates/toy/src/text.rt; }
  $ digest() { bodies --all > told; cut -f 2 tools/wrong_bodies.tsv | head -n 1; }
  $ same() { [ "$(digest)" = "$last" ] && echo same || { last=$(digest); echo another; }; }
  $ constant 'pub const' 4097 a; same; constant 'pub const' 9000 b; same
  another
  same
  $ sed -i 's/WHOLE/OTHER/' crates/toy/src/text.rt; same; sed -i 's/"z"/"y"/' crates/toy/src/text.rt; same
  another
  another
  $ constant 'pub const' 4096 a; same; constant 'pub const' 4096 b; same; constant const 9000 a; same; constant const 9000 b; same; rm crates/toy/src/text.rt
  another
  another
  another
  another

Of a crate below, the digest has the items that the crate names, and what these name in turn: of `near` its contract, there a constant, a field and a definition, and
in that a constructor. With `--stale` those are tried whose digest the list doesn't have, here both or none.

  $ mkdir -p crates/low/src crates/low/specs
  $ cat > crates/low/src/lib.rt << 'END'
  > ghost use Rattle.low.specs.Rules.{shift, turn};
  > 
  > pub const MARK: &str = "//1";
  > 
  > // Before far.
  > pub fn near(x: u32) -> Span
  >     ensures { result.now.wide ≡ shift x MARK }
  > {
  >     Span(x)
  > }
  > 
  > pub fn far(x: u32) -> Other
  >     ensures { result.now ≡ turn x }
  > {
  >     Other(x)
  > }
  > 
  > impl Span {
  >     pub fn len(&self) -> u32
  >         ensures { result ≡ size self.now }
  >     {
  >         self.0
  >     }
  > 
  >     pub fn half(&self) -> u32
  >         ensures { result ≡ halved self.now }
  >     {
  >         self.0 / 2
  >     }
  > 
  >     fn proved(x: u32) -> u32
  >         ensures { result ≡ x }
  >     {
  >         x
  >     }
  > }
  > 
  > impl Other {
  >     pub fn len(&self) -> u32
  >         ensures { result ≡ count self.now }
  >     {
  >         self.0
  >     }
  > }
  > 
  > fn proved(x: u32) -> u32
  >     ensures { result ≡ x }
  > {
  >     x
  > }
  > 
  > impl Drop for Span {
  >     fn drop(&mut self)
  >         ensures { out-All }
  >     {
  >     }
  > }
  > 
  > impl Drop for Other {
  >     fn drop(&mut self)
  >         ensures { none }
  >     {
  >     }
  > }
  > END
  $ cat > crates/low/specs/Rules.antt << 'END'
  > use Rattle.low.specs.Steps.{Up, Turn as Turned}
  > 
  > infixl 10 ◌>>=◌
  > 
  > abbrev pub shift : ℕ → List ℕ → ℕ
  > shift x = length (Up x)
  > 
  > abbrev pub turn : ℕ → Turned
  > turn x = turned x x -- for far
  > END
  $ cat > crates/low/specs/Steps.antt << 'END'
  > pub data Step : Type 0 where
  >   Up : ℕ → Step
  > 
  > pub record Size : Type 0 where
  >   pub wide : ℕ
  > 
  > abbrev pub All : Type 0
  > All = ℕ
  > 
  > abbrev pub Turn : Type 0
  > Turn = ℕ
  > END
  $ stale() { bodies --stale "$@" | tail -n 1; }
  $ change() { while [ $# -gt 0 ]; do cp "crates/low/$1" was; sed -i "$2" "crates/low/$1"; cmp -s "crates/low/$1" was && echo unchanged; shift 2; done; stale; }
  $ rm crates/toy/must-fail/stale.edit; sed -i 's/proved plain/& near(1).len()/' crates/toy/src/lib.rt; stale; stale
  2 passed, 0 failed
  0 passed, 0 failed
  $ change src/lib.rt 's/shift x/shift (x)/'; change src/lib.rt 's|//1|//2|'; change specs/Rules.antt 's/Up x/Up (x)/'
  2 passed, 0 failed
  2 passed, 0 failed
  2 passed, 0 failed
  $ change specs/Steps.antt 's/Up : ℕ/& → ℕ/'; change specs/Steps.antt 's/wide : ℕ/& → ℕ/'
  2 passed, 0 failed
  2 passed, 0 failed
  $ change src/lib.rt 's/turn x }/turn (x) }/' specs/Rules.antt 's/turned x x/turned x/' specs/Steps.antt 's/Turn = ℕ/& → ℕ/'
  0 passed, 0 failed

Bodies, comments and functions that aren't public aren't in it, nor is an import that no item there uses. Of methods of one name that of the type counts, and so do its
impls of traits, and what is named between hyphens. What declares no name that can be told counts always.

  $ change src/lib.rt 's/Span(x)/Span(x + 0)/' src/lib.rt 's/Before/Behind/' src/lib.rt 's/{shift, turn}/{length, shift, turn}/' src/lib.rt 's/result ≡ x /x ≡ result /'
  0 passed, 0 failed
  $ change src/lib.rt 's/≡ size/≡ sizes/'; change specs/Steps.antt 's/All = ℕ/& → ℕ/'; change src/lib.rt 's/out-All/each/'; change specs/Rules.antt 's/infixl 10/infixl 9/'
  2 passed, 0 failed
  2 passed, 0 failed
  2 passed, 0 failed
  2 passed, 0 failed
  $ change src/lib.rt 's/low.specs.Rules/low.specs.Others/'
  2 passed, 0 failed
  $ change src/lib.rt 's/≡ halved/≡ halves/' src/lib.rt 's/≡ count/≡ counts/' src/lib.rt 's/{ none }/{ any }/'
  0 passed, 0 failed

A comment of the crate itself tries none of its edits either, and a word of its code tries all.

  $ sed -i '1i // what this crate is for' crates/toy/src/lib.rt; stale; sed -i '1i use b' crates/toy/src/lib.rt; stale; sed -i '1,2d' crates/toy/src/lib.rt; stale
  0 passed, 0 failed
  2 passed, 0 failed
  2 passed, 0 failed

What is imported under another name is named by that, in the crate, and in the one below. What an edit names counts for that edit alone.

  $ sed -i '1i use low::{far as ahead};' crates/toy/src/lib.rt; sed -i 's/proved other/& ahead(1)/' crates/toy/src/lib.rt; stale
  2 passed, 0 failed
  $ change src/lib.rt 's/turn (x)/turn x/'; change specs/Steps.antt 's/Turn = ℕ/& → ℕ/'; change src/lib.rt 's/≡ halves/≡ halved/'
  2 passed, 0 failed
  2 passed, 0 failed
  0 passed, 0 failed
  $ sed -i 's/^new:.*/& half/' crates/toy/must-fail/open.edit; stale; change src/lib.rt 's/≡ halved/≡ halves/'; rm -r crates/low
  1 passed, 0 failed
  1 passed, 0 failed

Where crates are named, the edits of others aren't looked at, and their lines stay.

  $ sed 's/proved/nowhere/' crates/toy/must-fail/open.edit > edit; mkdir -p crates/low/src crates/low/must-fail; echo > crates/low/src/lib.rt; mv edit crates/low/must-fail/bad.edit
  $ printf 'low/bad\t0\tlow::near\treturns\twhole\n' >> tools/wrong_bodies.tsv; stale toy; stale low; grep -c ^low/bad tools/wrong_bodies.tsv; rm -r crates/low; bodies --stale no
  2 passed, 0 failed
  0 passed, 1 failed
  1
  usage: wrong_bodies [-h] [--jobs JOBS] [--all] [--stale] [CRATE ...]
  wrong_bodies: error: no crate no
  [2]

Five of a crate's edits are drawn; those of a promise and those that have changed are tried in any case. A change of the crate's sources changes all; another letter of the kit none.

  $ rm crates/toy/must-fail/*; for number in $(seq 30); do printf 'fn f%s() {\n    proved %s.\n}\n\n' $number $number; done > crates/toy/src/lib.rt
  $ for number in $(seq 30); do edit $number $number. 'open returns'; done
  $ bodies --all | tail -n 1
  30 passed, 0 failed
  $ bodies | tail -n 1
  5 passed, 0 failed
  $ sed -i '1i promise: nothing skipped' crates/toy/must-fail/7.edit; echo >> crates/toy/must-fail/9.edit
  $ bodies > told; grep -cE '^toy/(7|9): refused' told; git add -A && git commit -qm x
  2
  $ LOGIC=00 bodies | tail -n 1; echo 'use more' >> crates/toy/src/lib.rt; bodies | tail -n 1
  30 passed, 0 failed
  30 passed, 0 failed

An edit whose text stands nowhere, or twice, fails.

  $ edit none nowhere 'open returns'
  $ bodies | grep NOT
  NOT REFUSED: toy/none: its `old:` stands in src/lib.rt 0 times
