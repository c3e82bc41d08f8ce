The gate: `make test` runs without a proof, `make prove` proves, and `.ci/run` counts both. The repository here has the tools that are tried, a toolchain
that stands in for `rt`, and a program of two words, `say WORD` and `copy FILE`. Where it is run for others, `stop` ends it. A process `cat check` stands in for
the check that is started beside it, which never ends by itself.

  $ unset MAKEFLAGS MFLAGS MAKELEVEL
  $ tools="$TESTDIR/../tools" && mkdir -p bin repo/tools repo/tests repo/examples repo/outside repo/.ci repo/crates/paklour repo/crates/small_tests/src
  $ cp "$tools/counts" "$tools/test" "$tools/prove" "$tools/sessions" "$tools/stand_in.c" "$tools/tried" repo/tools && cp "$TESTDIR/../.ci/run" repo/.ci && cp -r "$TESTDIR/served_calls" repo/tests
  $ cat > bin/program << 'END'
  > #!/bin/sh
  > case $1 in
  > --version) echo paklour 1 ;;
  > say) echo "$2" ;;
  > copy) cat "${2:-/dev/stdin}" ;;
  > *) echo "no such word" >&2; exit 2 ;;
  > esac
  > END
  $ cat > bin/rt << 'END'
  > #!/bin/bash
  > [ "$1" != ci ] || { echo 'crates of the copy:' $(sed 's/:.*//' crates.txt; ls crates); [ "$UNBUILT" ] || install -D "$(command -v program)" crates/paklour/out/paklour; cat "$CI"; exit ${CI_STATUS-0}; }
  > { tail -n 1 ../../crates.txt && grep mod src/lib.rt; } > "$BUILT"
  > mkfifo check && { exec cat check; } & check=$!; exec 2> ended
  > calls=$(sed -n 's/.*= "\(.*\)";/\1/p' src/served_calls/folder.rt)/calls
  > while read -r process words input answer; do
  >     at=/proc/$process/fd && mapfile -d '' words < "$at/$words"
  >     [ "${words[1]}" != stop ] || { kill $check; echo 'run=fault'; exit 4; }
  >     { (cd "/proc/$process/cwd" && program "${words[@]:1}" < "$at/$input") >> "$at/1" 2>> "$at/2"; echo $? > "$at/$answer"; } &
  > done < "$calls"
  > wait $check
  > echo "test result: ok. ${TESTS-3} passed; ${FAILED-0} failed; 0 ignored"
  > END
  $ chmod +x bin/* && PATH=$PWD/bin:$PATH BUILT=$PWD/built CI=$PWD/ci && export PATH BUILT CI && cd repo
  $ printf '#!/bin/sh\n' > tools/house_rules && for tool in unlawful_targets own_targets pages dist hostile_use refuse.py; do cp tools/house_rules tools/$tool; done
  $ printf '#!/bin/sh\necho "5 passed, 0 failed"\n' > tools/wrong_bodies && chmod +x tools/* && printf 'all test together:\n' > outside/Makefile
  $ mkdir viewer && printf 'test:\n\t@echo tests of the page\n' > viewer/Makefile && printf '#!/bin/sh\nexit $OLD_NODE\n' > ../bin/node && chmod +x ../bin/node
  $ printf 'paklour:\nsmall_tests: paklour\n' > crates.txt && mkdir crates/paklour/must-fail && touch crates/paklour/a crates/paklour/must-fail/a crates/small_tests/src/lib.rt && git init -q . && git add .

What a call by descriptors would come to otherwise than as a process of its own is noted, with the number of its command.

  $ cc -DFOLDER='".."' -o ../stand_in tools/stand_in.c
  $ stands_in() { BEYOND=../beyond SESSION_COMMAND=4 ../stand_in "$@"; }
  $ stands_in copy /dev/stdin
  [125]
  $ stands_in say one >&-
  [125]
  $ stands_in copy <&-
  [125]
  $ { read -r line; stands_in copy; } < tools/test
  [125]
  $ (ulimit -v 100000; stands_in say one)
  [125]
  $ cat ../beyond
  4 a path that each process has for itself
  4 an output that is closed
  4 standard input that is closed
  4 standard input of which a part is read
  4 a limit of memory

Tests of crates, sessions and examples are performed with one build. Where sessions are named, only they are.

  $ printf '  $ paklour say one\n  one\n  $ echo file > f; paklour copy f\n  file\n  $ paklour nothing\n  no such word\n  [2]\n' > tests/a.t
  $ echo text > examples/a.toml && echo copy > examples/a.toml.args && echo text > examples/a.toml.stdout
  $ tried() { tools/tried "$@" > said; status=$?; grep -v '^tried: .* processor seconds' said; rm said; return $status; }
  $ tried
  sessions: 3 commands of 3 compared, and 1 of examples/; 0 wait for make prove
  5 passed, 0 failed
  $ cat $BUILT
  tried: campaign_main campaign_progress paklour target_trait work_gate
  mod served_calls;
  mod small_tests;
  $ tried tests/a.t | tail -n 1
  4 passed, 0 failed
  $ cat $BUILT
  tried: campaign_main campaign_progress target_trait work_gate
  mod served_calls;
  $ FAILED=1 tried | tail -n 1
  5 passed, 1 failed

A call has the streams, the folder and the files of its command: what is written stands where the command left off, and a full disk is full.

  $ printf '  $ { echo a; paklour say b; echo c; } > f; cat f\n  a\n  b\n  c\n  $ mkdir g; cd g; echo d | paklour copy | paklour copy\n  d\n' > tests/b.t
  $ printf '  $ paklour say "$(paklour copy ../f | head -n 1)"\n  a\n  $ paklour say one > /dev/full 2> /dev/null || echo full\n  full\n' >> tests/b.t
  $ tried tests/b.t
  sessions: 4 commands of 4 compared, and 0 of examples/; 0 wait for make prove
  4 passed, 0 failed

What a call can't come to, and what stands behind the line, waits; it is counted.

  $ printf '  $ (ulimit -v 100000; paklour say one)\n  two\n  $ paklour say one\n  one\n\nFrom here on the program itself is needed.\n\n  $ paklour say one\n  two\n' > tests/b.t
  $ tried
  sessions: 4 commands of 6 compared, and 1 of examples/; 2 wait for make prove
  sessions: 1 wait: a limit of memory
  sessions: 1 wait: what needs the program itself
  6 passed, 0 failed

Where the program ends by a fault, this is told, and nobody waits for it.

  $ printf '  $ paklour stop\n  $ paklour say one\n  one\n' > tests/b.t
  $ tried tests/b.t
  run=fault
  tried: rt try ended with 4
  sessions: 0 commands of 2 compared, and 0 of examples/; 2 wait for make prove
  sessions: 2 wait: a call that nobody answers
  1 passed, 1 failed
  [1]

A command that differs fails, and so do an example and a session without any command.

  $ printf '  $ paklour say one\n  two\n' > tests/b.t && echo other > examples/a.toml.stdout && echo text > tests/c.t
  $ tried tests/b.t
  --- tests/b.t
  +++ tests/b.t, performed
  @@ -1,2 +1,2 @@
     $ paklour say one
  -  two
  +  one
  sessions: 1 commands of 1 compared, and 0 of examples/; 0 wait for make prove
  3 passed, 1 failed
  [1]
  $ tools/tried | tail -n 1
  4 passed, 3 failed

`make test` counts the tests of crates and these, and each other part that fails as one. What each part took stands before the last line.

  $ tools/test | tail -n 1
  4 passed, 3 failed
  $ rm tests/b.t tests/c.t && cp examples/a.toml examples/a.toml.stdout
  $ tools/test > said; grep -A 4 '^processor seconds' said | sed 's/^ *[0-9.]*  /N /' | sort
  N house rules
  N tests of crates, sessions and examples
  N tests of outside/
  N tests of viewer/
  processor seconds:
  $ tail -n 1 said
  5 passed, 0 failed
  $ grep -c '^tests of the page' said; OLD_NODE=1 tools/test > said; grep -e skipped -e '^tests of the page' said; tail -n 1 said
  1
  skipped the tests of viewer/: no node 20
  5 passed, 0 failed
  $ echo exit 1 >> tools/house_rules
  $ tools/test > said; grep failed: said; tail -n 1 said
  failed: tools/house_rules
  5 passed, 1 failed
  $ printf '#!/bin/sh\n' > tools/house_rules
  $ TESTS= tools/test > said 2>&1
  [1]
  $ tail -n 1 said; rm said
  2 passed, 1 failed

`make prove` proves a copy without the crates of tests. An early stop gives no green line: no last line of `rt ci`, a status though nothing is counted as
failed, or nothing that was counted.

  $ printf '#!/bin/sh\n' > tools/sessions && echo '2 passed, 0 failed' > $CI
  $ tools/prove
  crates of the copy: paklour paklour
  7 passed, 0 failed
  $ for line in '2 passed' '0 passed, 0 failed' ''; do echo "$line" > $CI; tools/prove > said; echo $?; grep stopped said; tail -n 1 said; done
  1
  stopped: in_room rt ci
  0 passed, 1 failed
  1
  stopped: in_room rt ci
  0 passed, 1 failed
  1
  stopped: in_room rt ci
  0 passed, 1 failed
  $ echo '2 passed, 0 failed' > $CI
  $ CI_STATUS=1 tools/prove | tail -n 1
  2 passed, 1 failed

Where the program wasn't built, nothing is run that needs it.

  $ UNBUILT=1 tools/prove > said; grep 'not built' said; tail -n 1 said
  the program is not built, as a crate of it is not proved
  7 passed, 1 failed

`.ci/run` adds both counts, and goes on to the proof where tests fail.

  $ printf 'test:\n\t@echo 3 passed, 0 failed\nprove:\n\t@echo 4 passed, 1 failed; exit 1\n' > Makefile
  $ .ci/run 2> /dev/null | tail -n 1
  7 passed, 1 failed
  $ printf 'test:\n\t@echo 3 passed, 1 failed; exit 1\nprove:\n\t@echo 4 passed, 0 failed\n' > Makefile
  $ .ci/run 2> /dev/null | tail -n 1
  7 passed, 1 failed
  $ printf 'test:\n\t@echo 3 passed, 0 failed\nprove:\n\t@echo 4 passed, 0 failed\n' > Makefile
  $ .ci/run
  7 passed, 0 failed
  $ printf 'test:\n\t@echo 3 passed, 0 failed\nprove:\n\t@echo 4 passed\n' > Makefile
  $ .ci/run 2> /dev/null | tail -n 1
  3 passed, 1 failed
