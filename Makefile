# The commands of every day. The toolchain's `rt` has to be on the PATH (README.md).

# The settings of the campaign that `make run` runs.
FILE = examples/replace_depth.toml

# The folder into which `make install` puts the program and the commands beside it, and the program. If none is named, that is the one that
# `make build` makes.
PREFIX = /usr/local
BUILT = crates/paklour/out/paklour
PROGRAM = $(BUILT)

# A first look: builds the program without proving it, and runs a campaign; it ends with the name of the page that it wrote, to look at. A
# campaign that finds a failure is no error here.
run:
	@tools/first_look $(FILE)

# Proves the program with all that it stands on, and builds crates/paklour/out/paklour. What the gate has proved on this machine is taken
# over, and the gate takes over what is proved here.
build:
	@tools/prove_program

# Performs each command of examples/, again without a proof, and compares what is written with the file beside it.
examples:
	@cd crates/paklour && rt try --cases ../../examples

# Performs the sessions of tests/ with the program that `make build` makes. Some run what is built in outside/.
sessions: build
	@$(MAKE) -s -C outside
	@tools/sessions $(BUILT)

# Runs all tests that need no proof, in minutes: the house rules, the tests of outside/ and of the crates, the sessions and the examples, except those
# that need the program itself.
test:
	@tools/test

# Runs the proof: every proof from nothing, the must-fail edits, and everything that needs the proved program. With `make test` it is the merge gate.
prove:
	@tools/gate_times tools/prove

# Proves what changed since the last check.
check:
	@rt all check

# Checks what a change of one crate needs, as in `make quick CRATE=xml_text`: its layout, its proof and its edits, the tests that name it, run
# without a proof, and the house rules.
quick:
	@[ -f 'crates/$(CRATE)/src/lib.rt' ] || [ -f 'crates/$(CRATE)/src/main.rt' ] || { echo 'make quick CRATE=NAME, a folder of crates/' >&2; exit 2; }
	@cd 'crates/$(CRATE)' && rt fmt && rt check
	@tools/wrong_bodies '$(CRATE)'
	@for tests in $$(sed -n 's/^\([a-z_]*_tests\):.*[: ]$(CRATE)\( .*\)*$$/\1/p' crates.txt); do (cd crates/$$tests && rt try --test) || exit 1; done
	@tools/house_rules

# Lays out the files of all crates.
fmt:
	@for crate in crates/*/; do (cd $$crate && rt fmt) || exit 1; done

ifeq ($(PROGRAM),$(BUILT))
install: build
endif
# Puts the program and the commands of outside/ into PREFIX/bin, with manual pages and completions.
install:
	@$(MAKE) -s -C outside commands
	@tools/install put "$(PROGRAM)" "$(DESTDIR)$(PREFIX)"

# Removes what `make install` has put there.
uninstall:
	@tools/install take "$(DESTDIR)$(PREFIX)"

ifeq ($(PROGRAM),$(BUILT))
deb: build
endif
# Builds a package of Debian with the same, out/paklour_VERSION_amd64.deb.
deb:
	@$(MAKE) -s -C outside commands
	@tools/deb "$(PROGRAM)" out

# Writes the manual pages and the completions anew, from the help of the program and of the commands.
pages: build
	@tools/pages $(BUILT)

# Proves and builds the program of the last commit as that of a release, in dist/.
dist:
	@tools/dist make
# Proves the commit that dist/ names from nothing, and compares the program's bytes.
dist-check:
	@tools/dist again

# Proves and builds the program, and refuses each of its allocations in turn, for each command of examples/.
refuse: build
	@tools/refuse.py $(BUILT) examples/*.toml

# Tries all edits of must-fail/, which the prover has to refuse, over the libraries that `make check` has proved, and writes their list.
edits: check
	@tools/wrong_bodies --all

# Proves and builds the benchmarks, and runs them: work counts, which have to be those stored, and times beside them.
bench:
	@bench/run

# Lists what can be made, by the comment above each target.
help:
	@awk '/^# /{ text = text (text ? " " : "") substr($$0, 3); next } \
	    /^[a-z][a-z-]*:/ && text && !($$1 in told) { told[$$1]; sub(/[.] .*/, ".", text); printf "make %-12s%s\n", substr($$1, 1, length($$1) - 1), text } \
	    { text = "" }' Makefile
	@echo 'Each is told in README.md or in docs/WORKING.md.'

.PHONY: help quick run build install uninstall deb pages dist dist-check examples sessions test prove check fmt refuse edits bench
