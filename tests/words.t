The words of the command line: a command, its scenario where it takes one, and the file with the settings. Standard input is read where no
file is named; here it has other settings than the files, and other ones again are in a file whose name is `-`.

  $ printf '%s\n' 'target = "replace"' '[replace]' 'old = "old"' 'replacements = [["ne", "w"]]' > given
  $ printf '%s\n' 'target = "maildir"' 'variant = "link_first"' '[maildir]' 'messages = [["hi"]]' > f
  $ printf '%s\n' 'target = "commit"' '[commit]' 'participants = 1' 'transactions = [["no"]]' > ./-
  $ cp f run

`asks` shows the first two lines that words lead to.

  $ asks() { paklour "$@" < given 2>&1 | head -n 2; }

What words ask for
------------------

  $ asks
  target replace sound
  seed 0
  $ asks --
  target replace sound
  seed 0
  $ asks run
  target replace sound
  seed 0
  $ asks run f
  target maildir link_first
  seed 0
  $ asks run -
  target commit sound
  seed 0
  $ asks run run
  target maildir link_first
  seed 0
  $ asks plans
  plan 0 none
  plan 1 replace::create=1*return
  $ asks plans f
  plan 0 none
  plan 1 maildir::stat=1*return
  $ asks try --scenario a=off
  verdict pass
  asked 6
  $ asks try --scenario ''
  verdict pass
  asked 6
  $ asks try --scenario=
  verdict pass
  asked 6
  $ asks try --scenario a=off f
  verdict pass
  asked 7
  $ asks try --scenario=-x
  scenario: NoAction entry 1 term 0
  $ asks reduce --scenario maildir::write=1*return f
  verdict fail torn
  reduced maildir::write=1*return
  $ asks run --brief f
  target maildir link_first
  seed 0
  $ asks run f --brief
  target maildir link_first
  seed 0
  $ asks run --json f
  {
    "version": 1,
  $ asks run --junit -
  <?xml version="1.0" encoding="UTF-8"?>
  <testsuites>
  $ asks page f | cut -c 1-15
  <!doctype html>
  <html lang="en"
  $ asks explain --scenario a=off
  verdict pass
  hit 1 replace::create 1 go
  $ asks explain --plan 1 f
  verdict pass
  hit 1 maildir::stat 1 return
  $ asks try --plan 0
  verdict pass
  asked 6
  $ asks try --plan=0 f
  verdict pass
  asked 7

The version stands on a line of its own, as the constant `VERSION` of command_words has it.

  $ paklour --version
  paklour 0.9.0
  $ paklour -V
  paklour 0.9.0

Two commands take their settings from a file alone, since standard input has the answers of a component that somebody else runs.

  $ printf '%s\n' 'target = "outside"' '[outside]' 'label = "a store"' 'codes = []' 'points = ["a"]' 'hits = [1]' > -f
  $ paklour asks -- -f < /dev/null
  none
  a=1*return
  a=return
  a=1*panic
  $ printf 'pass\t%s\n' none 'a=1*return' 'a=return' 'a=1*panic' | paklour report -- -f | head -n 2
  target a store
  seed 0

Words that are refused
----------------------

What is wrong is told on standard error, and nothing is on standard output.

  $ paklour frobnicate
  error: unrecognized subcommand 'frobnicate'
  
  Usage: paklour [COMMAND]
  
  For more information, try '--help'.
  [2]
  $ paklour try
  error: the following required arguments were not provided:
    <--scenario <TEXT>|--plan <N>>
  
  Usage: paklour try <--scenario <TEXT>|--plan <N>> [FILE]
  
  For more information, try '--help'.
  [2]
  $ paklour try 2> /dev/null
  [2]
  $ refused() {
  >     paklour "$@" < given > out 2> fault
  >     test $? -eq 2 || echo "another status"
  >     head -n 1 fault
  >     cat out
  > }
  $ refused try f
  error: the following required arguments were not provided:
  $ refused asks
  error: the following required arguments were not provided:
  $ refused report
  error: the following required arguments were not provided:
  $ refused report --scenario a f
  error: unexpected argument '--scenario' found
  $ refused reduce
  error: the following required arguments were not provided:
  $ refused reduce f
  error: the following required arguments were not provided:
  $ refused help nonsense
  error: unrecognized subcommand 'nonsense'
  $ refused -- run
  error: unexpected argument 'run' found
  $ refused ''
  error: unrecognized subcommand ''
  $ refused run f more
  error: unexpected argument 'more' found
  $ refused run --frobnicate
  error: unexpected argument '--frobnicate' found
  $ refused run --brief --brief
  error: the argument '--brief' cannot be used multiple times
  $ refused run --brief=true f
  error: unexpected value 'true' for '--brief' found; no more were expected
  $ refused run --json --junit
  error: the argument '--json' cannot be used with '--junit'
  $ refused run --json --json
  error: the argument '--json' cannot be used multiple times
  $ refused run --junit=true f
  error: unexpected value 'true' for '--junit' found; no more were expected
  $ refused report --json --page f
  error: the argument '--json' cannot be used with '--page'
  $ refused report --page --brief f
  error: the argument '--brief' cannot be used with '--page'
  $ refused report --page --page f
  error: the argument '--page' cannot be used multiple times
  $ refused run --recheck f
  error: unexpected argument '--recheck' found
  $ refused run --page f
  error: unexpected argument '--page' found
  $ refused --junit
  error: unexpected argument '--junit' found
  $ refused plans --brief
  error: unexpected argument '--brief' found
  $ refused asks --brief f
  error: unexpected argument '--brief' found
  $ refused plans --progress
  error: unexpected argument '--progress' found
  $ refused try --progress --scenario a=off
  error: unexpected argument '--progress' found
  $ refused explain --progress --scenario a=off
  error: unexpected argument '--progress' found
  $ refused asks --progress f
  error: unexpected argument '--progress' found
  $ refused report --progress f
  error: unexpected argument '--progress' found
  $ refused --progress
  error: unexpected argument '--progress' found
  $ refused run --progress --progress
  error: the argument '--progress' cannot be used multiple times
  $ refused run --progress=line --progress
  error: the argument '--progress' cannot be used multiple times
  $ refused run --progress=lines
  error: unexpected value 'lines' for '--progress' found; no more were expected
  $ refused plans --progress=line
  error: unexpected argument '--progress' found
  $ refused page --brief
  error: unexpected argument '--brief' found
  $ refused page --plan 1
  error: unexpected argument '--plan' found
  $ refused page --json
  error: unexpected argument '--json' found
  $ refused explain
  error: the following required arguments were not provided:
  $ refused explain --plan 1 --scenario a=off
  error: the argument '--scenario <TEXT>' cannot be used with '--plan <N>'
  $ refused explain --plan 65536
  error: invalid value '65536' for '--plan <N>': not a number from 0 to 65535
  $ refused run --scenario a
  error: unexpected argument '--scenario' found
  $ refused try --scenario
  error: a value is required for '--scenario <TEXT>' but none was supplied
  $ refused try --scenario -x
  error: unexpected argument '-x' found
  $ refused try --scenario a=off --scenario a=off
  error: the argument '--scenario <TEXT>' cannot be used multiple times

A plan has one of 65536 numbers, and a scenario is given in one way.

  $ refused try --plan
  error: a value is required for '--plan <N>' but none was supplied
  $ refused try --plan ''
  error: invalid value '' for '--plan <N>': not a number from 0 to 65535
  $ refused reduce --plan 65536
  error: invalid value '65536' for '--plan <N>': not a number from 0 to 65535
  $ refused reduce --plan=-1
  error: invalid value '-1' for '--plan <N>': not a number from 0 to 65535
  $ refused try --plan 1e3 f
  error: invalid value '1e3' for '--plan <N>': not a number from 0 to 65535
  $ refused try --plan 1 --plan 2
  error: the argument '--plan <N>' cannot be used multiple times
  $ refused run --plan 1
  error: unexpected argument '--plan' found
  $ refused try --version
  error: unexpected argument '--version' found
  $ refused asks --shard 1/3 f
  error: unexpected argument '--shard' found
  $ refused asks --left f
  error: unexpected argument '--left' found
  $ refused report --follow f
  error: unexpected argument '--follow' found
  $ refused asks --brief f
  error: unexpected argument '--brief' found
  $ refused report --partial --brief f
  error: the argument '--brief' cannot be used with '--partial'
  $ refused report --brief --explain a=off f
  error: the argument '--explain <TEXT>' cannot be used with '--brief'
  $ refused report --explain a=off --partial f
  error: the argument '--explain <TEXT>' cannot be used with '--partial'
  $ refused report --explain a=off --strict f
  error: the argument '--explain <TEXT>' cannot be used with '--strict'
  $ refused report --explain a=off --explain a=off f
  error: the argument '--explain <TEXT>' cannot be used multiple times
  $ refused report f --explain
  error: a value is required for '--explain <TEXT>' but none was supplied
  $ refused report --explain f
  error: the following required arguments were not provided:
  $ refused asks --explain a=off f
  error: unexpected argument '--explain' found
  $ paklour reduce --scenario a=off --plan 1 f
  error: the argument '--scenario <TEXT>' cannot be used with '--plan <N>'
  
  Usage: paklour reduce [OPTIONS] <--scenario <TEXT>|--plan <N>> [FILE]
  
  For more information, try '--help'.
  [2]

Words are UTF-8.

  $ refused "$(printf '\377')"
  error: invalid UTF-8 was detected in one or more arguments
  $ refused run "$(printf '\377.toml')"
  error: invalid UTF-8 was detected in one or more arguments
  $ refused try --scenario "$(printf 'a=return(\377)')"
  error: invalid UTF-8 was detected in one or more arguments

Settings that can't be read
---------------------------

The file isn't there, or is a folder. No word stands for standard input, which may be unreadable too, or empty.

  $ rm ./-
  $ mkdir folder
  $ for file in missing.toml folder ''; do
  >     for command in run plans page 'try --scenario a' 'reduce --scenario a' 'explain --scenario a'; do paklour $command "$file" < given; done
  > done 2>&1 | uniq -c | tr -s ' '
   18 settings: not readable
  $ paklour run missing.toml
  settings: not readable
  [2]
  $ paklour run - < given
  settings: not readable
  [2]
  $ paklour run < folder
  settings: not readable
  [2]
  $ paklour run < /dev/null
  settings: missing target
  [2]
