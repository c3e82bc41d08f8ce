From here on the program itself is needed.

Help is a text on standard output, and the exit status is 0.

  $ for words in help --help -h 'help run' 'run -h' 'help plans' 'help page' 'help try' 'try --help' 'help reduce' 'help explain' 'help asks' 'help report' 'help help'; do
  >     paklour $words > text || echo "$words: $?"
  >     grep -q '^Usage: paklour' text || echo "$words: no text"
  >     awk 'length > 100' text
  > done

No line of it is longer than 100 letters, as has just been seen. It says what each command does, and what a scenario may hold.

  $ paklour help run
  Run a campaign and write its report; with no command at all, this is done
  
  Usage: paklour run [OPTIONS] [FILE]
  
  Arguments:
    [FILE]  Settings as TOML; `paklour help` lists their keys. Without FILE, standard input has them
  
  Options:
        --brief     Count verdicts that pass, and write the scenario beside each other verdict
        --json      Write the report as a JSON document, for programs that read it
        --junit     Write JUnit's XML, with a case for each plan
        --strict    Warn on standard error about gaps in the report, and then end with 5
        --progress  Show on standard error how far it is; --progress=plain: in lines, for logs
    -h, --help      Print help
  
  Examples:
    paklour run my.toml             the verdict of each plan, and each first failure, reduced
    paklour run < my.toml           settings from standard input
    paklour run --brief my.toml     no line for a verdict that passes, and scenarios beside the others
    paklour run --json my.toml      a JSON document, for programs that read the report
    paklour run --junit my.toml     JUnit's XML, which CI servers show as tests
    paklour run --strict my.toml    the same report, and warnings about its gaps on standard error
    paklour run --progress my.toml  the same report; meanwhile on standard error, in one line:
                                    plans 5201 of 65025, 1 failing, 5200 a second, 0:00:12 left
  
  Give at most one of --brief, --json and --junit.
  $ paklour help try | grep -e ^Usage: -e ' --scenario <' -e ' --plan <' -e '^A scenario has '
  Usage: paklour try <--scenario <TEXT>|--plan <N>> [FILE]
        --scenario <TEXT>  The scenario, as 'POINT=TERM->TERM;POINT=TERM'
        --plan <N>         The scenario of plan N of the campaign, 0 to 65535, drawn as it is there
  A scenario has up to 65536 bytes, 256 entries, 256 terms in an entry, and 4096 terms besides off.
  $ for command in reduce explain; do paklour help $command | grep ^Usage:; done
  Usage: paklour reduce [OPTIONS] <--scenario <TEXT>|--plan <N>> [FILE]
  Usage: paklour explain <--scenario <TEXT>|--plan <N>> [FILE]

Each option has an example.

  $ paklour help try | sed -n '/^  paklour try --/p'
    paklour try --scenario 'replace::sync=1*return' my.toml
    paklour try --plan 10 my.toml     run plan 10 again, which the report has as `verdict 10 ..`
  $ paklour help explain | grep 'paklour explain --'
    paklour explain --plan 10 my.toml the same run, hit by hit
  $ paklour help reduce | grep -e ' --progress'
        --progress         Show on standard error how far it is; --progress=plain: in lines, for logs
    paklour reduce --progress --plan 10 my.toml   while it asks, how many tests there were so far
  $ paklour help page | grep -e ' --progress'
        --progress  Show on standard error how far it is; --progress=plain: in lines, for logs
  $ paklour help page | sed -n '/^Example/,$p'
  Example:
    paklour page my.toml > page.html
  shows what was tried and found: each first failure with its run, hit by hit, a map of all plans,
  and the plans by verdict, point and level. A browser opens it; it loads nothing from elsewhere.
  $ paklour help report | grep -e --brief -e --page -e --explain
        --brief           Count verdicts that pass, and write the scenario beside each other verdict
        --page            Write the report as a page to look at, in HTML
        --explain <TEXT>  Write instead the run that an answer tells of this scenario, hit by hit
    paklour report --brief my.toml < answers
    paklour report --page my.toml < answers > page.html
    paklour report --explain 'sys::fsync=1*return' my.toml < answers      one run, hit by hit

The help of the program names the keys of settings, their ranges and defaults, as settings.t and settings_tables.t show them, and the exit
statuses.

  $ paklour help | sed -n '/^Settings are TOML/,/^Example:/p;/^Exit status:/,$p'
  Settings are TOML. Their keys, with ranges and defaults:
    target     "replace", "maildir", "commit" or "outside"; required
    variant    "sound", or one with a flaw, by the target; default "sound"
                 replace: "late_sync", "ignore_sync", "retry_write", "rename_first", "in_place"
                 maildir: "link_first", "ignore_write", "append_tmp", "deliver_in_new"
                 commit:  "lazy_prepare", "early_end", "two_tries", "end_first"
    seed       the seed of all that is drawn, 0 to 9223372036854775807; default 0
    workers    how many threads run plans, 1 to 64; default 1
    max_hits   how many steps a run may take before it counts as unresolved, 1 to 100000; default 1000
    pairs      true or false: plans of two steps that both fail, or the second panics; default false
    storms     how many plans of faults drawn at random there are, 0 to 10000; default 0
    rate       how many steps in a thousand each of these plans draws, 0 to 1000; default 100
    depth      with up to how many returns and panics each behaviour is tried, 1 to 64, without pairs;
               default none: plans come from the run without faults
    crash_states  true or false: the power cut asks power::keep for each pending write; default false
    scenarios  scenarios to run as plans too, up to 1000 texts; default none
  and a table for the target. Its keys are required where no default is named:
    [replace]
      old           the contents at first, a text of up to 65536 bytes
      replacements  up to 1000 lists of up to 1000 chunks
    [maildir]
      messages      up to 1000 lists of up to 1000 chunks
    [commit]
      participants  1 to 8
      transactions  up to 100 lists of "yes" and "no", one for each participant
    [outside]
      label         what the component is, a text of up to 200 bytes
      codes         what may follow `fail` in an answer, up to 64 texts of up to 200 bytes
      points        the names of its points, 1 to 64 texts of up to 200 bytes
      hits          how often each point is hit without faults, as many numbers from 0 to 100000;
                    with a depth the answers tell that, and this key is out of range
      kinds         with a depth alone: a table that lists for a point which faults are tried at its
                    hits, 1 to 8 of "return", "return(TEXT)" and "panic", none twice; TEXT has
                    up to 32 bytes; default return and panic, at power::keep return
  With "outside" something else runs the component, a program of your own. Only plans, asks and report
  take such settings, and plans only if they have no depth. The keys variant, workers, max_hits and
  crash_states are unknown there.
  A chunk is a text of up to 4096 bytes. `paklour help try` says what a scenario may hold.
  
  Example:
  Exit status:
    0  no verdict is fail
    1  a verdict is fail
    2  the command line, the settings, a scenario or the answers were refused or couldn't be read, or
       there are too many plans; a line on standard error says which
    3  memory ran out
    4  a write failed
    5  with --strict: no verdict is fail, but there were warnings: an unresolved run, no hits without
       faults, a point that no run reaches, a name that no point has, hits that nobody knows, a fault
       that its run doesn't meet, or storms of rate 0

The help of the commands on a component that somebody else runs says what an answer is.

  $ paklour help asks | grep -e ^Usage: -e VERDICT -e '<FILE>  '
  Usage: paklour asks [OPTIONS] <FILE>
    <FILE>  Settings as TOML; `paklour help` lists their keys. Standard input has the answers
    VERDICT<TAB>SCENARIO<TAB>HITS
  $ paklour help asks | grep -e '^ *--follow '
        --follow  Go on while answers come, and write each scenario as soon as it is known
