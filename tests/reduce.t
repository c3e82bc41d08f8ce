`reduce` runs a target once under a scenario. Where the run fails, it writes what the scenario is reduced to, and how many sets of its
faults were tested. It writes the same from any number of workers. examples/reduce_noise.toml has a scenario whose second of three faults
is kept.

  $ for workers in 1 2 8 64; do
  >     cat > $workers.toml <<END
  > target = "replace"
  > seed = 7
  > workers = $workers
  > [replace]
  > old = "old"
  > replacements = [["ne", "w"]]
  > END
  > done

Where nothing fails there is nothing to reduce.

  $ for workers in 1 2 8 64; do paklour reduce --scenario '' $workers.toml; done
  verdict pass
  verdict pass
  verdict pass
  verdict pass
  $ for workers in 1 2 8 64; do paklour reduce --scenario 'replace::write=pause' $workers.toml; done
  verdict unresolved
  verdict unresolved
  verdict unresolved
  verdict unresolved

A scenario that spells nothing is refused, after the settings.

  $ paklour reduce --scenario 'a=off->' 2.toml
  scenario: UnknownTask entry 1 term 2
  [2]
  $ echo 'target = "replace"' | paklour reduce --scenario 'a=off->'
  settings: missing replace
  [2]
