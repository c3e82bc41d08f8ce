The table that the clients of outside/points are held to is what `explain` tells, and the stored reports of outside/examples without a depth are of
the settings beside them: the same plans, and each failing one with the scenario that it has.

  $ points="$TESTDIR/../outside/points"
  $ "$points/make_table" paklour | cmp - "$points/table"
  $ cd "$TESTDIR/../outside/examples"
  $ plans_of() { grep '^verdict [0-9]* fail' "$1" | sed 's/^verdict \([0-9]*\) fail [a-z]* /plan \1 /'; }
  $ for report in etcd/report $(ls commit/*.report | grep -v order); do
  >     paklour plans "${report%/*}/settings.toml" > "$OLDPWD/plans"
  >     plans_of "$report" | grep -vxF -f "$OLDPWD/plans"
  >     [ "$(wc -l < "$OLDPWD/plans")" = "$(sed -n 's/^plans //p' "$report")" ] || echo "$report has other plans"
  > done
