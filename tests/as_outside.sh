#!/bin/sh
# as_outside.sh SETTINGS CODES: runs the campaign of a bundled target as one on a component that somebody else runs: one call of `explain` is
# the component, which tells the hits where the settings have a depth, and outside/loop asks. CODES are the target's, as `"torn", "stale"`. Leaves run.report, outside.toml, answers and
# outside.report.
set -eu
paklour run "$1" > run.report || [ $? -eq 1 ]

# The label and the census are those that the report of `run` tells; what is asked of the plans is the same.
{
    printf 'target = "outside"\n'
    grep -E '^(seed|pairs|storms|rate|depth|scenarios) = ' "$1"
    printf '[outside]\nlabel = "%s"\ncodes = [%s]\n' "$(sed -n 's/^target //p' run.report)" "$2"
    printf 'points = [%s]\n' "$(sed -n 's/^census \(.*\) .*/"\1",/p' run.report | tr -d '\n')"
    grep -q '^depth = ' "$1" || printf 'hits = [%s]\n' "$(sed -n 's/^census .* //p' run.report | tr '\n' ',')"
} > outside.toml

cat > try.sh <<END
#!/bin/sh
[ "\$1" = none ] && scenario= || scenario=\$1
paklour explain --scenario "\$scenario" "$1" | SCENARIO=\$1 awk -v depth="\$(grep -c '^depth = ' "$1")" '
    function row() {
        if (count > 0) hits = hits (hits == "" ? "" : ";") (count > 1 ? count "*" : "") point
        count = 0
    }
    /^verdict / { verdict = substr(\$0, 9) }
    /^hit / { if (\$3 != point) row(); point = \$3; count++ }
    END { row(); print verdict "\t" ENVIRON["SCENARIO"] (depth ? "\t" hits : "") }'
END
chmod +x try.sh
rm -f answers
"$TESTDIR/../outside/loop" outside.toml answers ./try.sh > outside.report || [ $? -eq 1 ]
