From here on the program itself is needed.

Campaigns over settings that are drawn at random are reported alike from one worker and from five, and end alike: 340 for each target.
random_settings.py draws them.

`campaigns` performs those of a target, shows what differs, and counts those that grow to a depth, those that fail, and those of them that fail
with two codes or more. A quarter grows, which is 85 or some more or fewer. Enough of all fail, and enough don't, to show something.

  $ campaigns() {
  >     python3 "$TESTDIR/random_settings.py" $1 $2 340
  >     for number in $(seq 0 339); do
  >         for workers in 1 5; do
  >             { echo "workers = $workers"; cat $number.toml; } | paklour run > $workers.txt 2>&1
  >             echo $? >> $workers.txt
  >         done
  >         cmp 1.txt 5.txt || cat $number.toml
  >         test $(tail -n 1 1.txt) -le 1 || cat $number.toml 1.txt
  >         grep -c '^first [0-9]' 1.txt
  >     done > codes
  >     grep -v -x '[0-9]*' codes
  >     failed=$(awk '$1 > 0' codes | wc -l) several=$(awk '$1 > 1' codes | wc -l)
  >     grown=$(grep -l '^depth = [12]$' *.toml | wc -l)
  > }

  $ campaigns replace 20261122
  $ test $failed -ge 40 -a $failed -le 300 -a $grown -ge 75 -a $grown -le 95
  $ campaigns maildir 1126
  $ test $failed -ge 40 -a $failed -le 300 -a $grown -ge 75 -a $grown -le 95

Of the commits some fail with two codes.

  $ campaigns commit 90210
  $ test $failed -ge 40 -a $failed -le 300 -a $several -ge 15 -a $grown -ge 75 -a $grown -le 95
