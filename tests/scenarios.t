A scenario has entries, a point's name and a chain of terms each, as `paklour help try` says. How its text is read the commands show:
`plans` prints each listed scenario in its shortest form, and `try` and `reduce` tell the first thing wrong with the one that they are given.

  $ cat > settings.toml <<'END'
  > target = "replace"
  > [replace]
  > old = "old"
  > replacements = [["ne", "w"]]
  > END

`printed` lists a text and shows the last plan, which is that one; `fault` tries and reduces it, which say the same.

  $ printed() {
  >     printf "scenarios = ['''%s''']\n" "$1" | cat - settings.toml | paklour plans 2> err | tail -n 1
  >     sed '/: no point is named /d' err
  > }
  $ fault() {
  >     for command in try reduce; do
  >         paklour $command --scenario "$1" settings.toml
  >         test $? -eq 2 || echo "another status"
  >     done 2>&1 | uniq
  > }

What texts mean
---------------

Blanks around names, entries and terms are dropped, those in arguments are kept; entries that are blank are none. A percentage is printed
without needless digits, and from 100 on not at all. A count is printed without leading zeros.

  $ printed ' ; ;'
  plan 19 none
  $ printed ' a = 020.50%007*print( hi ) '
  plan 19 a=20.5%7*print( hi )
  $ printed "$(printf '\ta\r\n=\n off -> 1.05%%off ;')"
  plan 19 a=off->1.05%off
  $ printed 'a=250%panic'
  plan 19 a=panic
  $ printed 'a=100.0000%off'
  plan 19 a=off
  $ printed 'a=0.0001%off'
  plan 19 a=0.0001%off
  $ printed 'a=0%off'
  plan 19 a=0%off
  $ printed 'a=20%3*print(still alive!)->panic'
  plan 19 a=20%3*print(still alive!)->panic

A name ends at the first `=`. The last chain of a name counts, at the place of the first one.

  $ printed 'a->b=off'
  plan 19 a->b=off
  $ printed 'a=off;b=yield;a=panic'
  plan 19 a=panic;b=yield

`off`, `pause` and `yield` drop an argument; of the tasks that keep one, none and an empty one are different; `sleep` and `delay` print
their milliseconds without leading zeros.

  $ printed 'a=off(x)->pause(y)->4294967295*yield()'
  plan 19 a=off->pause->4294967295*yield
  $ printed 'a=return'
  plan 19 a=return
  $ printed 'a=return()'
  plan 19 a=return()
  $ printed 'a=return(x(y))'
  plan 19 a=return(x(y))
  $ printed 'a=sleep(0005)->delay(1000000000)'
  plan 19 a=sleep(5)->delay(1000000000)

The printed form means the same when it is read again.

  $ printed 'a=return(x(y))->1*off->20.5%0*sleep(1)'
  plan 19 a=return(x(y))->1*off->20.5%0*sleep(1)
  $ printed 'a->b=off;c=99.9999%print( hi )->panic()->4294967295*delay(1000000000)'
  plan 19 a->b=off;c=99.9999%print( hi )->panic()->4294967295*delay(1000000000)

What is wrong with texts
------------------------

Entries are counted from 1, blank ones too, and so are the terms of a chain; term 0 is the entry itself.

  $ fault ';b'
  scenario: NoAction entry 2 term 0
  $ fault '=off'
  scenario: NoName entry 1 term 0

Where a term opens a parenthesis, its last character closes it.

  $ fault 'a=return(x'
  scenario: Parentheses entry 1 term 1
  $ fault 'a=off('
  scenario: Parentheses entry 1 term 1

A percentage has digits, and a point and up to four digits after it.

  $ fault 'a=3*20%off'
  scenario: BadPercent entry 1 term 1
  $ fault 'a=off;b=off->3*20%off'
  scenario: BadPercent entry 2 term 2
  $ fault 'a=99.99999%off'
  scenario: BadPercent entry 1 term 1
  $ fault 'a=.5%off'
  scenario: BadPercent entry 1 term 1
  $ fault 'a=250.00000%off'
  scenario: BadPercent entry 1 term 1
  $ fault 'a=20 %off'
  scenario: BadPercent entry 1 term 1
  $ fault 'a=%off'
  scenario: BadPercent entry 1 term 1
  $ fault 'a=20.%off'
  scenario: BadPercent entry 1 term 1
  $ fault 'a=+5%off'
  scenario: BadPercent entry 1 term 1

A count has digits, for a number of 32 bits.

  $ fault 'a=*off'
  scenario: BadCount entry 1 term 1
  $ fault 'a=4294967296*off'
  scenario: BadCount entry 1 term 1

What is left is one of eight words.

  $ fault 'a=off->'
  scenario: UnknownTask entry 1 term 2
  $ fault 'a=20%%off'
  scenario: UnknownTask entry 1 term 1
  $ fault 'a=1**off'
  scenario: UnknownTask entry 1 term 1
  $ fault 'a=return (x)'
  scenario: UnknownTask entry 1 term 1
  $ fault 'a=Off'
  scenario: UnknownTask entry 1 term 1

Milliseconds are digits too, for at most 1000000000.

  $ fault 'a=sleep'
  scenario: BadMillis entry 1 term 1
  $ fault 'a=sleep()'
  scenario: BadMillis entry 1 term 1
  $ fault 'a=off;b=off->delay(1 )->x'
  scenario: BadMillis entry 2 term 2
  $ printed 'a=sleep(1000000000)'
  plan 19 a=sleep(1000000000)
  $ fault 'a=sleep(1000000001)'
  scenario: BadMillis entry 1 term 1

Limits
------

A text has up to 65536 bytes, a scenario 256 entries, an entry 256 terms. `pieces` writes a piece so many times, with a text between.

  $ pieces() { seq $1 | sed "s/.*/$2/" | paste -s -d @ - | sed "s/@/$3/g"; }
  $ longest="a=print($(head -c 65527 /dev/zero | tr '\0' x))"
  $ printed "$longest" | wc -c
  65545
  $ fault "x$longest"
  scenario: TooLong entry 0 term 0

  $ printed "$(pieces 256 'a=off' ';')"
  plan 19 a=off
  $ fault "$(pieces 257 'a=off' ';')"
  scenario: TooMany entry 257 term 0
  $ fault ";$(pieces 257 'a=off' ';')"
  scenario: TooMany entry 258 term 0
  $ test "$(printed "a=$(pieces 256 off '->')")" = "plan 19 a=$(pieces 256 off '->')"
  $ fault "a=$(pieces 257 off '->')"
  scenario: TooMany entry 1 term 257

There are up to 4096 faults, which are terms besides `off`. Those that never act count, and those of a chain that a later one takes the
place of: here sixteen chains of 256 faults, or four.

  $ four=$(pieces 4 "a=$(pieces 256 yield '->')" ';')
  $ printed "$four;a=yield"
  plan 19 a=yield
  $ sixteen=$(pieces 16 "a=$(pieces 256 yield '->')" ';')
  $ test "$(printed "$sixteen")" = "plan 19 a=$(pieces 256 yield '->')"
  $ fault "$sixteen;a=yield"
  scenario: TooMany entry 17 term 1
  $ never=$(pieces 16 "a=$(pieces 256 '0%0\*yield' '->')" ';')
  $ printed "$never;a=off"
  plan 19 a=off
  $ fault "$never;a=yield"
  scenario: TooMany entry 17 term 1
