Settings of a component that somebody else runs: `target = "outside"`, with its table. Each call of `outside` takes settings that are accepted,
with lines before the table (--top), lines of the table in place of those of their keys, and without some keys (-KEY).

  $ repeat() { printf "%.0s$2" $(seq $1); }
  $ names() { seq -s ', ' -f "\"$1%g\"" 0 $(($2 - 1)); }
  $ told() {
  >     paklour plans 2>&1 > /dev/null | sed 's/^too many plans$/accepted, but too many plans/' | grep -v ': no point is named ' || echo accepted
  > }
  $ outside() {
  >     printf '%s\n' 'target = "outside"' > top
  >     printf '%s\n' 'label = "store 1"' 'codes = ["lost", "corrupt"]' 'points = ["io::open", "io::write"]' 'hits = [2, 0]' > table
  >     while [ $# -gt 0 ]; do
  >         case $1 in
  >         --top) shift; printf '%s\n' "$1" >> top ;;
  >         -*) sed -i "/^${1#-} /d" table ;;
  >         *) sed -i "/^${1%% *} /d" table; printf '%s\n' "$1" >> table ;;
  >         esac
  >         shift
  >     done
  >     { cat top; echo '[outside]'; cat table; } | told
  > }

Which keys there are
--------------------

The seed, and what is asked of plans, are as everywhere. `variant`, `workers` and `max_hits` mean nothing here, and other targets' tables aren't
known; of unknown keys the least is told, before all else. Nor does `crash_states`, as somebody else cuts the power.

  $ outside
  accepted
  $ outside --top 'variant = "sound"'
  settings: unknown key variant
  $ outside --top 'workers = 2'
  settings: unknown key workers
  $ outside --top 'crash_states = true'
  settings: unknown key crash_states
  $ outside --top 'depth = 65' --top 'crash_states = 1'
  settings: unknown key crash_states
  $ outside 'extra = 1' 'beta = 2'
  settings: unknown key outside.beta
  $ outside -label -codes -points -hits 'old = "x"'
  settings: unknown key outside.old
  $ outside --top 'scenarios = ["io::open=50%return", "io::open=retrun"]'
  settings: scenario 1: UnknownTask entry 1 term 1
  $ outside --top 'scenarios = ["io::open=50%return"]' --top 'rate = 1001'
  settings: out of range rate
  $ outside --top 'seed = -1'
  settings: out of range seed
  $ outside --top 'pairs = 1'
  settings: wrong type pairs
  $ outside --top 'storms = 10001'
  settings: out of range storms

With a depth plans grow from the hits that answers tell, so that the settings say none: `hits` is out of range then, whatever its value.

  $ outside -hits --top 'depth = 1'
  settings: target outside with a depth: only asks and report
  $ outside -hits --top 'depth = 64'
  settings: target outside with a depth: only asks and report
  $ outside --top 'depth = 1'
  settings: out of range outside.hits
  $ outside --top 'depth = 1' 'hits = "none"'
  settings: out of range outside.hits
  $ outside -points --top 'depth = 1'
  settings: missing outside.points
  $ outside --top 'depth = 65'
  settings: out of range depth
  $ outside --top 'depth = "2"'
  settings: wrong type depth
  $ outside --top 'depth = 2' --top 'pairs = false' --top 'scenarios = 1'
  settings: wrong type scenarios
  $ outside --top 'depth = 2' --top 'pairs = true'
  settings: out of range pairs
  $ outside --top 'depth = 2' --top 'rate = 1001'
  settings: out of range rate

Tables of other targets, and targets without their table.

  $ told << 'END'
  > target = "outside"
  > [outside]
  > label = "store 1"
  > codes = ["lost", "corrupt"]
  > points = ["io::open", "io::write"]
  > hits = [2, 0]
  > [replace]
  > old = ""
  > replacements = []
  > END
  settings: unknown key replace
  $ told << 'END'
  > target = "outside"
  > [outside]
  > label = "store 1"
  > codes = ["lost", "corrupt"]
  > points = ["io::open", "io::write"]
  > hits = [2, 0]
  > [maildir]
  > messages = []
  > END
  settings: unknown key maildir
  $ told << 'END'
  > target = "outside"
  > [outside]
  > label = "store 1"
  > codes = ["lost", "corrupt"]
  > points = ["io::open", "io::write"]
  > hits = [2, 0]
  > [commit]
  > participants = 1
  > transactions = []
  > END
  settings: unknown key commit
  $ told << 'END'
  > target = "replace"
  > [replace]
  > old = ""
  > replacements = []
  > [outside]
  > label = "store 1"
  > codes = ["lost", "corrupt"]
  > points = ["io::open", "io::write"]
  > hits = [2, 0]
  > END
  settings: unknown key outside
  $ told << 'END'
  > target = "outsides"
  > [outside]
  > label = "store 1"
  > codes = ["lost", "corrupt"]
  > points = ["io::open", "io::write"]
  > hits = [2, 0]
  > END
  settings: unknown key outside
  $ told << 'END'
  > target = "outsides"
  > workers = 1
  > END
  settings: out of range target
  $ told << 'END'
  > workers = 1
  > END
  settings: missing target
  $ told << 'END'
  > target = "outside"
  > END
  settings: missing outside
  $ told << 'END'
  > target = "outside"
  > outside = 3
  > END
  settings: wrong type outside
  $ told << 'END'
  > target = "outside"
  > scenarios = ["io::open=50%return"]
  > END
  settings: out of range scenarios
  $ told << 'END'
  > target = "replace"
  > scenarios = ["io::open=50%return(a\tb)"]
  > [replace]
  > old = ""
  > replacements = []
  > END
  settings: scenario 0: a control character: what follows it in the text may look like a line of its own

The scenarios
-------------

Nothing is drawn for such a component: no share stands strictly between none and all. The texts are lines of their own, so no byte of them is
a control character. A text that spells no scenario comes first, and what is wrong with the table after.

  $ outside --top 'seed = 7' --top 'pairs = true' --top 'storms = 3' --top 'rate = 10' \
  >     --top 'scenarios = ["io::open=1*return", "other=0%return;io::write=100%2*off->panic(x)"]'
  accepted
  $ outside --top 'scenarios = ["io::open=50%return"]'
  settings: out of range scenarios
  $ outside --top 'scenarios = ["io::open=99.9999%return"]'
  settings: out of range scenarios
  $ outside --top 'scenarios = ["io::open=0.0001%off->return"]'
  settings: out of range scenarios
  $ outside --top 'scenarios = ["io::open=100%return", "io::open=0%return"]'
  accepted
  $ outside --top 'scenarios = ["io::open=return(a\tb)"]'
  settings: out of range scenarios
  $ outside --top 'scenarios = ["a\nb=return"]'
  settings: out of range scenarios
  $ outside --top 'scenarios = ["\n io::open = return ;\t"]'
  accepted
  $ outside --top 'scenarios = ["io::open=50%return"]' 'label = 3'
  settings: out of range scenarios

The label
---------

  $ outside -label -codes -points -hits
  settings: missing outside.label
  $ outside 'label = 3' 'codes = 3'
  settings: wrong type outside.label
  $ outside 'label = ""'
  accepted
  $ outside "label = \"$(repeat 200 x)\""
  accepted
  $ outside "label = \"$(repeat 201 x)\""
  settings: out of range outside.label
  $ outside "label = \"$(repeat 101 é)\""
  settings: out of range outside.label
  $ outside 'label = "a\tb"'
  settings: out of range outside.label
  $ outside 'label = "a\u007F"'
  settings: out of range outside.label
  $ outside 'label = "a\u0080"'
  accepted

The codes
---------

  $ outside 'codes = []' 'hits = [0, 0]'
  accepted
  $ outside -codes
  settings: missing outside.codes
  $ outside 'codes = "lost"'
  settings: wrong type outside.codes
  $ outside 'codes = ["lost", 1]'
  settings: wrong type outside.codes
  $ outside 'codes = [""]'
  settings: out of range outside.codes
  $ outside 'codes = ["a", "b", "a"]'
  settings: out of range outside.codes
  $ outside 'codes = ["a", "A"]'
  accepted
  $ outside "codes = [$(names '' 64)]"
  accepted
  $ outside "codes = [$(names '' 65)]"
  settings: out of range outside.codes
  $ outside "codes = [\"$(repeat 200 c)\"]"
  accepted
  $ outside "codes = [\"$(repeat 201 c)\"]"
  settings: out of range outside.codes
  $ outside 'codes = ["a\nb"]'
  settings: out of range outside.codes
  $ outside "codes = [\"$(repeat 201 c)\", 1]"
  settings: wrong type outside.codes

The points
----------

  $ outside -points
  settings: missing outside.points
  $ outside 'points = 3'
  settings: wrong type outside.points
  $ outside 'points = ["a", ["b"]]'
  settings: wrong type outside.points
  $ outside 'points = []' 'hits = []'
  settings: out of range outside.points
  $ outside 'points = ["a", "a"]'
  settings: out of range outside.points
  $ outside 'points = ["a", ""]'
  settings: out of range outside.points
  $ outside 'points = ["a", " b"]'
  settings: out of range outside.points
  $ outside 'points = ["a", "b=c"]'
  settings: out of range outside.points
  $ outside 'points = ["a", "b;c"]'
  settings: out of range outside.points
  $ outside 'points = ["a", "b\tc"]'
  settings: out of range outside.points
  $ outside 'points = ["a", "b c"]'
  accepted
  $ outside "points = [\"$(repeat 200 p)\"]" 'hits = [100000]'
  accepted, but too many plans
  $ outside "points = [\"$(repeat 201 p)\"]" 'hits = [1]'
  settings: out of range outside.points
  $ outside "points = [$(names p 64)]" "hits = [$(repeat 64 '1, ')]"
  accepted
  $ outside "points = [$(names p 65)]" "hits = [$(repeat 65 '1, ')]"
  settings: out of range outside.points

The hits
--------

As many as there are points.

  $ outside --top 'max_hits = 5' --top 'seed = -1'
  settings: unknown key max_hits
  $ outside --top 'workers = 1' --top 'variant = "sound"' --top 'max_hits = 1'
  settings: unknown key max_hits
  $ outside -hits
  settings: missing outside.hits
  $ outside 'hits = 2'
  settings: wrong type outside.hits
  $ outside 'hits = [1, "2"]'
  settings: wrong type outside.hits
  $ outside 'hits = [-1, "2"]'
  settings: wrong type outside.hits
  $ outside 'hits = [1, 2.0]'
  settings: wrong type outside.hits
  $ outside 'hits = [1]'
  settings: out of range outside.hits
  $ outside 'hits = [1, 2, 3]'
  settings: out of range outside.hits
  $ outside 'hits = [1, 100000]'
  accepted, but too many plans
  $ outside 'hits = [1, 100001]'
  settings: out of range outside.hits
  $ outside 'hits = [-1, 1]'
  settings: out of range outside.hits

The kinds
---------

Beside a depth a table may tell which faults are tried at points: at each 1 to 8 of `return`, `return(TEXT)` and `panic`, none twice.

  $ deep() {
  >     outside -hits --top 'depth = 2' "$@" | sed 's/^settings: target outside with a depth: only asks and report$/accepted/'
  > }
  $ deep '[outside.kinds]' '"io::write" = ["return", "return(ENOSPC)", "return(HALF)", "panic"]' '"io::open" = ["panic"]'
  accepted
  $ deep 'kinds = {}'
  accepted
  $ outside 'kinds = {}'
  settings: out of range outside.kinds
  $ outside 'kinds = 1'
  settings: out of range outside.kinds
  $ outside -hits 'kinds = 1'
  settings: missing outside.hits
  $ outside --top 'depth = 1' 'kinds = 1'
  settings: out of range outside.hits

Names that aren't among the points come first, then types, then what the lists say.

  $ deep 'kinds = 1'
  settings: wrong type outside.kinds
  $ deep 'kinds = ["return"]'
  settings: wrong type outside.kinds
  $ deep 'kinds = { "io::read" = 1, "io::close" = [], "io::open" = 1 }'
  settings: unknown key outside.kinds.io::close
  $ deep 'kinds = { "io::open" = "return" }'
  settings: wrong type outside.kinds
  $ deep 'kinds = { "io::open" = [], "io::write" = ["return", 1] }'
  settings: wrong type outside.kinds
  $ deep 'kinds = { "io::open" = ["return"], "io::write" = [] }'
  settings: out of range outside.kinds

How many, and none twice. No text and an empty one are different.

  $ deep "kinds = { \"io::open\" = [$(seq -s ', ' -f '"return(%g)"' 8)] }"
  accepted
  $ deep "kinds = { \"io::open\" = [$(seq -s ', ' -f '"return(%g)"' 9)] }"
  settings: out of range outside.kinds
  $ deep 'kinds = { "io::open" = ["return", "return()", "return(a)"] }'
  accepted
  $ deep 'kinds = { "io::open" = ["return(a)", "panic", "return(a)"] }'
  settings: out of range outside.kinds
  $ deep 'kinds = { "io::open" = ["panic"], "io::write" = ["panic"] }'
  accepted

A text is of up to 32 bytes, has no control character, and may stand in a scenario: without `;` and `->`.

  $ fault() { deep "kinds = { \"io::open\" = [\"$1\"] }"; }
  $ fault "return($(repeat 32 x))"
  accepted
  $ fault "return($(repeat 33 x))"
  settings: out of range outside.kinds
  $ for text in 'return( )' 'return(a(b)' 'return(a)b)' 'return(a=b)'; do fault "$text"; done | uniq
  accepted
  $ for text in 'return(a;b)' 'return(a->b)' 'return(a\tb)' 'return(' 'return(a' 'return(a)b'; do fault "$text"; done | uniq
  settings: out of range outside.kinds
  $ for text in '' off Return ' return' 'return ' 'returns' 'return (a)' 'panic(a)' 'panic()' '1*return' 'sleep(1)'; do fault "$text"; done | uniq
  settings: out of range outside.kinds
