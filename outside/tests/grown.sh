# File replacement in C, grown over what a power cut may keep. Sourced by `test`. All numbers were worked out by hand, by the protocol and by what
# `linux` keeps and leaves.
#
# With the chunks `ne` and `wx`, two faults deep, level 1 has 14 plans: two for each of seven calls. What follows a call that fails is an unlink, which
# fails or ends the run, and the hits of the cut; behind an end only these. A hit follows for each change of names that is pending, and for each length
# of a file that has a name then.
#
#   sound         write 1, 2 and sync: unlink, create and unlink pending: 4 each; at their ends the creation: 1 each. rename: unlink, and its one change,
#                 as the sync kept the creation: 3; at its end 0. sync of the folder: the rename, or only one of its two ends: 3 and 3. Together 24.
#                 Onward: a creation that is kept has lengths behind it, but where nothing is written: 5; of a rename both ends, one by one: 2
#   rename_first  the same at the writes: 4, 1, 4, 1; rename: 4 and 1; sync: create and rename: 2 and 2; sync of the folder: both, as the sync of the file
#                 kept its new name alone, and that the old one is gone by itself: 3 and 3. Together 25. Onward: 5 creations, and both changes at the
#                 sync with lengths behind them, 4. If the rename alone is kept, the name has no bytes: the sync that fails, and the one that ends the run
#   in_place      create: the unlink: 1 and 1; writes and sync: unlink and create: 2 each; sync of the folder: the unlink: 1 and 1. Together 16. Onward: 5
#                 creations with lengths. Before the sync of the file each is a cause: no name, or an empty one, 14; and with all that is pending the
#                 new file with less than both chunks, 3
campaign_of() { REPLACEMENTS='ne wx' FLAW=$1 tests/grown.py $2 2 examples/replace 'sys::write=return(HALF),panic'; }

is 'grown: replace sound' 'levels 1 14 24 onward 7 plans 46' "$(campaign_of sound keep)"
is 'grown: replace rename_first' 'levels 1 14 25 onward 9 plans 49
first 30 torn sys::fsync=1*return;power::keep=1*return
cause 30 torn sys::fsync=1*return;power::keep=1*return
cause 32 torn sys::fsync=1*panic;power::keep=1*return' "$(campaign_of rename_first keep)"
campaign_of in_place keep > "$here/grown"
is 'grown: replace in_place' 'levels 1 14 16 onward 5 plans 36
first 15 torn sys::open=1*off->1*return;power::keep=1*return' "$(head -n 2 "$here/grown")"
is 'and its causes' 17 "$(grep -c '^cause [0-9]* torn ' "$here/grown")"
is 'grown: in the state that is promised in_place passes' 'levels 1 14 0 onward 0 plans 15' \
    "$(campaign_of in_place '' | head -n 1)"
is 'and so does rename_first' 0 "$(campaign_of rename_first '' | grep -c '^first')"
