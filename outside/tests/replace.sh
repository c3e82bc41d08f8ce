# File replacement in C, grown two faults deep by examples/replace/outside.toml, and its verdicts beside those of the bundled file
# replacement with the same workload. Sourced by `test`. tests/grown.py works the lists out anew, from the traces of its own runs; what the bundled
# target has was worked out by hand, by the protocol.
#
# The C program opens the folder first, and to the system the sync of the file and of the folder are one call. So level 1 has two plans more,
# which fail before anything is done and have no children, and each later number is two higher. A Return of the bundled target leaves half a
# chunk, as HALF does here; but of `w`, one byte, a Return leaves nothing, and HALF all.
#
#   site of the protocol   bundled plans   plans here
#   open the folder                        1, 2
#   create                 1, 2            3, 4
#   write 1                3, 4            5, 6; the first listed plan leaves half a chunk, as 3 does
#   write 2                5, 6            7, 8; the second listed plan as 5
#   sync                   7, 8            9, 10; with late_sync 13, 14
#   rename                 9, 10           11, 12; with late_sync 9, 10
#   sync_dir               11, 12          13, 14; with late_sync 11, 12
#
# The bundled target's levels 0 to 2, onward, beyond and causes: sound 1, 12, 8, 0, 0, none; late_sync 1, 12, 6, 0, 0, the sync, 11 and 12;
# ignore_sync 1, 12, 10, 0, 2, the sync, 7; retry_write 1, 12, 22, 1, 20, half a first chunk, 3.
sizes() { sed -n 's/^\(level [0-9]*\|onward\|beyond\) //p' "examples/replace/$1.report" | paste -s -d ' '; }
causes() { sed -n 's/^cause \([0-9]*\) .*/\1/p' "examples/replace/$1.report" | paste -s -d ' '; }
listed() { sed -n 's/^verdict [0-9]* //p' "examples/replace/$1.report" | tail -n 2 | paste -s -d ,; }
is 'replace sound, beside the bundled target' '1 14 8 0 0,,pass,pass' "$(sizes sound),$(causes sound),$(listed sound)"
is 'replace late_sync' '1 14 6 0 0,13 14,pass,pass' "$(sizes late_sync),$(causes late_sync),$(listed late_sync)"
is 'replace ignore_sync' '1 14 10 0 2,9,pass,pass' "$(sizes ignore_sync),$(causes ignore_sync),$(listed ignore_sync)"
is 'replace retry_write' '1 14 22 1 20,,fail torn,pass' "$(sizes retry_write),$(causes retry_write),$(listed retry_write)"

# list_of FLAW: the lines of the report that its list and its runs tell, but for the two listed plans
list_of() {
    plans=$(sed -n 's/^plans //p' "examples/replace/$1.report")
    grep -E '^(level|onward|beyond|verdict|cause) |^reached .* [1-9]' "examples/replace/$1.report" |
        grep -v -e "^verdict $((plans - 1)) " -e "^verdict $((plans - 2)) "
}

# verdicts FLAW SCENARIO..: the verdicts alone, in order
verdicts() {
    flaw=$1
    shift
    FLAW=$flaw tests/tried.py examples/replace "$@" | cut -f 1 | paste -s -d ,
}

for flaw in sound late_sync ignore_sync retry_write; do
    is "replace $flaw, its list and its runs" "$(list_of $flaw)" "$(FLAW=$flaw tests/grown.py --report 2 examples/replace)"
    is "replace $flaw, half a chunk" "$(listed $flaw)" "$(verdicts $flaw 'sys::write=1*return(HALF)' 'sys::write=1*off->1*return(HALF)')"
done
# With what a power cut keeps, by examples/replace/keep.toml; those reports are in brief, and their numbers follow as those of grown.sh do.
for flaw in rename_first in_place; do
    is "replace $flaw, crash states" "$(grep -E '^(level|onward|beyond|cause) |^reached .* [1-9]' "examples/replace/$flaw.report")" \
        "$(FLAW=$flaw tests/grown.py --report keep 2 examples/replace | grep -v '^verdict')"
done

# The bundled target's other worked rows: old contents that are empty, and what each run asks.
# one [keep] SCENARIO: its answer
one() { tests/tried.py ${2+"$1"} examples/replace "${2-$1}" | tr '\t' ' '; }
is 'replace ignore_sync with no old contents' 'fail stale sys::fsync=1*return 2*sys::open;2*sys::write;sys::fsync;sys::rename;sys::fsync' \
    "$(OLD='' FLAW=ignore_sync one 'sys::fsync=1*return')"
is 'replace sound, a sync that fails: what is asked' 'pass sys::fsync=1*return 2*sys::open;2*sys::write;sys::fsync;sys::unlink' "$(one 'sys::fsync=1*return')"
is 'replace retry_write: what is asked' 'fail torn sys::write=1*return(HALF) 2*sys::open;3*sys::write;sys::fsync;sys::rename;sys::fsync' \
    "$(FLAW=retry_write one 'sys::write=1*return(HALF)')"
is 'replace twice, what was left is cleared' \
    'pass sys::write=1*return;sys::unlink=1*return 2*sys::open;sys::write;2*sys::unlink;sys::open;2*sys::write;sys::fsync;sys::rename;sys::fsync' \
    "$(REPLACEMENTS='ne w , fir st' one 'sys::write=1*return;sys::unlink=1*return')"
is 'replace, with its hits' 'pass none 2*sys::open;2*sys::write;sys::fsync;sys::rename;sys::fsync' "$(one none)"
# The rename and all before it, and then one of two lengths; or it, the whole length, and then one of two versions of its block.
keep='sys::fsync=1*return;power::keep=1*return'
is 'and those of the cut' "fail torn $keep 2*sys::open;2*sys::write;sys::rename;sys::fsync;3*power::keep" "$(FLAW=rename_first one keep "$keep")"
keep='sys::fsync=1*return;power::keep=2*return'
is 'a length without bytes' "fail torn $keep 2*sys::open;2*sys::write;sys::rename;sys::fsync;4*power::keep" "$(FLAW=rename_first one keep "$keep")"
is 'replace under a pause is unresolved' 'unresolved sys::write=pause 2*sys::open;sys::write' "$(one 'sys::write=pause')"
is 'replace under a refused scenario is unresolved' 'unresolved sys::write=retrun ' "$(one 'sys::write=retrun')"

# What has no plan of its own.
is 'replace retry_write, two halves in turn' 'pass,pass,fail torn' "$(verdicts retry_write 'sys::write=2*return(HALF)' \
    'sys::write=return(HALF)' 'sys::write=1*return(HALF)->1*off->1*return(HALF)')"

# States that the bundled device doesn't have: the new name may last before the folder is synced, the contents may not.
is 'replace late_sync, names before contents' 'fail torn	sys::fsync=1*return' \
    "$(STATES='lasting names' FLAW=late_sync tests/tried.py examples/replace 'sys::fsync=1*return' | cut -f 1,2)"
is 'replace sound in every state' pass,pass,pass,pass,pass "$(export STATES='lasting names contents live' && verdicts sound \
    none sys::write=1*return 'sys::fsync=1*return' 'sys::fsync=1*off->1*return' 'sys::fsync=1*off->1*panic')"
