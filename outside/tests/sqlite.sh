# SQLite, where its command is installed and is that of the report; by helpers of examples.sh. Sourced by `test`.
if version sqlite 3.40.1 sqlite3 --version; then
    reported sqlite extra.report
    tried sqlite none 'fail lost' SYNC=FULL
    tried sqlite none pass SYNC=FULL STATES=live
    tried sqlite 'sys::write=9*off->1*panic' pass SYNC=FULL STATES=live
    tried sqlite none pass SYNC=FULL JOURNAL=WAL
    # The folder can't be synced: after the journal is deleted, or made, and then SQLite dies while it writes pages.
    tried sqlite 'sys::open=3*off->1*return' 'fail lost'
    tried sqlite 'sys::fsync=4*off->1*return' pass
    for folder in 'sys::open=2*off->1*return' 'sys::fsync=1*off->1*return'; do
        tried sqlite "$folder" pass
        for write in 9 10 11; do tried sqlite "$folder;sys::write=$write*off->1*panic" 'fail corrupt' FAULTS_SYNC=posix; done
    done
    tried sqlite 'sys::write=9*off->1*panic' pass
    tried sqlite 'sys::mkdir=1*return' unresolved # which no run of it meets
    # Where a sync of a file makes its name last the journal can't be lost.
    tried sqlite 'sys::open=2*off->1*return;sys::write=9*off->1*panic' pass
    # The journal's name lasts and its removal doesn't, as the folder was never opened for its sync.
    states=
    never='sys::open=2*off->return'
    shown sqlite "$never" 'fail lost: the 3rd sys::open (.) and each later sys::open fails'
    shown sqlite "$never" 'pass: the 3rd sys::open (.) and each later sys::open fails' FAULTS_SYNC=posix
    # Recovery under faults: a write of the roll-back fails, or SQLite dies once more; the next one rolls back again.
    shown sqlite 'sys::write=9*off->1*panic->1*off->1*return' 'pass: the 10th sys::write (db) ends the run, the 12th sys::write (db) fails' RECOVER=yes
    shown sqlite 'sys::write=9*off->1*panic->1*off->1*panic;power::keep=return' "pass: the 10th sys::write (db) ends the run, \
pending change 1 (block 0 of db as after write 1) and each later one is kept, the 12th sys::write (db) ends the run" RECOVER=yes
    shown sqlite 'sys::open=7*off->1*return' 'fail lost: the 8th sys::open (.) fails' RECOVER=yes
fi
