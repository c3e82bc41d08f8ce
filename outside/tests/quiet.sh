# Names at whose calls no fault is planned. Sourced by `test`.

# seen: each hit's point and file
seen() { cut -f 2,5 "$here/run/trace" | tr '\t' ' ' | paste -s -d , ; }

# quietly PATTERNS SCENARIO SCRIPT: a script of the shell, of which calls on files of these names are no hits
quietly() {
    new
    export FAULTS_QUIET="$1"
    run "$2" sh -c "$3"
    unset FAULTS_QUIET
}

writes='mkdir d d/e; for name in a.log d/a.log d/b d/e/b b; do echo x > $name && echo kept $name; done; mv b d/c'
quietly '' none "$writes"
all='sys::mkdir d,sys::mkdir d/e,sys::open a.log,sys::write a.log,sys::open d/a.log,sys::write d/a.log,sys::open d/b,sys::write d/b,sys::open d/e/b,sys::write d/e/b'
is 'without patterns each call is a hit' "$all,sys::open b,sys::write b,sys::rename d/c" "$(seen)"
quietly '*.log
d/**' none "$writes"
is 'names of any folder, and all below one' 'sys::mkdir d,sys::open b,sys::write b' "$(seen)"
# Two folders, five files, each with a length and a block, and a rename.
is 'what is done there is pending as anything else' 18 "$(pending | tr ';' '\n' | grep -c .)"
quietly 'd/?' none "$writes"
is 'a star and a mark stay within a folder' "$(echo "$all" | sed 's/,sys::open d.b,sys::write d.b//; s/,sys::mkdir d.e//'),sys::open b,sys::write b" "$(seen)"
quietly '*.log
d/**' 'sys::write=1*return' "$writes"
is 'a fault acts at the first call of another name' 'kept a.log,kept d/a.log,kept d/b,kept d/e/b' "$said"
quietly '*.log' 'sys::open=1*return(FULL)' 'echo x > b; echo y > a.log && echo kept'
is 'a full disk is full for them too, so the file is not made' , "$said,$(files | tr ' ' '\n' | grep 'log')"
quietly '**' none "$writes"
is 'if all are quiet, nothing was tried' 98 "$status"
