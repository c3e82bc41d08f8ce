# What is no folder of the run: mounts below it, and what stands at its path by now. Refused before anything changes. Sourced by `test`.

# data_with_other: new files, a run over them, and a folder beside them with a file that is nobody's to delete
data_with_other() {
    try none create a write b
    rm -rf "$here/data.old" "$here/other"
    mkdir "$here/other" "$here/data/sub/mnt" && echo precious > "$here/other/precious"
    out/powercut expect "$here/run" sub/mnt data.old
}

# refused_root NAME WHAT: a cut and a recovery end with 2 and that line, and nothing changes
refused_root() {
    before=$(cd "$here" && find data other -ls 2>&1; cat other/precious)
    for word in cut recover; do
        is "$1: $word" "2 powercut: $2" "$(out/powercut $word "$here/run" "$here/data" > "$here/said" 2>&1; echo "$? $(cat "$here/said")")"
    done
    is "$1: all is there" "$before" "$(cd "$here" && find data other -ls 2>&1; cat other/precious)"
}

# Another folder at the path, or none.
data_with_other
mv "$here/data" "$here/data.old"
cp -R "$here/other" "$here/data"
refused_root 'an exchanged folder' "$here/data: this isn't the folder that powercut begin was given"
is 'the folder itself, by its new path' '0 old=0123456789 sub/ sub/in=inside ' \
    "$(out/powercut cut "$here/run" "$here/data.old"; echo "$? $(cd "$here" && rm -r data && mv data.old data && cd "$outside" && files)")"
data_with_other
rm -r "$here/data"
cp -R "$here/other" "$here/data"
refused_root 'a folder made anew' "$here/data: this isn't the folder that powercut begin was given"
data_with_other
mv "$here/data" "$here/data.old"
ln -s other "$here/data"
refused_root 'a symbolic link' "$here/data: a symbolic link, and not a folder itself"
is 'and with a slash behind it' "2 powercut: $here/data/: this isn't the folder that powercut begin was given precious" \
    "$(out/powercut cut "$here/run" "$here/data/" > "$here/said" 2>&1; echo "$? $(cat "$here/said" "$here/other/precious" | paste -s -d ' ')")"
rm "$here/data"
ln -s data.old "$here/data"
refused_root 'a symbolic link to the folder' "$here/data: a symbolic link, and not a folder itself"
is 'which begin refuses too' "2 powercut: $here/data: a symbolic link, and not a folder itself" \
    "$(out/powercut begin "$here/link" "$here/data" > "$here/said" 2>&1; echo "$? $(cat "$here/said")")$([ ! -e "$here/link" ] || echo made)"
rm "$here/data"
refused_root 'nothing' "$here/data: No such file or directory"

# Exchanged while it is emptied.
if command -v strace > "$here/said" && strace -o "$here/calls" -e inject=unlinkat:delay_enter=1 true 2> "$here/faults"; then
    data_with_other
    strace -qq -o "$here/calls" -e trace=unlink,unlinkat -e inject=unlink,unlinkat:delay_enter=300000 \
        out/powercut cut "$here/run" "$here/data" > "$here/said" 2>&1 &
    sleep 0.2
    mv "$here/data" "$here/data.old" && mkdir "$here/data"
    for name in a old precious; do echo precious > "$here/data/$name"; done
    wait $!
    is 'a folder exchanged while it is emptied' 'a=precious old=precious precious=precious ' "$(files)"
    is 'is emptied and laid where it is by then' 'old sub' "$(ls "$here/data.old" | paste -s -d ' ')"
else
    echo 'skipped a folder exchanged while it is emptied: no strace that delays'
fi

# A system that doesn't tell mounts: the mask of what it told is that of everything else.
if strace -o "$here/calls" -e inject=statx:poke_exit=@arg5=ff0f0000 true > "$here/said" 2>&1; then
    data_with_other
    is 'a system that tells no mounts' "2 powercut: $here/data: the system can't say what is mounted below it; Linux can since 5.8" \
        "$(strace -qq -o "$here/calls" -e trace=statx -e inject=statx:poke_exit=@arg5=ff0f0000 out/powercut cut "$here/run" "$here/data" > "$here/said" 2>&1
        echo "$? $(cat "$here/said")")"
    is 'is left alone' 'a=b old=0123456789 sub/ sub/in=inside sub/mnt/ ' "$(files)"
else
    echo 'skipped a system that tells no mounts: no strace that changes what a call told'
fi

# mounting COMMANDS: those, where mounts are seen by them alone
mounting() { (export here; $alone sh -c "mount() { command mount \"\$@\" || exit 9; }; $1") > "$here/said" 2>&1; echo "$? $(cat "$here/said")"; }

alone=
for each in 'unshare -m' 'unshare -rm'; do
    [ -n "$alone" ] || ! $each mount -t tmpfs none "$here/other" > "$here/said" 2>&1 || alone=$each
done
if [ -n "$alone" ]; then
    mounted="something is mounted here, below ROOT: nothing is emptied"
    for how in '-t tmpfs none' '--bind "$here/other"'; do
        for word in cut recover; do
            data_with_other
            before=$(cd "$here" && find data other -ls; files)
            is "$word with a mount, $how" "7 powercut: $here/data/sub/mnt: $mounted precious 2" "$(mounting "mount $how \"\$here/data/sub/mnt\"
                echo precious > \"\$here/data/sub/mnt/precious\"
                out/powercut $word \"\$here/run\" \"\$here/data\" 2>&1; status=\$?
                echo \$(cat \"\$here/data/sub/mnt/precious\") \$status; exit 7" | paste -s -d ' ')"
            is 'nothing changed' "$before" "$(cd "$here" && find data other -ls; files)"
        done
    done
    data_with_other
    is 'a file of the same file system, mounted' "2 powercut: $here/data/old: $mounted precious" "$(mounting "mount --bind \"\$here/other/precious\" \"\$here/data/old\"
        out/powercut cut \"\$here/run\" \"\$here/data\"") $(cat "$here/other/precious")"
    is 'begin with a mount' "2 powercut: $here/data/sub/mnt: $mounted" "$(mounting 'mount --bind "$here/other" "$here/data/sub/mnt"
        out/powercut begin "$here/mounting" "$here/data"')$([ ! -e "$here/mounting" ] || echo made)"
    is 'a mount on the folder itself' "2 powercut: $here/data: this isn't the folder that powercut begin was given precious" "$(mounting 'mount --bind "$here/other" "$here/data"
        out/powercut cut "$here/run" "$here/data"') $(cat "$here/other/precious")"
    is 'without one it goes on' 'old=0123456789 sub/ sub/in=inside ' "$(left lasting)"
else
    echo 'skipped mounts below the root: neither root nor unshare'
fi

# What a name may hold, and how deep folders may lie.
long=$(printf '\001%.0s' $(seq 250))
deep=$(printf "$long/%.0s" $(seq 14))
new
mkdir -p "$here/data/$deep" && : > "$here/data/${deep}a"
rm -r "$here/run" && out/powercut begin "$here/run" "$here/data"
go none rename "${deep}a" "${deep}b"
shown=$(printf '%s' "$deep" | sed 's/\x01/\\001/g')
mkdir -p "$here/own/out" "$here/own/cut" && cp cut/profiles "$here/own/cut"
gcc -std=gnu11 -g -w -fsanitize=address,undefined -fno-sanitize-recover=all -o "$here/own/out/powercut" cut/*.c run/*.c \
    -pthread > "$here/said" 2>&1 || cp out/powercut "$here/own/out/powercut"
sanitized() { ASAN_OPTIONS=detect_leaks=0 "$here/own/out/powercut" "$@"; }
is 'long names of control bytes' "1	rename ${shown}a -> ${shown}b" "$(sanitized pending "$here/run" 2>&1)"
sanitized cut "$here/run" "$here/data" keep none > "$here/said" 2>&1
is 'in the trace too' "0 1 rename ${shown}a -> ${shown}b " "$? $(tail -n 1 "$here/run/trace" | cut -f 5) $(cat "$here/said")"
try none create abc write x write y rename abc ab
is 'notes that begin at any byte' \
    '1 create abc;2 rename abc -> ab, and all before it;3 length of ab 1;4 length of ab 2;5 block 0 of ab as after write 1;6 block 0 of ab as after write 2' \
    "$(sanitized pending "$here/run" 2>&1 | tr '\t' ' ' | paste -s -d ';')"
rm -r "$here/own"
deep=$(repeated 1500 d/)
new
(cd "$here/data" && mkdir -p "$deep" && echo precious > "${deep}in")
rm -r "$here/run" && (ulimit -S -n 256; out/powercut begin "$here/run" "$here/data")
go none open old write ab fsync
is 'folders deeper than a program has descriptors' '0 precious' "$(ulimit -S -n 256; out/powercut cut "$here/run" "$here/data"; echo "$? $(cat "$here/data/${deep}in")")"
new
