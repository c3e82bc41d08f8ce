# The programs of this harness source this file. The repository is the folder of the data; the files that are backed up lie elsewhere.
export RESTIC_REPOSITORY="$PWD" RESTIC_PASSWORD=none

# before FOLDER, after FOLDER: the files of the first backup, and of the second
before() { mkdir "$1" && seq 1000 > "$1/a"; }
after() { mkdir "$1" && seq 5 9000 > "$1/a" && seq 20 > "$1/b"; }

# backs_up: makes a backup of `files`, and prints its number; its status is restic's. For restic the folder has the same path each time, by which restic finds the
# backup before.
backs_up() {
    told=$(cd "$TMPDIR" && PWD=/proc/self/cwd timeout 10 restic --no-cache backup files) || return
    echo "$told" | sed -n 's/^snapshot \([0-9a-f]*\) saved$/\1/p'
}
