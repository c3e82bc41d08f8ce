# The programs of this harness source this file. Each object has the same time, and git has no settings but these. git's own upkeep would begin when it likes.
export HOME="$TMPDIR" GIT_CONFIG_NOSYSTEM=1
export GIT_AUTHOR_NAME=alice GIT_AUTHOR_EMAIL=alice@example.org GIT_AUTHOR_DATE='1700000000 +0000'
export GIT_COMMITTER_NAME=alice GIT_COMMITTER_EMAIL=alice@example.org GIT_COMMITTER_DATE='1700000000 +0000'

git() { command git -c core.fsync=all -c gc.auto=0 -c maintenance.auto=false "$@"; }

# The file's time is an old one: git reads a file again that is as young as its index, so the clock would decide which calls it makes.
commit() { echo "$1" > file && touch --date=@1600000000 file && git add file && git commit --quiet --message "$1"; }
