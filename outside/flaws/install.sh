#!/bin/sh
# install.sh FLAW: puts release 2 into the place of release 1, and says `installed`. The link `current` leads to the release that counts.
flaw=$1
has() { [ "$flaw" = "$1" ]; }
synced() { has nothing_synced || { has folders_not_synced && [ -d "$1" ]; } || sync "$@"; }

# `removed_first` leaves no link for a moment.
switch() {
    if has removed_first; then rm current && ln -s 2 current; else ln -s 2 next && mv -T next current; fi
}

mkdir 2 && printf two > 2/part && synced 2/part && synced 2 . && switch || exit
has old_removed_early || synced . || exit
rm -r 1 || exit
synced . && echo installed
