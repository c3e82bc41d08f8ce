# The programs of this harness source this file. `synchronize` lets mbsync synchronize the maildirs `far` and `near`. Its configuration isn't part of the data.
export HOME="$TMPDIR"

synchronize() {
    printf '%s\n' 'MaildirStore far' "Path $PWD/far/" "Inbox $PWD/far/inbox" '' 'MaildirStore near' "Path $PWD/near/" "Inbox $PWD/near/inbox" '' \
        'Channel all' 'Far :far:' 'Near :near:' 'Patterns INBOX' 'Create Both' 'Sync All' "SyncState $PWD/state/" > "$TMPDIR/config"
    mbsync --config "$TMPDIR/config" --all >> "$TMPDIR/log" 2>&1
}

# message NUMBER: what a message is that has this number
message() { printf 'Subject: message %d\nMessage-ID: <%d@example.org>\n\nText\n' "$1" "$1"; }
