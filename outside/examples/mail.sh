# The programs of the examples of mail systems source this file. The system delivers messages 1 and 2, each by a process of its own; message 0 was there
# before. The messages to deliver aren't part of the data. The judge says torn if something in the mailbox is no whole message, lost if a message is missing
# though its process ended with 0, or if message 0 is missing, twice if a message is there more than once though its process ended with 0, bounced if the
# exit status sends a message back to its sender, though trying again would do, and crashed after a signal.

# message N: its text, of more than two blocks
message() {
    printf 'From: alice@example.org\nTo: bob@example.org\nSubject: message %d\nMessage-ID: <%d@example.org>\n' "$1" "$1"
    printf 'Date: Wed, 25 Nov 2026 13:00:00 +0000\n\n'
    line=1
    while [ "$line" -le 120 ]; do
        echo "line $line of message $1, of some eighty bytes, so that the message fills more than two blocks"
        line=$((line + 1))
    done
}

# messages: makes them, with the line by which an mbox begins one
messages() {
    for number in 0 1 2; do
        message "$number" > "$TMPDIR/message$number"
        { echo 'From alice@example.org Wed Nov 25 13:00:00 2026'; cat "$TMPDIR/message$number"; } > "$TMPDIR/sent$number"
    done
}

broken() {
    echo "$1"
    exit 1
}

# statuses: checks what the two processes ended with (sysexits.h). With 0 the message is taken. With 75 (EX_TEMPFAIL) the sender still has it, and tries again.
# Any other status sends the message back, or says nothing about it.
statuses() {
    while read -r number status; do
        case $status in
        0 | 75) ;;
        134 | 139) broken crashed ;;
        97 | 98 | 124 | 137) exit 3 ;;
        *) broken bounced ;;
        esac
    done < "$SAID"
}

# judge NAME..: by counts of whole messages in these mboxes and folders
judge() {
    messages
    statuses
    python3 -B "$HARNESS/copies.py" "$TMPDIR" "$@" > "$TMPDIR/copies" || broken torn
    read -r zero one two < "$TMPDIR/copies"
    [ "$zero" -eq 1 ] || broken lost
    while read -r number status; do
        [ "$number" -eq 1 ] && copies=$one || copies=$two
        [ "$status" -ne 0 ] || [ "$copies" -ge 1 ] || broken lost
        [ "$status" -ne 0 ] || [ "$copies" -eq 1 ] || broken twice
    done < "$SAID"
}
