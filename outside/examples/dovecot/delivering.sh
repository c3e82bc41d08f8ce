# The programs of this harness source this file. `deliver NUMBER` lets dovecot-lda deliver that message to `mail` in the current folder. dovecot-lda refuses to do
# so as root, so root runs it as the user nobody, who can open names below this folder but no path that leads to it. Its settings aren't part of the data.
. "$HARNESS/mail.sh"
messages
printf '%s\n' 'mail_location = maildir:~/mail' 'log_path = /dev/stderr' 'postmaster_address = postmaster@example.org' \
    "mail_fsync = ${FSYNC:-optimized}" 'ssl = no' > "$TMPDIR/settings"
nobody=
[ "$(id -u)" -ne 0 ] || nobody='setpriv --reuid=65534 --regid=65534 --clear-groups'

deliver() {
    HOME=/proc/self/cwd USER=nobody timeout -s KILL 20 $nobody /usr/lib/dovecot/dovecot-lda -c ../tmp/settings < "$TMPDIR/message$1"
}
