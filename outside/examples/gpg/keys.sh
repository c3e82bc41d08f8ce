# The programs of this harness source this file. `key N` prints the public key of a user N, which is made anew.
export LC_ALL=C

key() {
    made=$TMPDIR/$1
    mkdir -m 700 "$made" || return
    gpg --homedir "$made" --batch --quiet --passphrase '' --quick-gen-key "user$1@example.org" ed25519 default never 2>> "$TMPDIR/log" &&
        gpg --homedir "$made" --armor --export
    gpgconf --homedir "$made" --kill all
}
