# The programs of this harness source this file. `built N` builds version N of a package that has one file and one conffile; `unpack N` has dpkg install it below
# the folder of the data, without the system's own settings of dpkg.
built() {
    mkdir -p "$TMPDIR/tree/DEBIAN" "$TMPDIR/tree/usr/share/demo" "$TMPDIR/tree/etc" || return
    printf '%s\n' 'Package: demo' "Version: $1" 'Architecture: all' 'Maintainer: Alice <alice@example.org>' 'Description: demo' > "$TMPDIR/tree/DEBIAN/control"
    echo /etc/demo.conf > "$TMPDIR/tree/DEBIAN/conffiles"
    echo "version $1" > "$TMPDIR/tree/usr/share/demo/text"
    echo "conf $1" > "$TMPDIR/tree/etc/demo.conf"
    dpkg-deb --root-owner-group --build "$TMPDIR/tree" "$TMPDIR/demo.deb" > "$TMPDIR/built"
}

unpack() {
    built "$1" && dpkg --root=. --force-script-chrootless --no-force-unsafe-io --force-confnew --log="$TMPDIR/log" --install "$TMPDIR/demo.deb" > "$TMPDIR/said"
}
