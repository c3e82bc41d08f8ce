# What real file systems leave after a power cut, beside the states of their profiles. Sourced by `test`.
is 'states of the profiles' OK "$(python3 -m unittest discover --top-level-directory . --start-directory tests/disks 2>&1 | tail -n 1)"
is 'a profile that is not known' '2 compare: no profile ext9: there are ext4, xfs, btrfs, linux, posix' \
    "$(said=$(disks/compare --profile ext9 ext4 2>&1); echo "$? $said")"
is 'a step that is not known' '2 compare: no step `append log`' "$(said=$(disks/compare --steps 'append log' ext4 2>&1); echo "$? $said")"
is 'the tables of docs/DISKS.md' '' "$(disks/page 2>&1)"
mkdir "$here/disks"
for file_system in ext4 xfs btrfs; do
    told=$(TMPDIR=$here/disks disks/compare --workloads 20 "$file_system" 2>&1)
    case $told in
    "skipped $file_system: "*) echo "$told" ;;
    *) is "20 workloads on $file_system" "$file_system misses 0, linux misses 0, posix misses 0" "${told##*: }" ;;
    esac
done
is 'they leave no file, mount or loop device' '' "$(ls "$here/disks"; grep -F "$here/disks" /proc/mounts; losetup -n -l -O BACK-FILE | grep -F "$here/disks")"
