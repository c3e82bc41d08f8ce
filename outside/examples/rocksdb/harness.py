"""RocksDB commits batches of two keys, while threads of its own write tables. It promises that each acknowledged batch is there after a power cut. Its programs
and its judge are those of ../leveldb, with RocksDB as the store. It needs `make -C outside out/store-rocksdb`, with Debian's g++ and librocksdb-dev. Variables of the
environment change the run:
    BATCHES     how many batches are committed. Default: 9. With SIZE, the length of each value (default: 6000), a new log replaces the old one as its table is written
    THREADS     how many threads commit at once. Default: 1. Several threads decide in memory which of them writes for the others
    FAULTS_SYNC ext4 (the default here): under posix names of its files are lost if the power goes while it is opened

Promised by RocksDB's options.h, WriteOptions, sync: "If true, the write will be flushed from the operating system buffer cache (by calling WritableFile::Sync())
before the write is considered complete."

Found in RocksDB 7.8.3, plans of one fault: crashed, and nothing that was acknowledged is lost. Debian builds it with assertions, and two of them don't hold if a
call fails: a write of its text log LOG, and the call by which it finds out whether there is a sync_file_range. With strace alone, in an empty folder, `outside`
being the folder of that name:
    outside/out/store-rocksdb write db 0 3
    strace -f -o calls -P "$PWD/db/LOG" -e trace=write -e inject=write:error=EIO:when=1 outside/out/store-rocksdb write db 3 4    # 134
    strace -f -o calls -e trace=sync_file_range -e inject=sync_file_range:error=EIO:when=1 outside/out/store-rocksdb write db 3 4 # 134"""

import os

DEFAULTS = {"BATCHES": "9", "SIZE": "6000", "THREADS": "1", "PARANOID": "1", "FAULTS_SYNC": "ext4"}
environment = {"STORE": "rocksdb"} | {name: os.environ.get(name, value) for name, value in DEFAULTS.items()}

prepare, run, judge = [[f"../leveldb/{step}"] for step in ("prepare", "run", "judge")]
