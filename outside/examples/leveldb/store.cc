// store write FOLDER FROM UPTO: opens a LevelDB, or a RocksDB if ROCKSDB is defined, and commits the batches FROM to UPTO, each of two
// keys, each synced. It prints `done N` when batch N was acknowledged.
// store check FOLDER UPTO DONE..: opens the store and prints ok if it has the batches, or the code of the first promise that is broken.
// THREADS is how many threads commit at once, each of which takes the next batch of its own turn. Default: 1.
// SIZE is how long a value is, with a number behind it. Default: 100 bytes. If PARANOID is set, the store is opened for writing with its
// `paranoid_checks`.
#ifdef ROCKSDB
#include <rocksdb/db.h>
#include <rocksdb/write_batch.h>
using namespace rocksdb;
#else
#include <leveldb/db.h>
#include <leveldb/write_batch.h>
using namespace leveldb;
#endif

#include <atomic>
#include <cstdio>
#include <cstdlib>
#include <cstring>
#include <set>
#include <string>
#include <thread>
#include <vector>

static std::string key(int batch, int part) {
    char name[32];
    snprintf(name, sizeof name, "key%05d", 2 * batch + part);
    return name;
}

static std::string value(int batch, int part) {
    const char *size = getenv("SIZE");
    return std::string(size ? atoi(size) : 100, 'a' + (2 * batch + part) % 26) + key(batch, part);
}

static DB *opened(const char *folder, bool is_writing) {
    Options options;
    options.create_if_missing = is_writing;
    options.compression = kNoCompression;
    options.write_buffer_size = 65536; // the least that LevelDB takes: a longer log makes way for a new one
    options.paranoid_checks = !is_writing || getenv("PARANOID");
    DB *store = nullptr;
    Status status = DB::Open(options, folder, &store);
    if (!status.ok()) fprintf(stderr, "open: %s\n", status.ToString().c_str());
    return store;
}

static int write_batches(DB *store, int from, int upto, int step) {
    WriteOptions synced;
    synced.sync = true;
    for (int batch = from; batch < upto; batch += step) {
        WriteBatch both;
        for (int part = 0; part < 2; part++) both.Put(key(batch, part), value(batch, part));
        Status status = store->Write(synced, &both);
        if (!status.ok()) {
            fprintf(stderr, "batch %d: %s\n", batch, status.ToString().c_str());
            return 1;
        }
        dprintf(1, "done %d\n", batch);
    }
    return 0;
}

static int write_by_threads(DB *store, int from, int upto) {
    const char *said = getenv("THREADS");
    int count = said ? atoi(said) : 1;
    std::atomic<int> status{0};
    std::vector<std::thread> threads;
    for (int i = 1; i < count; i++) threads.emplace_back([&, i] { status |= write_batches(store, from + i, upto, count); });
    status |= write_batches(store, from, upto, count);
    for (std::thread &each : threads) each.join();
    return status;
}

static const char *judged(DB *store, int upto, const std::set<int> &done) {
    ReadOptions verified;
    verified.verify_checksums = true;
    for (int batch = 0; batch < upto; batch++) {
        int found = 0;
        for (int part = 0; part < 2; part++) {
            std::string is;
            Status status = store->Get(verified, key(batch, part), &is);
            if (!status.ok() && !status.IsNotFound()) return "corrupt";
            if (status.ok() && is != value(batch, part)) return "wrong";
            found += status.ok();
        }
        if (found == 1) return "half";
        if (found == 0 && done.count(batch)) return "lost";
    }
    WriteOptions synced;
    synced.sync = true;
    return store->Put(synced, "again", "x").ok() ? "ok" : "unusable";
}

int main(int count, char **words) {
    if (count < 4) return 2;
    bool is_writing = !strcmp(words[1], "write");
    DB *store = opened(words[2], is_writing);
    if (!store) {
        if (!is_writing) puts("unopenable");
        return is_writing ? 1 : 0;
    }
    int status = 0;
    std::set<int> done;
    for (int i = 4; i < count; i++) done.insert(atoi(words[i]));
    if (is_writing) status = write_by_threads(store, atoi(words[3]), *done.begin());
    else puts(judged(store, atoi(words[3]), done));
    delete store;
    return status;
}
