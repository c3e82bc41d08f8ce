#define _GNU_SOURCE
#include "book.h"

#include "copy.h"

#include <errno.h>
#include <fcntl.h>
#include <stdio.h>
#include <stdlib.h>
#include <sys/stat.h>
#include <unistd.h>

void refuse(const char *what, const char *why) {
    fprintf(stderr, "powercut: %s: %s\n", what, why);
    exit(2);
}

void must(bool done, const char *what) {
    if (!done) refuse(what, errno == ENOTSUP ? "the file system records no times of birth" : strerror(errno));
}

void joined(char *to, const char *folder, const char *name) {
    if (snprintf(to, LONG_PATH, "%s/%s", folder, name) >= LONG_PATH) refuse(name, "the path is too long");
}

enum { KEY_TEXT = 64 };

static void write_key(char *text, const struct key *key) {
    snprintf(text, KEY_TEXT, "%llu.%lld.%u", (unsigned long long)key->number, (long long)key->seconds, key->nanoseconds);
}

/* ---- a folder's names */

static struct key key_of(int folder, const char *name) {
    struct file_facts facts;
    must(facts_of(folder, name, AT_SYMLINK_NOFOLLOW | AT_EMPTY_PATH, &facts), name);
    return facts.key;
}

static void write_name(FILE *out, int folder, const char *name, const struct key *key) {
    char text[KEY_TEXT], target[PATH_MAX];
    char kind = S_ISDIR(key->mode) ? 'd' : S_ISREG(key->mode) ? 'c' : S_ISLNK(key->mode) ? 'l' : 0;
    if (!kind) return; /* a socket or a device */
    write_key(text, key);
    fprintf(out, "%c %o %u %u %s %s%c", kind, key->mode & 07777, key->owner, key->group, text, name, 0);
    if (kind != 'l') return;
    ssize_t end = readlinkat(folder, name, target, sizeof target - 1);
    must(end >= 0, name);
    target[end] = 0;
    fprintf(out, "%s%c", target, 0);
}

const char *read_noted(const char *line, struct key *key) {
    char *at;
    unsigned kind = *line == 'd' ? S_IFDIR : *line == 'l' ? S_IFLNK : S_IFREG;
    key->mode = kind | (unsigned)strtoul(line + 1, &at, 8);
    key->owner = (unsigned)strtoul(at, &at, 10);
    key->group = (unsigned)strtoul(at, &at, 10);
    key->number = strtoull(at, &at, 10);
    if (*at++ != '.') return NULL;
    key->seconds = strtoll(at, &at, 10);
    if (*at++ != '.') return NULL;
    key->nanoseconds = (unsigned)strtoul(at, &at, 10);
    return *at == ' ' ? at + 1 : NULL;
}

/* ---- a file's contents */

static void note_contents(int folder, const char *name, int note) {
    int in = openat(folder, name, O_RDONLY | O_NOFOLLOW | O_CLOEXEC);
    must(in >= 0, name);
    copy_whole(in, note, name, UINT64_MAX);
    must(!close(note), name);
    close(in);
}

/* ---- a tree */

/* It isn't inlined, since functions that go down a tree would need its memory for each folder on the way. */
__attribute__((noinline)) int open_note(const char *book, char kind, const struct key *key, int flags) {
    char folder[LONG_PATH], path[LONG_PATH], text[KEY_TEXT];
    write_key(text, key);
    joined(folder, book, (char[]){kind, 0});
    joined(path, folder, text);
    return open(path, flags | O_CLOEXEC, 0600);
}

struct noting {
    const char *book;
    const struct tree *tree;
};

static void note_file(const struct noting *noting, int folder, const char *name, const struct key *key) {
    int note = open_note(noting->book, 'c', key, O_WRONLY | O_CREAT | O_EXCL);
    if (note < 0 && errno == EEXIST) return; /* this is another name of a file that is noted already */
    must(note >= 0, noting->book);
    note_contents(folder, name, note);
}

static void note_folder(const struct noting *noting, int above, const char *name) {
    DIR *names = names_below(noting->tree, above, name);
    struct key key = key_of(dirfd(names), "");
    int note = open_note(noting->book, 'd', &key, O_WRONLY | O_CREAT | O_EXCL);
    must(note >= 0, noting->book);
    FILE *out = fdopen(note, "w");
    must(out, noting->book);
    for (const char *below; (below = next_name(names));) {
        key = key_of(dirfd(names), below);
        write_name(out, dirfd(names), below, &key);
        if (S_ISDIR(key.mode)) note_folder(noting, dirfd(names), below);
        if (S_ISREG(key.mode)) note_file(noting, dirfd(names), below, &key);
    }
    must(!fclose(out), noting->book);
    closedir(names);
}

void make_book(const char *book, const struct tree *tree) {
    char folder[LONG_PATH];
    take_book_away(book);
    must(!mkdir(book, 0700), book);
    for (const char *kind = "cd"; *kind; kind++) {
        joined(folder, book, (char[]){*kind, 0});
        must(!mkdir(folder, 0700), folder);
    }
    note_folder(&(struct noting){book, tree}, tree->folder, ".");
}

void take_book_away(const char *book) {
    struct tree old;
    if (access(book, F_OK)) return;
    open_tree(&old, book);
    empty_tree(&old);
    close(old.folder);
    must(!rmdir(book), book);
}
