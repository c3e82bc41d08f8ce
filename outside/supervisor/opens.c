/* Calls that open or make a file. */
#define _GNU_SOURCE
#include "supervisor.h"

#include <errno.h>
#include <linux/openat2.h>
#include <stdio.h>

enum { PAGE = 4096 };

/* Reads what is asked for, in the form of openat2. creat has no flags. More than that form has is refused, as by a system that doesn't know it. */
static int read_how(const struct call *call, struct open_how *how) {
    static char asked[PAGE];
    const struct row *row = call->row;
    uint64_t size = argument(call, row->length);
    *how = (struct open_how){.flags = (uint32_t)argument(call, row->flags), .mode = argument(call, row->mode)};
    if (!row->flags) how->flags = O_CREAT | O_WRONLY | O_TRUNC;
    if (!row->bytes) return 0;
    if (size < sizeof *how) return -EINVAL;
    if (size > sizeof asked) return -E2BIG;
    if (read_memory(call->thread, argument(call, row->bytes), asked, size) != size) return -EFAULT;
    memcpy(how, asked, sizeof *how);
    for (uint64_t i = sizeof *how; i < size; i++)
        if (asked[i]) return -E2BIG;
    return 0;
}

static bool is_nameless(uint64_t flags) { return (flags & O_TMPFILE) == O_TMPFILE; }

/* Finds the name in the way in which the call itself looks for it. */
static bool find_asked(struct call *call, const struct open_how *how, struct found *found) {
    char text[PATH_MAX];
    const char *name = text;
    bool follows = !(how->flags & O_NOFOLLOW) && !(how->resolve & RESOLVE_NO_SYMLINKS) && (how->flags & (O_CREAT | O_EXCL)) != (O_CREAT | O_EXCL);
    int folder = call->row->folder ? (int)argument(call, call->row->folder) : AT_FDCWD;
    found->error = EFAULT;
    if (!read_text(call->thread, argument(call, call->row->path), text, sizeof text)) return false;
    found->error = ENOENT;
    while (how->resolve & RESOLVE_IN_ROOT && *name == '/') name++;
    return *name && find_text(call, folder, name, follows, found);
}

/* An open with rules about its path is made with its own arguments, so that the rules are kept. If its thread has another root, and no rule holds the
   path in a folder, they are kept for the last part alone. */
static int open_by_rules(struct call *call, const struct open_how *how, const struct found *found) {
    char text[PATH_MAX];
    int folder = (int)argument(call, call->row->folder);
    bool is_held = how->resolve & (RESOLVE_BENEATH | RESOLVE_IN_ROOT);
    if (call->thread->is_elsewhere && !is_held) return (int)syscall(SYS_openat2, found->folder, found->name, how, sizeof *how);
    if (!read_text(call->thread, argument(call, call->row->path), text, sizeof text)) return errno = EFAULT, -1;
    int from = folder == AT_FDCWD ? folder_of(call->thread) : hold(call, fetch(call->thread, folder));
    return (int)syscall(SYS_openat2, from, text, how, sizeof *how);
}

/* Why a name isn't found by its rules, which may be another reason than that nothing is there. */
static int error_by_rules(struct call *call, const struct open_how *how, const struct found *found) {
    struct open_how way = {.flags = O_PATH | O_CLOEXEC, .resolve = how->resolve};
    if (!how->resolve || call->thread->is_elsewhere) return found->error;
    act_as(call->thread);
    int file = open_by_rules(call, &way, found), error = errno;
    act_as_self();
    return hold(call, file) < 0 ? error : found->error;
}

static int open_found(struct call *call, const struct open_how *how, const struct found *found) {
    char name[NAME_MAX + 3];
    struct open_how own = *how;
    own.flags |= O_CLOEXEC | O_NOCTTY;
    snprintf(name, sizeof name, "%s%s", found->name, found->ends_in_slash ? "/" : "");
    make_as(call->thread);
    int file;
    if (how->resolve) file = open_by_rules(call, &own, found);
    else if (call->row->bytes) file = (int)syscall(SYS_openat2, found->folder, name, &own, sizeof own);
    else file = openat(found->folder, name, (int)own.flags, (mode_t)own.mode & 07777);
    int error = errno;
    act_as_self();
    errno = error;
    return hold(call, file);
}

/* Notes a file that was made or cut short. */
static void note_opened(int file, const struct found *found, uint64_t flags) {
    struct facts facts;
    struct place place;
    if (!look_at(file, "", AT_EMPTY_PATH, &facts)) return;
    if (is_nameless(flags)) return set_inside(&facts.file.key, true);
    if (!found->exists) {
        set_inside(&facts.file.key, true);
        know_path(&facts, found->path);
        place_of(found, &place);
        if (is_kept && place.seen) note_names(CREATED, &facts.file.key, &place, NULL);
    } else if (flags & O_TRUNC && found->facts.file.length && S_ISREG(facts.file.key.mode)) {
        gave_room();
        if (is_kept) note_length(&facts.file.key, 0);
        mapped_was_resized(&facts.file.key);
    }
}

/* Whether an open may wait, as that of a pipe or a device. Then it goes on by itself, and its result isn't known. */
static bool may_wait(const struct found *found) {
    mode_t mode = found->facts.file.key.mode;
    return found->exists && !S_ISREG(mode) && !S_ISDIR(mode) && !S_ISLNK(mode);
}

void serve_open(struct call *call) {
    struct open_how how;
    struct found found;
    char flags[256], path[FOUND_PATH];
    int error = read_how(call, &how);
    if (error) return finish(call, error);
    bool is_found = find_asked(call, &how, &found);
    if (!is_found) found.error = error_by_rules(call, &how, &found);
    if (!is_found || !found.is_inside) return pass_by(call, &found);
    call->takes_room = is_nameless(how.flags) || (how.flags & O_CREAT && !found.exists);
    if (hit(call, OPEN, found.path, flag_names((int)how.flags, flags)) != GO) return;
    if (may_wait(&found)) return go_on(call);
    bool changes = how.flags & (found.exists ? O_TRUNC : O_CREAT);
    if (changes && !has_free_descriptor(call->thread)) return finish(call, -EMFILE);
    if (is_kept && found.exists && how.flags & O_TRUNC && S_ISREG(found.facts.file.key.mode))
        copy_later(&found.facts.file.key, path_to(&found, path), 0, UINT64_MAX);
    int file = open_found(call, &how, &found);
    if (file < 0) return finish(call, -errno);
    if (how.flags & O_PATH) return go_on(call); /* such a descriptor can't be given to the thread, and it changes nothing */
    note_opened(file, &found, how.flags);
    give(call, file, how.flags & O_CLOEXEC);
}

void serve_node(struct call *call) {
    struct found found;
    struct facts facts;
    struct place place;
    mode_t mode = (mode_t)argument(call, call->row->mode);
    bool is_file = !(mode & S_IFMT) || S_ISREG(mode);
    if (!is_file) return go_on(call);
    if (!find_name(call, false, &found) || !found.folder_is_inside) return pass_by(call, &found);
    call->takes_room = !found.exists;
    if (hit(call, OPEN, found.path, NULL) != GO) return;
    make_as(call->thread);
    long result = result_of(mknodat(found.folder, found.name, mode, (dev_t)argument(call, call->row->at)));
    act_as_self();
    if (!result && look_at(found.folder, found.name, AT_SYMLINK_NOFOLLOW, &facts)) {
        set_inside(&facts.file.key, true);
        place_of(&found, &place);
        if (is_kept) note_names(CREATED, &facts.file.key, &place, NULL);
    }
    finish(call, result);
}
