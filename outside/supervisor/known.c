/* Knows which files and folders are under the root, by device, number and time of birth, and never by a name. Those that are there when the run
   begins are read once; what the run makes, moves and links is added by its calls; anything else is looked at once. */
#define _GNU_SOURCE
#include "supervisor.h"

#include <dirent.h>
#include <errno.h>
#include <linux/magic.h>
#include <stdio.h>
#include <stdlib.h>
#include <sys/sysmacros.h>
#include <sys/vfs.h>

enum where_it_is { UNKNOWN, INSIDE, OUTSIDE, LEFT };

struct known {
    struct key key;
    enum where_it_is where;
    unsigned unallocated; /* it has bytes without room on the disk as of this sync of all files; 0 if it has none */
    unsigned names;  /* its path is known as of this change of names; 0 if it isn't known */
    char *path;      /* its path below the root */
};

static struct known *all;
static size_t room, count;
static uint64_t root_device;
static int root_folder = -1;

bool look_at(int folder, const char *name, int flags, struct facts *facts) {
    struct statx told;
    if (statx(folder, name, flags, STATX_BASIC_STATS | STATX_BTIME, &told)) return false;
    facts->device = makedev(told.stx_dev_major, told.stx_dev_minor);
    facts->file.key = told_key(&told);
    facts->file.length = told.stx_size;
    facts->file.links = told.stx_nlink;
    return true;
}

/* ---- what is known */

static struct known *place_of_key(const struct key *key) {
    size_t place = (key->number * 0x9e3779b97f4a7c15u + key->nanoseconds) >> 20;
    for (;; place++) {
        struct known *known = &all[place & (room - 1)];
        if (known->where == UNKNOWN || same_key(&known->key, key)) return known;
    }
}

static void make_room(void) {
    struct known *before = all;
    size_t had = room;
    if (count * 2 < room) return;
    room = room ? 2 * room : 4096;
    all = calloc(room, sizeof *all);
    if (!all) refuse("memory", strerror(errno));
    for (size_t i = 0; i < had; i++)
        if (before[i].where != UNKNOWN) *place_of_key(&before[i].key) = before[i];
    free(before);
}

static void know(const struct key *key, enum where_it_is where) {
    make_room();
    struct known *known = place_of_key(key);
    count += known->where == UNKNOWN;
    known->key = *key;
    known->where = where;
}

void set_inside(const struct key *key, bool inside) { know(key, inside ? INSIDE : OUTSIDE); }

/* ---- what isn't known yet */

static const char *path_of(int file, char *path) {
    char link[LINK_LENGTH];
    ssize_t length = readlink(link_of(file, link), path, PATH_MAX - 1);
    path[length < 0 ? 0 : length] = 0;
    return path;
}

static const char *rest_behind(const char *path, const char *folder) {
    size_t length = strlen(folder);
    if (!length || strncmp(path, folder, length)) return NULL;
    return path[length] == '/' ? path + length + 1 : path[length] ? NULL : ".";
}

/* The part of a path that is below the root, or null. The root may be moved while the run goes on. */
static const char *below_root(const char *path) {
    static char own[PATH_MAX];
    const char *found = rest_behind(path, own);
    return found ? found : rest_behind(path, path_of(root_folder, own));
}

/* Whether a folder is in one that is known to be under the root. A mount may show it elsewhere too. */
static bool leads_up_to_root(int folder) {
    struct facts facts, before = {0};
    bool inside = false;
    int here = had(openat(folder, ".", O_PATH | O_DIRECTORY | O_CLOEXEC));
    while (here >= 0 && look_at(here, "", AT_EMPTY_PATH, &facts) && facts.device == root_device
           && !same_key(&facts.file.key, &before.file.key)) {
        if ((inside = place_of_key(&facts.file.key)->where == INSIDE)) break;
        int above = had(openat(here, "..", O_PATH | O_DIRECTORY | O_CLOEXEC));
        close(here);
        here = above;
        before = facts;
    }
    if (here >= 0) close(here);
    return inside;
}

bool is_inside(int file, const struct facts *facts) {
    char path[PATH_MAX];
    if (facts->device != root_device) return false;
    const struct known *known = place_of_key(&facts->file.key);
    if (known->where != UNKNOWN) return known->where == INSIDE;
    bool inside = below_root(path_of(file, path)) || (S_ISDIR(facts->file.key.mode) && leads_up_to_root(file));
    set_inside(&facts->file.key, inside);
    return inside;
}

/* ---- paths, which are known until their names change */

static unsigned names_now = 1;

void name_changed(const struct facts *facts) {
    if (S_ISDIR(facts->file.key.mode)) names_now++; /* the paths of all that is below changed too */
    else place_of_key(&facts->file.key)->names = 0;
}

/* The path by which a file is known, or null. For a file with several names each descriptor has its own path. */
static const char *known_path(const struct facts *facts) {
    const struct known *known = place_of_key(&facts->file.key);
    bool has_one = S_ISDIR(facts->file.key.mode) || facts->file.links == 1;
    return known->where == INSIDE && known->names == names_now && has_one ? known->path : NULL;
}

void know_path(const struct facts *facts, const char *path) {
    struct known *known = place_of_key(&facts->file.key);
    if (known->where != INSIDE) return;
    free(known->path);
    known->path = strdup(path);
    known->names = known->path ? names_now : 0;
}

const char *shown_path(int file, const struct facts *facts, char *path) {
    char whole[PATH_MAX];
    const char *known = known_path(facts);
    if (known) return strcpy(path, known);
    const char *below = below_root(path_of(file, whole));
    const char *slash = below ? strrchr(below, '/') : NULL, *name = slash ? slash + 1 : below;
    /* A file of O_TMPFILE has a number in place of a name, which isn't the same each time. */
    bool is_deleted = below && strstr(name, " (deleted)");
    if (is_deleted && name[0] == '#') below = "(no name)";
    if (below && !is_deleted) know_path(facts, below);
    if (!below) below = place_of_key(&facts->file.key)->path; /* if it is seen through a mount or a name elsewhere, the path that it had before */
    return strcpy(path, below ? below : whole);
}

/* ---- whole folders */

/* A file that leaves may have another name that stays. */
static void set_moved(const struct facts *facts, bool inside) {
    bool moves = inside || S_ISDIR(facts->file.key.mode) || facts->file.links == 1;
    if (moves) know(&facts->file.key, inside ? INSIDE : LEFT);
}

static unsigned syncs_of_all = 1;

bool is_unallocated(const struct key *key) { return place_of_key(key)->unallocated == syncs_of_all; }

void set_unallocated(const struct key *key, bool unallocated) {
    struct known *known = place_of_key(key);
    if (known->where == INSIDE) known->unallocated = unallocated ? syncs_of_all : 0;
}

void all_are_allocated(void) { syncs_of_all++; }

bool has_left(const struct key *key) { return place_of_key(key)->where == LEFT; }

/* Takes over the descriptor. `path` leads from the root to the folder, or is null if the folder left the root. */
static void know_folder(int folder, const char *path) {
    struct facts facts;
    char below[PATH_MAX];
    DIR *names = fdopendir(folder);
    if (!names) refuse("FAULTS_ROOT", strerror(errno));
    for (struct dirent *entry; (entry = readdir(names));) {
        if (!strcmp(entry->d_name, ".") || !strcmp(entry->d_name, "..")) continue;
        if (!look_at(folder, entry->d_name, AT_SYMLINK_NOFOLLOW, &facts) || facts.device != root_device) continue;
        set_moved(&facts, path);
        if (path && snprintf(below, sizeof below, "%s%s%s", path, *path ? "/" : "", entry->d_name) < PATH_MAX) know_path(&facts, below);
        if (!S_ISDIR(facts.file.key.mode)) continue;
        int deeper = openat(folder, entry->d_name, O_RDONLY | O_DIRECTORY | O_NOFOLLOW | O_CLOEXEC);
        if (deeper >= 0) know_folder(deeper, path ? below : NULL);
    }
    closedir(names);
}

void moved(int folder, const char *name, const char *path) {
    struct facts facts;
    if (!look_at(folder, name, AT_SYMLINK_NOFOLLOW, &facts) || facts.device != root_device) return;
    set_moved(&facts, path);
    if (!S_ISDIR(facts.file.key.mode)) return;
    int itself = openat(folder, name, O_RDONLY | O_DIRECTORY | O_NOFOLLOW | O_CLOEXEC);
    if (itself >= 0) know_folder(itself, path);
}

/* A file of an overlay changes its device, number or time of birth when it is written to, and then isn't known any more. */
static bool is_on_overlay(int folder) {
    struct statfs told;
    return !fstatfs(folder, &told) && told.f_type == OVERLAYFS_SUPER_MAGIC;
}

void know_root(void) {
    struct facts facts;
    struct statx told;
    root_folder = open(root, O_PATH | O_DIRECTORY | O_CLOEXEC);
    int names = open(root, O_RDONLY | O_DIRECTORY | O_CLOEXEC);
    if (root_folder < 0 || names < 0 || !look_at(root_folder, "", AT_EMPTY_PATH, &facts)) refuse("FAULTS_ROOT", strerror(errno));
    if (statx(root_folder, "", AT_EMPTY_PATH, STATX_BTIME, &told) || !(told.stx_mask & STATX_BTIME))
        refuse("FAULTS_ROOT", "the file system records no times of birth");
    if (is_on_overlay(root_folder)) refuse("FAULTS_ROOT is on an overlay file system, whose files can change their identity", root);
    root_device = facts.device;
    make_room();
    set_inside(&facts.file.key, true);
    know_path(&facts, ".");
    know_folder(names, "");
}

/* ---- a descriptor of a call */

bool open_of(struct call *call, unsigned number, struct opened *opened) {
    *opened->path = 0;
    opened->file = hold(call, fetch(call->thread, (int)argument(call, number)));
    if (opened->file < 0 || !look_at(opened->file, "", AT_EMPTY_PATH, &opened->facts)) return false;
    if (!is_inside(opened->file, &opened->facts)) return false;
    opened->flags = call->row->point == READ ? 0 : fcntl(opened->file, F_GETFL);
    if (opened->flags & O_PATH) return false;
    shown_path(opened->file, &opened->facts, opened->path);
    return true;
}
