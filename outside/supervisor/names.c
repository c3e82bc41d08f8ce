/* Calls of names: rename, link, unlink, folders and symbolic links. */
#define _GNU_SOURCE
#include "supervisor.h"

#include <errno.h>
#include <stdio.h>
#include <stdlib.h>

#ifndef RENAME_EXCHANGE
#define RENAME_EXCHANGE 2
#endif

/* ---- what all these calls share */

enum { SLASHED = NAME_MAX + 3 };

/* The name as the call has it, which may end in a slash. */
static const char *slashed(const struct found *found, char *name) {
    snprintf(name, SLASHED, "%s%s", found->name, found->ends_in_slash ? "/" : "");
    return name;
}

/* Copies the bytes of a file that a call is about to take away: its last name goes, or it leaves the root. */
static void before_it_goes(const struct found *found, bool leaves) {
    char path[FOUND_PATH];
    const struct file_facts *file = &found->facts.file;
    if (!is_kept || !found->exists || !found->folder_is_inside || !S_ISREG(file->key.mode)) return;
    if (leaves || file->links == 1) copy_later(&file->key, path_to(found, path), 0, UINT64_MAX);
}

/* Whether room on the disk is free once this name is gone. */
static bool has_room(const struct found *found) {
    const struct file_facts *file = &found->facts.file;
    return found->exists && S_ISREG(file->key.mode) && file->links == 1 && file->length;
}

/* Notes a new name of a file from elsewhere. Its contents were written unseen, so they are a write now. Nobody noted where a symbolic link leads. */
static void note_stranger(const struct found *found, const struct file_facts *file) {
    struct place place;
    char path[FOUND_PATH], target[PATH_MAX] = "";
    place_of(found, &place);
    bool is_link = S_ISLNK(file->key.mode) && readlinkat(found->folder, found->name, target, sizeof target - 1) > 0;
    note_names(is_link ? CREATED : LINKED, &file->key, &place, is_link ? target : NULL);
    if (has_left(&file->key)) note_length(&file->key, file->length);
    if (S_ISREG(file->key.mode) && file->length) note_from_file(&file->key, path_to(found, path), 0, file->length);
    if (S_ISDIR(file->key.mode)) unseen("what is in the folder that came from elsewhere:", found->path);
}

/* Notes what a call made under the root. */
static void note_made(const struct found *found, const char *target) {
    struct facts facts;
    struct place place;
    if (!look_at(found->folder, found->name, AT_SYMLINK_NOFOLLOW, &facts)) return;
    set_inside(&facts.file.key, true);
    place_of(found, &place);
    if (is_kept) note_names(CREATED, &facts.file.key, &place, target);
}

/* ---- rename */

struct renaming {
    struct found from, to;
    unsigned flags;
};

static bool is_exchange(const struct renaming *renaming) { return renaming->flags & RENAME_EXCHANGE; }

/* A rename between two names of one file changes nothing. */
static bool changes_nothing(const struct renaming *renaming) {
    return renaming->to.exists && same_key(&renaming->from.facts.file.key, &renaming->to.facts.file.key);
}

/* Notes a rename between a name under the root and one elsewhere. */
static void note_over_border(const struct renaming *renaming) {
    const struct found *own = renaming->from.folder_is_inside ? &renaming->from : &renaming->to;
    const struct found *other = own == &renaming->from ? &renaming->to : &renaming->from;
    struct place place;
    place_of(own, &place);
    /* An exchange is one change of the name, which then leads to the file from elsewhere. */
    if (own == &renaming->from && !is_exchange(renaming)) note_names(UNLINKED, &own->facts.file.key, &place, NULL);
    else note_stranger(own, &other->facts.file);
}

static void note_renamed(const struct renaming *renaming) {
    struct place from, to;
    const struct key *moved = &renaming->from.facts.file.key;
    if (renaming->from.folder_is_inside != renaming->to.folder_is_inside) return note_over_border(renaming);
    place_of(&renaming->from, &from);
    place_of(&renaming->to, &to);
    if (is_exchange(renaming)) note_moved(EXCHANGED, moved, &renaming->to.facts.file.key, &from, &to);
    else note_moved(RENAMED, moved, NULL, &from, &to);
}

static void know_renamed(const struct renaming *renaming) {
    if (renaming->from.folder_is_inside == renaming->to.folder_is_inside) return;
    const struct found *from = &renaming->from, *to = &renaming->to;
    moved(to->folder, to->name, to->folder_is_inside ? to->path : NULL);
    if (is_exchange(renaming)) moved(from->folder, from->name, from->folder_is_inside ? from->path : NULL);
}

static long rename_found(struct call *call, const struct renaming *renaming) {
    char from[SLASHED], to[SLASHED];
    if (!is_exchange(renaming)) before_it_goes(&renaming->to, false);
    if (!renaming->to.folder_is_inside) before_it_goes(&renaming->from, true);
    if (is_exchange(renaming) && !renaming->from.folder_is_inside) before_it_goes(&renaming->to, true);
    act_as(call->thread);
    long result = result_of(syscall(SYS_renameat2, renaming->from.folder, slashed(&renaming->from, from), renaming->to.folder,
        slashed(&renaming->to, to), renaming->flags));
    act_as_self();
    return result;
}

void serve_rename(struct call *call) {
    struct renaming renaming = {.flags = (unsigned)argument(call, call->row->flags)};
    bool has_from = find_name(call, false, &renaming.from), has_to = find_other(call, false, &renaming.to);
    const struct found *shown = renaming.to.folder_is_inside ? &renaming.to : &renaming.from;
    if (!shown->folder_is_inside) return pass_by(call, has_from ? &renaming.to : &renaming.from);
    call->takes_room = renaming.to.folder_is_inside && !renaming.to.exists;
    if (hit(call, RENAME, shown->path, NULL) != GO) return;
    if (!has_from || !has_to) return finish(call, -(has_from ? renaming.to.error : renaming.from.error));
    long result = rename_found(call, &renaming);
    if (!result && is_kept && !changes_nothing(&renaming)) note_renamed(&renaming);
    if (!result && has_room(&renaming.to) && !is_exchange(&renaming) && !changes_nothing(&renaming)) gave_room();
    if (!result) know_renamed(&renaming);
    if (!result) name_changed(&renaming.from.facts);
    if (!result && renaming.to.exists) name_changed(&renaming.to.facts);
    finish(call, result);
}

/* ---- link and symlink */

/* Finds the file of a link's first name, for which there may be only a descriptor. */
static bool find_linked(struct call *call, int flags, struct found *found, bool *is_bare) {
    char text[2] = "";
    const struct row *row = call->row;
    *is_bare = flags & AT_EMPTY_PATH && read_memory(call->thread, argument(call, row->path), text, 1) == 1 && !text[0];
    if (!*is_bare) return find_name(call, flags & AT_SYMLINK_FOLLOW, found);
    *found = (struct found){.folder = hold(call, fetch(call->thread, (int)argument(call, row->folder)))};
    if (found->folder < 0 || !look_at(found->folder, "", AT_EMPTY_PATH, &found->facts)) return false;
    found->exists = true;
    found->is_inside = is_inside(found->folder, &found->facts);
    return true;
}

static void note_linked(const struct found *from, const struct found *to) {
    struct facts facts;
    struct place place;
    if (!look_at(to->folder, to->name, AT_SYMLINK_NOFOLLOW, &facts)) return;
    place_of(to, &place);
    if (is_kept && from->is_inside) note_names(LINKED, &facts.file.key, &place, NULL);
    else if (is_kept) note_stranger(to, &facts.file);
    set_inside(&facts.file.key, true);
}

void serve_link(struct call *call) {
    struct found from, to;
    char name[SLASHED], new_name[SLASHED];
    bool is_bare;
    int flags = (int)argument(call, call->row->flags);
    bool has_from = find_linked(call, flags, &from, &is_bare), has_to = find_other(call, false, &to);
    const struct found *shown = to.folder_is_inside ? &to : &from;
    if (!shown->folder_is_inside) return pass_by(call, has_from ? &to : &from);
    call->takes_room = to.folder_is_inside && !to.exists;
    if (hit(call, LINK, shown->path, NULL) != GO) return;
    if (!has_from || !has_to) return finish(call, -(has_from ? to.error : from.error));
    act_as(call->thread);
    long result = result_of(linkat(from.folder, is_bare ? "" : slashed(&from, name), to.folder, slashed(&to, new_name), flags));
    act_as_self();
    if (!result && to.folder_is_inside) note_linked(&from, &to);
    finish(call, result);
}

void serve_symlink(struct call *call) {
    struct found found;
    char target[PATH_MAX], name[SLASHED];
    if (!read_text(call->thread, argument(call, call->row->bytes), target, sizeof target)) return go_on(call);
    if (!find_name(call, false, &found) || !found.folder_is_inside) return pass_by(call, &found);
    call->takes_room = !found.exists;
    if (hit(call, SYMLINK, found.path, NULL) != GO) return;
    act_as(call->thread);
    long result = result_of(symlinkat(target, found.folder, slashed(&found, name)));
    act_as_self();
    if (!result) note_made(&found, target);
    finish(call, result);
}

/* ---- unlink and folders */

void serve_unlink(struct call *call) {
    struct found found;
    struct place place;
    char name[SLASHED];
    bool is_folder = call->row->point == RMDIR || argument(call, call->row->flags) & AT_REMOVEDIR;
    int flags = call->row->flags ? (int)argument(call, call->row->flags) : is_folder ? AT_REMOVEDIR : 0;
    if (!find_name(call, false, &found) || !found.folder_is_inside) return pass_by(call, &found);
    if (hit(call, is_folder ? RMDIR : UNLINK, found.path, NULL) != GO) return;
    before_it_goes(&found, false);
    act_as(call->thread);
    long result = result_of(unlinkat(found.folder, slashed(&found, name), flags));
    act_as_self();
    place_of(&found, &place);
    if (!result && is_kept) note_names(UNLINKED, &found.facts.file.key, &place, NULL);
    if (!result && has_room(&found)) gave_room();
    if (!result) name_changed(&found.facts);
    finish(call, result);
}

void serve_folder(struct call *call) {
    struct found found;
    if (!find_name(call, false, &found) || !found.folder_is_inside) return pass_by(call, &found);
    call->takes_room = !found.exists;
    if (hit(call, MKDIR, found.path, NULL) != GO) return;
    make_as(call->thread);
    long result = result_of(mkdirat(found.folder, found.name, (mode_t)argument(call, call->row->mode)));
    act_as_self();
    if (!result) note_made(&found, NULL);
    finish(call, result);
}
