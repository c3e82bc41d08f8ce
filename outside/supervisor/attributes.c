/* Calls that change a file's mode or owner. They are no points, but what they change may be lost at a power cut. */
#define _GNU_SOURCE
#include "supervisor.h"

/* What is changed: what is at a name, or if the name is empty, an open file. */
struct changing {
    struct call *call;
    int folder;
    const char *name;
    int flags;
    const struct facts *before;
};

static long change(const struct changing *changing) {
    const struct call *call = changing->call;
    mode_t mode = (mode_t)argument(call, call->row->mode);
    uid_t owner = (uid_t)argument(call, call->row->at);
    gid_t group = (gid_t)argument(call, call->row->length);
    if (!call->row->mode) return result_of(fchownat(changing->folder, changing->name, owner, group, changing->flags));
    return result_of(*changing->name ? fchmodat(changing->folder, changing->name, mode, 0) : fchmod(changing->folder, mode));
}

static bool same_attributes(const struct key *one, const struct key *other) {
    return one->mode == other->mode && one->owner == other->owner && one->group == other->group;
}

static void change_noted(const struct changing *changing) {
    struct facts after;
    lock_run();
    act_as(changing->call->thread);
    long result = change(changing);
    act_as_self();
    bool is_known = !result && look_at(changing->folder, changing->name, changing->flags, &after);
    if (is_known && !same_attributes(&after.file.key, &changing->before->file.key)) note_attributes(&after.file.key);
    unlock_run();
    finish(changing->call, result);
}

static void change_opened(struct call *call, unsigned file) {
    struct opened opened;
    if (!is_kept || !open_of(call, file, &opened)) return go_on(call);
    change_noted(&(struct changing){call, opened.file, "", AT_EMPTY_PATH, &opened.facts});
}

/* A mode of a symbolic link itself can't be changed, which the system says. */
void serve_attributes(struct call *call) {
    struct found found;
    char text[2] = "";
    const struct row *row = call->row;
    int flags = (int)argument(call, row->flags);
    bool follows = !(flags & AT_SYMLINK_NOFOLLOW) && row->number != SYS_lchown;
    if (row->file) return change_opened(call, row->file);
    if (flags & AT_EMPTY_PATH && read_memory(call->thread, argument(call, row->path), text, 1) == 1 && !text[0]) return change_opened(call, row->folder);
    if (!is_kept) return go_on(call);
    if (!find_name(call, follows, &found) || !found.is_inside || !found.exists) return pass_by(call, &found);
    if (S_ISLNK(found.facts.file.key.mode) && row->mode) return go_on(call);
    change_noted(&(struct changing){call, found.folder, found.name, follows ? 0 : AT_SYMLINK_NOFOLLOW, &found.facts});
}
