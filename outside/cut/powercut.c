/* powercut COMMAND RUN ..: help.c has the commands, and the states that a cut may leave. `begin` makes the folder of a run, with its state, its
   trace and, if ROOT is given, notes of the files that are there. The first cut notes the files as the run left them, so that each state can be
   laid out in turn, whatever a judge did to the files of another state.

   replay.h says what is pending, and which states there are; the file `profiles` has the rules by which a sync makes something last. asking.h has the
   order of the hits of power::keep. They stand in the trace behind the others, with what each asks in place of a file. A pause at one ends the command
   with 97, and nothing is laid out. Other tasks than a return do nothing. After `recover` the files that were laid out are those of the run, all of
   them last, and its hits are numbered on.

   Of the other states `lasting` is what it is if nothing is kept, and `live` if everything is: then files are copied as the cut found them. `names` has
   the whole sequence and no bytes but those that last, `contents` each file's last length and blocks and nothing of the sequence. So each of the four is
   one that the profile has.

   Before anything is changed, a run is refused, with 2, in which nothing ran under the supervisor or no call under ROOT was made; in which files
   changed that neither the notes explain nor the script named, for example by stores into a mapping of a process that was killed; and one whose
   ROOT isn't the folder of `begin`, or has something mounted below it. If the supervisor was killed between a change and its note, the change is
   only reported. */
#define _GNU_SOURCE
#include "../run/help.h"
#include "asking.h"
#include "lay.h"
#include "unseen.h"

#include <errno.h>
#include <fcntl.h>
#include <stddef.h>
#include <stdio.h>
#include <stdlib.h>
#include <sys/mman.h>
#include <sys/stat.h>
#include <unistd.h>

/* ---- begin */

/* Takes room on the disk for all but the counters, which take it as they are used. On a full disk, a store into a mapping ends a process by a
   signal. */
static void make_room(int file, const char *name) {
    must(!ftruncate(file, sizeof(struct state)), name);
    errno = posix_fallocate(file, 0, offsetof(struct state, counters));
    must(!errno, name);
}

static struct state *map_state(const char *run, int flags) {
    char name[LONG_PATH];
    joined(name, run, "state");
    int file = open(name, O_RDWR | O_CLOEXEC | flags, 0600);
    must(file >= 0, name);
    if (flags & O_CREAT) make_room(file, name);
    struct stat told;
    must(!fstat(file, &told), name);
    if (told.st_size != sizeof(struct state)) refuse(run, "this isn't a folder that powercut begin made");
    struct state *state = mmap(NULL, sizeof *state, PROT_READ | PROT_WRITE, MAP_SHARED, file, 0);
    must(state != MAP_FAILED, name);
    close(file);
    return state;
}

static struct state *make_state(const char *run) {
    pthread_mutexattr_t between;
    struct state *state = map_state(run, O_CREAT | O_EXCL);
    pthread_mutexattr_init(&between);
    pthread_mutexattr_setpshared(&between, PTHREAD_PROCESS_SHARED);
    pthread_mutexattr_setrobust(&between, PTHREAD_MUTEX_ROBUST);
    pthread_mutex_init(&state->mutex, &between);
    state->block = 4096;
    return state;
}

static void make_empty(const char *run, const char *name) {
    char path[LONG_PATH];
    joined(path, run, name);
    int file = open(path, O_WRONLY | O_CREAT | O_TRUNC | O_CLOEXEC, 0600);
    must(file >= 0, path);
    close(file);
}

static bool is_under(const char *path, const char *folder) {
    size_t length = strlen(folder);
    return !strncmp(path, folder, length) && (path[length] == '/' || !path[length] || length == 1);
}

static void begin(const char *run, const char *root) {
    char path[LONG_PATH], real_root[PATH_MAX], real_run[PATH_MAX];
    struct tree tree;
    if (root) open_tree(&tree, root);
    if (root) check_tree(&tree);
    must(!mkdir(run, 0700), run);
    struct state *state = make_state(run);
    make_empty(run, "trace");
    if (!root) return;
    must(realpath(root, real_root), root);
    must(realpath(run, real_run), run);
    if (is_under(real_run, real_root)) refuse(run, "a run's folder can't be under ROOT");
    joined(path, run, "root");
    must(!symlink(real_root, path), path);
    state->root = tree.identity;
    joined(path, run, "kept");
    make_book(path, &tree);
    make_empty(run, "changes");
}

/* ---- the run that is cut */

/* The state of a run that can be cut. */
static struct state *state_with_root(const char *run) {
    char path[LONG_PATH], noted[1];
    joined(path, run, "root");
    if (readlink(path, noted, sizeof noted) < 0) refuse(run, "this isn't a folder that powercut begin made for a ROOT");
    return map_state(run, 0);
}

/* Only the folder that `begin` noted is ever emptied. */
static void open_root(struct tree *tree, const struct state *state, const char *root) {
    open_tree(tree, root);
    if (!same_identity(&tree->identity, &state->root)) refuse(root, "this isn't the folder that powercut begin was given");
    check_tree(tree);
}

/* Refuses a run that nothing watched, since its verdict would mean nothing. So would that of a run whose first program only started others, unseen. */
static void check_loaded(const struct state *state) {
    if (!state->loaded)
        refuse("nothing ran under the supervisor", "paklour-faults wasn't started with this FAULTS_RUN, or ended before its command began");
    if (state->others && state->number == state->started) refuse("no call was seen", state->unseen_text[0]);
}

static uint64_t length_of_trace(const char *run) {
    char path[LONG_PATH];
    struct stat told;
    joined(path, run, "trace");
    must(!stat(path, &told), path);
    return (uint64_t)told.st_size;
}

/* The first cut notes how the programs left the run, and later cuts use these notes. */
static void find_cut(struct state *state, const char *run) {
    lock_state(state, run);
    if (!state->cut.done) {
        state->cut.noted = state->noted;
        state->cut.number = state->number;
        state->cut.trace = length_of_trace(run);
    }
    pthread_mutex_unlock(&state->mutex);
}

/* Notes the files that are there, prints what the supervisor missed and hasn't printed, and refuses changes that the notes don't explain. */
static void look_at_what_is_there(struct state *state, struct replay *replay, const struct tree *tree) {
    static struct asking asking;
    make_book(replay->live, tree);
    read_found(replay);
    for (; state->unseen_told < state->unseen; state->unseen_told++)
        fprintf(stderr, "powercut: not seen: %s\n", state->unseen_text[state->unseen_told]);
    begin_asking(&asking, replay, state, KEEPS_ALL);
    choose(&asking, state, NULL);
    check_unseen(replay, state);
    state->cut.done = 1;
}

/* ---- what a cut leaves */

static enum keeping keeping_of(const char *name, const char *scenario) {
    static const char *const states[] = {[KEEPS_NOTHING] = "lasting", [KEEPS_ALL] = "live", [KEEPS_NAMES] = "names", [KEEPS_CONTENTS] = "contents"};
    if (scenario) return KEEPS_ASKED;
    for (enum keeping keeping = 0; keeping < KEEPS_ASKED; keeping++)
        if (!strcmp(name, states[keeping])) return keeping;
    refuse(name, !strcmp(name, "keep") ? "this state needs a SCENARIO behind it" : "no such state; the states are lasting, live, names, contents and keep");
}

/* If the run is cut before its end, what the first cut found isn't of this moment. */
static void lay_state(struct asking *asking, const struct state *state, const char *scenario, const struct tree *tree) {
    struct replay *replay = asking->replay;
    bool is_found = !state->cut.is_earlier;
    choose(asking, state, scenario);
    empty_tree(tree);
    if (is_found && asking->keeping == KEEPS_ALL) names_as_found(replay);
    lay(replay, is_found && (asking->keeping == KEEPS_ALL || asking->keeping == KEEPS_CONTENTS), tree);
}

/* Lets the run go on with the files that were laid out, all of which last. */
static void go_on(struct state *state, const struct replay *replay, const struct tree *tree, const struct asking *asking) {
    char changes[LONG_PATH];
    take_book_away(replay->live);
    make_book(replay->base, tree);
    joined(changes, replay->run, "changes"); /* a new file, since a process may have the old one in memory */
    must(!unlink(changes), changes);
    make_empty(replay->run, "changes");
    keep_counts(asking, state);
    state->noted = 0;
    state->started = state->number;
    state->ended = state->is_full = state->loaded = state->others = state->torn = state->unseen = state->unseen_told = 0;
    memset(&state->cut, 0, sizeof state->cut);
    memset(state->later, 0, sizeof state->later);
}

static void cut(const char *run, const char *root, const char *name, const char *scenario, bool goes_on) {
    static struct replay replay;
    static struct asking asking;
    struct tree tree;
    enum keeping keeping = keeping_of(name, scenario);
    struct state *state = state_with_root(run);
    open_root(&tree, state, root);
    check_loaded(state);
    find_cut(state, run);
    read_run(&replay, run, state, state->cut.noted);
    if (!state->cut.done) look_at_what_is_there(state, &replay, &tree);
    else if (!state->cut.is_earlier) read_found(&replay);
    begin_asking(&asking, &replay, state, keeping);
    lay_state(&asking, state, scenario, &tree);
    if (goes_on) go_on(state, &replay, &tree, &asking);
}

/* ---- expect and pending */

static void expect(const char *run, char **names, int count) {
    state_with_root(run);
    expect_names(run, names, count);
}

static void tell_pending(const char *run) {
    static struct replay replay;
    struct state *state = state_with_root(run);
    read_run(&replay, run, state, state->cut.done ? state->cut.noted : state->noted);
    number_pending(&replay);
    print_pending(&replay);
}

int main(int count, char **words) {
    const char *what = count > 1 ? words[1] : "";
    bool cuts = !strcmp(what, "cut") || !strcmp(what, "recover");
    umask(0);
    raise_limit_of_descriptors();
    if (asks_help(what)) return write_help(1) ? 0 : 2;
    if (!strcmp(what, "begin") && (count == 3 || count == 4)) begin(words[2], count == 4 ? words[3] : NULL);
    else if (!strcmp(what, "expect") && count > 3) expect(words[2], words + 3, count - 3);
    else if (!strcmp(what, "pending") && count == 3) tell_pending(words[2]);
    else if (cuts && count == 6 && !strcmp(words[4], "keep")) cut(words[2], words[3], words[4], words[5], what[0] == 'r');
    else if (cuts && (count == 4 || count == 5)) cut(words[2], words[3], count == 5 ? words[4] : "lasting", NULL, what[0] == 'r');
    else {
        write_help(2);
        return 2;
    }
    return 0;
}
