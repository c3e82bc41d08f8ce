/* What a program says by reading links below /.paklour, a folder that no system has: there it gets ENOENT and goes on. Here the link /.paklour/NAME is a hit of
   the point NAME. A name that begins with = is none: =begin and =end say where faults act, and =say/TEXT is a promise. */
#define _GNU_SOURCE
#include "own.h"

#include "../run/whole.h"
#include "order.h"
#include "syncs.h"

#include <errno.h>
#include <stdio.h>

static const char folder[] = "/.paklour/", says[] = "=say/";

/* ---- points */

/* Gives the text as a link's target is given: as much of it as the program has room for. */
static void give_target(struct call *call, const char *text) {
    size_t length = strlen(text), room = (size_t)argument(call, call->row->length);
    if (length > room) length = room;
    bool is_given = write_memory(call->thread, argument(call, call->row->bytes), text, length) == length;
    finish(call, is_given ? (long)length : -EFAULT);
}

static void serve_point(struct call *call, const char *name) {
    enum answer answer = hit(call, OWN, name, NULL);
    if (answer == TELL) give_target(call, call->hit.text);
    if (answer == GO) finish(call, -ENOENT);
}

/* ---- where faults act */

static bool has_begun, has_ended;

bool is_outside(void) { return has_ended || lacks_begin(); }

bool lacks_begin(void) { return waits_for_begin && !has_begun; }

/* Notes for the loop that the program says where faults begin, though nobody knew that it would. */
static void note_unawaited(void) {
    char name[LONG_PATH];
    snprintf(name, sizeof name, "%s/begun", run_folder);
    int file = open(name, O_WRONLY | O_CREAT | O_NOFOLLOW | O_CLOEXEC, 0600);
    if (file < 0) refuse("FAULTS_RUN", strerror(errno));
    close(file);
    unseen("where faults begin, since it isn't awaited by FAULTS_BEGIN=1:", "=begin");
}

/* What was done before lasts, as what was there before the run. */
static void begin_faults(void) {
    lock_run();
    note_all_stores();
    all_are_allocated();
    if (is_kept) note_sync(BEGINNING, &(struct key){0}, 0, 0);
    unlock_run();
    if (syncs_disk) sync_root();
    if (!waits_for_begin) note_unawaited();
    has_begun = true;
}

/* ---- promises */

/* A line of the command's output, as if the program had printed it. */
static void say_line(const char *text) {
    char line[PATH_MAX + 1], *end = stpcpy(stpcpy(line, text), "\n");
    if (!write_whole(1, line, (size_t)(end - line))) refuse("can't write what the program says", strerror(errno));
}

/* ---- the call */

/* What is said comes in its turn, as a hit does. */
static void serve_word(struct call *call, const char *word) {
    bool is_begin = !strcmp(word, "=begin"), is_end = !strcmp(word, "=end"), is_promise = !strncmp(word, says, sizeof says - 1);
    if (!may_go(call)) return;
    if (is_begin && !has_begun) begin_faults();
    if (is_begin || is_end) has_ended = is_end;
    else if (is_promise) say_line(word + sizeof says - 1);
    else unseen("what this means:", word);
    finish(call, -ENOENT);
}

/* A call that reads any other link is made. */
void serve_link_text(struct call *call) {
    char path[PATH_MAX];
    bool has_room = (int)argument(call, call->row->length) > 0;
    bool is_own = has_room && read_text(call->thread, argument(call, call->row->path), path, sizeof path) && !strncmp(path, folder, sizeof folder - 1);
    if (!is_own) return go_on(call);
    const char *name = path + sizeof folder - 1;
    if (*name == '=') return serve_word(call, name);
    if (is_own_name(name)) return serve_point(call, name);
    unseen("a point of a name that none can have:", name);
    finish(call, -ENOENT);
}
