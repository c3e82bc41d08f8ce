/* Reads the variables of the environment. */
#define _GNU_SOURCE
#include "variables.h"

#include "operations.h"
#include "quiet.h"

#include "../run/whole.h"

#include <errno.h>
#include <fcntl.h>
#include <stdio.h>
#include <stdlib.h>
#include <string.h>
#include <sys/mman.h>
#include <sys/stat.h>

struct scenario scenario;
struct state *state;
char root[PATH_MAX], run_folder[PATH_MAX];
bool is_kept, forgets, sees_sockets, waits_for_begin;

static void read_failpoints(void) {
    const char *text = getenv("FAILPOINTS");
    if (!text || !strcmp(text, "none")) return; /* lists of scenarios write the empty one so */
    char *copy = strdup(text), what[64];
    if (!copy) refuse("FAILPOINTS", "no memory");
    if (!read_scenario(&scenario, copy)) {
        snprintf(what, sizeof what, "%s entry %u term %u", scenario.bad.kind, scenario.bad.entry, scenario.bad.term);
        refuse("scenario", what);
    }
    for (unsigned i = 0; !sees_sockets && i < scenario.length; i++) {
        struct chain *chain = &scenario.chains[i];
        if (chain->point >= CONNECT && chain->point < KEEP) scenario.stranger = chain->name;
    }
}

/* Which of these words a variable has, or -1 if it isn't set. */
static int word_of(const char *name, const char *const *words) {
    char what[128], *end = stpcpy(stpcpy(what, name), " must be ");
    const char *value = getenv(name);
    if (!value) return -1;
    for (int i = 0; words[i]; i++) {
        if (!strcmp(value, words[i])) return i;
        end = stpcpy(stpcpy(end, words[i]), " or ");
    }
    strcpy(end, "unset");
    refuse(what, value);
}

static bool is_word(const char *name, const char *word) { return word_of(name, (const char *const[]){word, NULL}) == 0; }

/* The profile of the disk. Two of them have names of before. What `journal` promised of all file systems with a journal holds of none of them. */
static const char *read_profile(void) {
    static const char *const words[] = {"linux", "ext4", "xfs", "btrfs", "posix", "strict", "names", NULL};
    const char *value = getenv("FAULTS_SYNC");
    if (value && !strcmp(value, "journal"))
        refuse("FAULTS_SYNC", "journal promised names that no file system keeps at each sync: use ext4 or xfs, which say what a sync takes along there");
    int word = word_of("FAULTS_SYNC", words);
    if (word < 0 || !strcmp(words[word], "names")) return "linux";
    return !strcmp(words[word], "strict") ? "posix" : words[word];
}

static uint64_t read_block(void) {
    const char *text = getenv("FAULTS_BLOCK");
    char *end;
    if (!text) return 4096;
    unsigned long value = strtoul(text, &end, 10);
    if (*text < '1' || *text > '9' || *end || value > 1 << 30) refuse("FAULTS_BLOCK must be a number of bytes from 1 to 1073741824", text);
    return value;
}

/* Warns about a name that no point can have, once in a run. */
static void tell_stranger(void) {
    if (scenario.stranger && !__atomic_exchange_n(&state->told, 1, __ATOMIC_SEQ_CST))
        dprintf(2, "faults: never acts: %s\n", scenario.stranger);
}

static void map_state(void) {
    char name[LONG_PATH];
    struct stat told;
    snprintf(name, sizeof name, "%s/state", run_folder);
    int file = open(name, O_RDWR | O_CLOEXEC);
    if (file < 0 || fstat(file, &told) || told.st_size != sizeof *state) refuse("FAULTS_RUN isn't a folder that powercut begin made", run_folder);
    state = mmap(NULL, sizeof *state, PROT_READ | PROT_WRITE, MAP_SHARED, file, 0);
    if (state == MAP_FAILED) refuse("FAULTS_RUN", strerror(errno));
    close(file);
}

/* Whether `begin` noted another folder. Then the notes would say nothing about this one. */
static bool is_other_root(void) {
    char name[LONG_PATH], noted[PATH_MAX];
    snprintf(name, sizeof name, "%s/root", run_folder);
    ssize_t length = readlink(name, noted, sizeof noted);
    return length >= 0 && (strlen(root) != (size_t)length || memcmp(noted, root, (size_t)length));
}

static void set_root(const char *where) {
    if (!realpath(where, root)) refuse("FAULTS_ROOT isn't a folder", where);
    if (!root[1]) refuse("FAULTS_ROOT can't be the whole file system", root);
    if (is_other_root()) refuse("FAULTS_ROOT isn't the folder that powercut begin was given", root);
}

void read_variables(void) {
    const char *where = getenv("FAULTS_ROOT"), *in = getenv("FAULTS_RUN");
    char notes[LONG_PATH];
    scenario.by_file = is_word("FAULTS_POINTS", "file");
    sees_sockets = is_word("FAULTS_SOCKETS", "1");
    waits_for_begin = is_word("FAULTS_BEGIN", "1");
    read_failpoints();
    read_operations();
    read_quiet();
    if (!where || !in) refuse(where ? "FAULTS_RUN" : "FAULTS_ROOT", "this variable isn't set");
    forgets = word_of("FAULTS_FSYNC", (const char *const[]){"again", "once", NULL}) != 0;
    if (!realpath(in, run_folder)) refuse("FAULTS_RUN isn't a folder that powercut begin made", in);
    const char *profile = read_profile();
    uint64_t block = read_block();
    map_state();
    tell_stranger();
    state->block = block;
    strcpy(state->profile, profile);
    snprintf(notes, sizeof notes, "%s/changes", run_folder);
    is_kept = !access(notes, F_OK);
    set_root(where);
}

void say_loaded(int process, const char *program) {
    char name[LONG_PATH], line[PATH_MAX + 32];
    snprintf(name, sizeof name, "%s/loaded", run_folder);
    int file = open(name, O_WRONLY | O_CREAT | O_APPEND | O_CLOEXEC, 0600);
    int length = snprintf(line, sizeof line, "%d\t%s\n", process, program);
    if (file < 0 || !write_whole(file, line, (size_t)length)) refuse("FAULTS_RUN", strerror(errno));
    close(file);
    __atomic_add_fetch(&state->loaded, 1, __ATOMIC_SEQ_CST);
}
