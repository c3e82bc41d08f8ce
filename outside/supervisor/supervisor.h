/* What the files of the supervisor share. main.c begins, receives calls, answers them and ends. waiting.c has the calls that are answered later,
   and order.c says which of them goes next. table.c says what each system call's arguments are. filter.c and keeper.c start the command. thread.c
   looks into a thread, and parts.c into its memory. known.c and find.c say which files are under the root. hit.c counts and traces hits and says
   what the scenario does there; trace.c writes the lines, and crashes.c those about processes that crashed. noting.c says what is noted, and
   notes_file.c writes it. variables.c reads the environment. ../run has what the power cut shares with it. The other files serve the calls: opens.c,
   bytes.c, copies.c, lengths.c, syncs.c, names.c, attributes.c and maps.c those on files, streams.c those on pipes and sockets, pin.c random bytes, sleeps.c sleeps,
   futexes.c locks and what threads begin by, operations.c what a session is asked to do, own.c points of the program's own, kills.c ends one process of
   the run, and programs.c has calls that are no points. */
#ifndef SUPERVISOR_H
#define SUPERVISOR_H

#include "noting.h"
#include "table.h"

#include <fcntl.h>
#include <linux/seccomp.h>
#include <sys/stat.h>
#include <sys/syscall.h>
#include <unistd.h>

/* ---- a call of the run, which waits for its answer */

/* OVER: the call isn't made, or not now, and needs no answer any more. */
enum answer { GO, FAIL, HALF, DROP, GIVE, TELL, NOT_YET, OVER };

struct hit {
    bool seen;
    bool is_outside;  /* of what is between a beginning and an end: it isn't counted, and has no line */
    enum answer answer;
    int error;        /* the error of FAIL */
    unsigned operation; /* the number of what GIVE gives */
    const char *text; /* the text of TELL */
    long result_at;   /* where its result is in the trace; negative until its line is written */
    uint64_t wakes;   /* the time at which it goes on, in nanoseconds */
};

enum { MOST_HELD = 100 };

/* Which turn a call waits for, if calls have an order. AWAKE: its thread was just begun, or what it waited for has come. GIVES_WAY: it lets those
   go first. */
enum turn { OF_CALL, AWAKE, GIVES_WAY };

/* The word for which a futex's wait waits, as futexes.c has it. */
struct word {
    uint64_t at;      /* its address */
    unsigned value;   /* what it has while the thread waits, or had when the thread was woken */
    unsigned bits;    /* only a wake for one of these is for it */
    bool is_private;  /* whether only wakes are for it that are private too */
    bool has_signal;  /* whether a signal ends the wait */
    int process;
    uint64_t came;    /* which wait of the run it is */
};

struct call {
    struct seccomp_notif told;
    const struct row *row;
    struct thread *thread;
    struct hit hit;
    bool is_answered;
    bool waits_turn, chosen; /* whether it waits for its turn, and whether it has its turn */
    enum turn turn;
    bool waits_wake;  /* whether it waits for a futex, and nobody has woken it yet */
    struct word word;
    int waits_for;    /* a descriptor that must be ready before it goes on, or -1 */
    short events;
    bool takes_room;  /* whether it takes room on the disk, as it is now */
    size_t moved;     /* the bytes that were moved in a transfer that isn't over */
    uint64_t gives_up; /* the time at which a wait for more ends, or 0 */
    uint64_t sleeps_until; /* when a sleep ends, in the time as it would be if only sleeps took time; otherwise 0 */
    int held[MOST_HELD], held_count; /* descriptors that are closed when it has been served */
};

/* The argument of that number, counted from 1. It is 0 if the call has none. */
static inline uint64_t argument(const struct call *call, unsigned number) {
    return number ? call->told.data.args[number - 1] : 0;
}

/* Returns a descriptor, or what is negative. If it couldn't be had since the supervisor has too many, the run can't be followed. */
int had(int file);

/* Keeps a descriptor until the call has been served, and returns it. */
int hold(struct call *call, int file);

/* The result of a system call, or its error as a negative number. */
long result_of(long answered);

/* Each call ends by one of these: with a result; by going on as it is, with a result that isn't known or one that is certain; or with a descriptor
   for that file. */
void finish(struct call *call, long result);
void go_on(struct call *call);
void go_on_with(struct call *call, long result);
void give(struct call *call, int file, bool closes_at_exec);

/* Whether the thread of a call is still there. Otherwise the call is over. */
bool still_waits(struct call *call);

/* A signal has come for its thread: the system runs its handler, and then ends the call or makes it again. */
void interrupt(struct call *call);

/* The same before the call: once the handler has run, the call is made in any case. */
void let_handle(struct call *call);

/* Or the call waits until that descriptor is ready. */
void wait_for(struct call *call, int file, short events);

/* A call sleeps for so many nanoseconds, or until something else comes. */
void begin_sleep(struct call *call, uint64_t length);

/* Whether the time of a sleep is over, and whether it was over long ago. A signal ends a sleep early. */
bool has_slept(const struct call *call);
bool is_overdue(const struct call *call);
void end_sleep(struct call *call);

/* Says that the time of a sleep is over. */
void note_sleep(const struct call *call);

/* ---- the run */

/* Ends every process of the run, and this one with that status. */
_Noreturn void end_run(int status);

/* Ends a run that can't be followed, and so is unresolved. */
_Noreturn void lose(const char *what, const char *name);

uint64_t now(void);

/* Lets signals for the supervisor wait while it makes a call that a signal would cut short. */
void hold_signals(void);
void let_signals(void);

struct facts {
    struct file_facts file;
    uint64_t device;
};

/* ---- threads of the run */

struct thread {
    int number;      /* its number in the system; 0 if this slot is free */
    int process;
    int handle;      /* a pidfd */
    uint64_t seen;   /* the last time at which it was alive */
    int mask;        /* its umask, or -1 if it isn't known */
    bool is_elsewhere; /* its root or its mounts aren't those of the supervisor */
    bool has_company;  /* whether its process has had other threads */
    enum { NOT_KNOWN, OF_ANOTHER, OF_GO } language; /* that of its program */
    int folder;      /* its current folder, or -1; it is known as of `moves` changes of such folders */
    struct facts of_folder;
    uint64_t moves;
    char name[32];    /* the name of its program, as the system keeps it */
    uint64_t program; /* the number of its program's file, once it was noted */
    struct {          /* the call that a signal interrupted; if the same call comes again, it is no other hit */
        bool is_there;
        struct seccomp_data data;
        struct hit hit;
        uint64_t gives_up;
    } interrupted;
};

struct thread *thread_of(int number);

/* The thread's current folder: a descriptor that must not be closed, or -1. folder_changes says that the thread is about to change it. */
int folder_of(struct thread *thread);
void folder_changes(struct thread *thread);

/* A copy of the thread's descriptor. */
int fetch(const struct thread *thread, int file);

/* Whether its limit leaves it a descriptor. The system looks at that before it opens anything. */
bool has_free_descriptor(const struct thread *thread);

/* Its program is another one now. */
void begins_program(struct thread *thread);

/* The path of its program. */
const char *program_of(const struct thread *thread);

/* Whether its program is one of Go, whose runtime decides itself which of its threads does what. */
bool is_of_go(struct thread *thread);

/* Read and write the thread's memory. They return how many bytes were read or written, which may be a part. */
size_t read_memory(const struct thread *thread, uint64_t at, void *to, size_t length);
size_t write_memory(const struct thread *thread, uint64_t at, const void *from, size_t length);

/* Reads a text up to its end. Returns false if it has none there. */
bool read_text(const struct thread *thread, uint64_t at, char *text, size_t room);

/* Whether a signal has come for it that it doesn't block. */
bool has_signal(const struct thread *thread);

/* Whether a signal has come that ends its process. */
bool has_fatal_signal(const struct thread *thread);

/* What is behind a word of its status, such as "Umask:", or null. */
const char *status_of(const struct thread *thread, const char *line);

/* From here on, names are looked for as the thread's user, and with make_as also made with its umask. act_as_self ends that. */
void act_as(const struct thread *thread);
void make_as(struct thread *thread);
void act_as_self(void);

/* From here on the supervisor makes no file longer than the thread may. end_limit ends that, and sends the thread the signal that the system sent the
   supervisor if a file would have become longer. */
void take_limit(const struct thread *thread);
void end_limit(const struct thread *thread);

void ids_changed(void);
void limits_changed(void);
void mask_changed(const struct thread *thread);
void root_changed(void);

/* ---- files */

bool look_at(int folder, const char *name, int flags, struct facts *facts);

void know_root(void);

/* Whether an open file or folder is under the root. It is known by its identity. */
bool is_inside(int file, const struct facts *facts);
void set_inside(const struct key *key, bool inside);

/* Says that a file or folder, with all that is below it, came under the root, to that path, or left it, if `path` is null. */
void moved(int folder, const char *name, const char *path);

/* Says what the path of a file is. */
void know_path(const struct facts *facts, const char *path);

/* Forgets a path, after a rename or an unlink. */
void name_changed(const struct facts *facts);

/* Whether a file was under the root before. It may have changed unseen since it left. */
bool has_left(const struct key *key);

/* Whether a file has bytes for which the disk has no room yet. It gets it once the file is synced. */
bool is_unallocated(const struct key *key);
void set_unallocated(const struct key *key, bool unallocated);
void all_are_allocated(void);

/* The path below the root that leads to an open file, for the trace. */
const char *shown_path(int file, const struct facts *facts, char *path);

/* A name in a call: the folder in which it is, and what it leads to. */
struct found {
    int folder;                 /* a descriptor */
    int error;                  /* why nothing was found */
    char name[NAME_MAX + 2];    /* "." for the folder itself */
    bool ends_in_slash, exists, is_inside, folder_is_inside;
    struct facts facts, of_folder;
    char path[PATH_MAX];        /* the path below the root, if it is inside */
};

/* Finds a name. Returns false if the system refuses it, or if it leads to something that can't be known: then the call goes on. `follows` says
   whether a symbolic link at its end is followed. */
bool find_text(struct call *call, int folder, const char *text, bool follows, struct found *found);

/* Find the call's first and second name in the same way. The call's row says which arguments they are. */
bool find_name(struct call *call, bool follows, struct found *found);
bool find_other(struct call *call, bool follows, struct found *found);

/* Ends a call whose names aren't under the root: it goes on by itself. If a name leads nowhere, the call fails, since the name might lead to the
   root by the time that it went on. */
void pass_by(struct call *call, const struct found *found);

/* Fetches the descriptor that is the call's argument of that number. Returns false if it isn't a file under the root. */
struct opened {
    int file;
    struct facts facts;
    int flags; /* not set for a read, which doesn't need them */
    char path[PATH_MAX];
};
bool open_of(struct call *call, unsigned number, struct opened *opened);

/* A path by which the supervisor itself reaches what was found, for calls that take no descriptor. */
enum { FOUND_PATH = NAME_MAX + 64 };
const char *path_to(const struct found *found, char *path);

/* The place of a name, as notes have it. */
void place_of(const struct found *found, struct place *place);

/* ---- hits */

/* Counts a hit and returns what the call does. With HALF it moves half of what it would have moved. With NOT_YET it has to wait, and is served again
   later. With FAIL it has been answered already. */
enum answer hit(struct call *call, enum point point, const char *path, const char *flags);

/* Whether the supervisor does something for the call now. */
static inline bool is_done(enum answer answer) { return answer == GO || answer == HALF || answer == DROP; }

/* Half of so many bytes, at least one: a program that goes on with the rest comes to its end. */
static inline size_t half_of(size_t length) { return length > 1 ? length / 2 : length; }

/* The lock of the counts, the trace and the notes. One supervisor of a run at a time has it. */
void lock_run(void);
void unlock_run(void);

void hit_result(struct call *call, long result);
void flush_hit(struct call *call);

/* Says that a call has given room on the disk back. Call it before the call is answered. */
static inline void gave_room(void) { state->is_full = false; }

/* ---- mappings */

/* Notes what was stored through mappings of that file since the last time. */
void note_stores(const struct key *file);
void note_all_stores(void);

/* Say that a call changed a mapped file, so that this isn't taken for a store: that it wrote bytes (zeros if they are null), changed the length, or
   changed something inside the system. The last is noted as stores are, and mapped_was_changed returns true. */
void mapped_was_written(const struct key *file, uint64_t at, const char *bytes, uint64_t length);
void mapped_was_resized(const struct key *file);
bool mapped_was_changed(const struct key *file);

/* ---- what isn't seen */

void unseen(const char *what, const char *name);

#endif
