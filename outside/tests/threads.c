/* threads CASE: threads that wait for one another, by each way that the C library has, and by the system's own calls. Each writes lines to the file `log`,
   so that the order in which they go can be seen there. It ends with 0 if all went as it should. */
#define _GNU_SOURCE
#include <errno.h>
#include <fcntl.h>
#include <linux/futex.h>
#include <pthread.h>
#include <sched.h>
#include <semaphore.h>
#include <signal.h>
#include <spawn.h>
#include <stdatomic.h>
#include <stdbool.h>
#include <stdint.h>
#include <stdio.h>
#include <stdlib.h>
#include <string.h>
#include <sys/mman.h>
#include <sys/syscall.h>
#include <sys/wait.h>
#include <time.h>
#include <unistd.h>

enum { THREADS = 3, ROUNDS = 4, STACK = 65536 };

static int file;
static pthread_mutex_t lock = PTHREAD_MUTEX_INITIALIZER;
static pthread_cond_t changed = PTHREAD_COND_INITIALIZER, synced_more = PTHREAD_COND_INITIALIZER;
static pthread_t threads[THREADS];
static char *names[THREADS] = {"one", "two", "three"};

static void fail(const char *what) {
    fprintf(stderr, "threads: %s: %s\n", what, strerror(errno));
    _exit(1);
}

static void must(bool done, const char *what) {
    if (!done) fail(what);
}

static void say(const char *name, int round) {
    char line[32];
    int length = snprintf(line, sizeof line, "%s %d\n", name, round);
    must(write(file, line, (size_t)length) == length, "write");
}

static void begin(void *(*act)(void *name)) {
    for (int i = 0; i < THREADS; i++) must(!pthread_create(&threads[i], NULL, act, names[i]), "pthread_create");
}

static void join(void) {
    for (int i = 0; i < THREADS; i++) must(!pthread_join(threads[i], NULL), "pthread_join");
}

static struct timespec in_milliseconds(long count) {
    struct timespec then;
    clock_gettime(CLOCK_REALTIME, &then);
    then.tv_sec += count / 1000 + (then.tv_nsec + count % 1000 * 1000000) / 1000000000;
    then.tv_nsec = (then.tv_nsec + count % 1000 * 1000000) % 1000000000;
    return then;
}

/* ---- one lock */

static void *write_under_lock(void *name) {
    for (int i = 0; i < ROUNDS; i++) {
        pthread_mutex_lock(&lock);
        say(name, i);
        must(!fsync(file), "fsync");
        pthread_mutex_unlock(&lock);
    }
    return NULL;
}

static int locks(void) {
    begin(write_under_lock);
    join();
    return 0;
}

/* None of them makes a call that waits for the disk, so each might be through before the next one begins. */
static void *write_at_once(void *name) {
    pthread_mutex_lock(&lock);
    say(name, 0);
    pthread_mutex_unlock(&lock);
    return NULL;
}

static int starts(void) {
    begin(write_at_once);
    write_at_once("main");
    join();
    return 0;
}

static bool ends;

static void *write_until_told(void *name) {
    bool goes_on = true;
    for (int i = 0; goes_on; i++) {
        pthread_mutex_lock(&lock);
        say(name, i);
        goes_on = !ends;
        pthread_mutex_unlock(&lock);
    }
    return NULL;
}

/* A thread takes the lock again at once, and would never be told. */
static int told_to_end(void) {
    must(!pthread_create(&threads[0], NULL, write_until_told, "busy"), "pthread_create");
    say("main", 0);
    say("main", 1);
    pthread_mutex_lock(&lock);
    ends = true;
    pthread_mutex_unlock(&lock);
    must(!pthread_join(threads[0], NULL), "pthread_join");
    return 0;
}

/* ---- a commit for several */

static int written, synced;

static void *store(void *name) {
    for (int i = 0; i < ROUNDS; i++) {
        pthread_mutex_lock(&lock);
        say(name, i);
        int mine = ++written;
        pthread_cond_signal(&changed);
        while (synced < mine) pthread_cond_wait(&synced_more, &lock);
        pthread_mutex_unlock(&lock);
    }
    return NULL;
}

/* Waits until something is to be synced, and then, if it should, for others that come soon. */
static bool waits_for_work(bool gathers) {
    while (synced == written && !ends) pthread_cond_wait(&changed, &lock);
    struct timespec limit = in_milliseconds(30);
    while (gathers && synced < written && !pthread_cond_timedwait(&changed, &lock, &limit)) continue;
    return synced < written || !ends;
}

static void *sync_for_all(void *gathers) {
    pthread_mutex_lock(&lock);
    while (waits_for_work(gathers)) {
        int covered = written;
        pthread_mutex_unlock(&lock);
        must(!fsync(file), "fsync");
        pthread_mutex_lock(&lock);
        synced = covered;
        pthread_cond_broadcast(&synced_more);
    }
    pthread_mutex_unlock(&lock);
    return NULL;
}

static int commit(void *gathers) {
    pthread_t syncing;
    must(!pthread_create(&syncing, NULL, sync_for_all, gathers), "pthread_create");
    begin(store);
    join();
    pthread_mutex_lock(&lock);
    ends = true;
    pthread_cond_signal(&changed);
    pthread_mutex_unlock(&lock);
    return pthread_join(syncing, NULL);
}

static int commits(void) { return commit(NULL); }
static int gathers(void) { return commit(names); }

/* ---- limits that don't run out, barriers, semaphores, locks for readers and a writer */

static int turn;

static void *write_in_turn(void *name) {
    struct timespec limit = in_milliseconds(60000);
    for (int i = 0; i < ROUNDS; i++) {
        pthread_mutex_lock(&lock);
        while (name != names[turn % THREADS]) must(!pthread_cond_timedwait(&changed, &lock, &limit), "pthread_cond_timedwait");
        say(name, i);
        turn++;
        pthread_cond_broadcast(&changed);
        pthread_mutex_unlock(&lock);
    }
    return NULL;
}

static int turns(void) {
    begin(write_in_turn);
    join();
    return turn != THREADS * ROUNDS;
}

static pthread_barrier_t barrier;

static void *meet(void *name) {
    for (int i = 0; i < ROUNDS; i++) {
        say(name, i);
        if (pthread_barrier_wait(&barrier) == PTHREAD_BARRIER_SERIAL_THREAD) must(!fsync(file), "fsync");
        pthread_barrier_wait(&barrier);
    }
    return NULL;
}

static int barriers(void) {
    pthread_barrier_init(&barrier, NULL, THREADS);
    begin(meet);
    join();
    return 0;
}

static sem_t room, full;

static void *take(void *name) {
    for (int i = 0; i < ROUNDS; i++) {
        while (sem_wait(&full)) continue;
        say(name, i);
        sem_post(&room);
    }
    return NULL;
}

static int semaphores(void) {
    sem_init(&room, 0, 2);
    sem_init(&full, 0, 0);
    begin(take);
    for (int i = 0; i < THREADS * ROUNDS; i++) {
        while (sem_wait(&room)) continue;
        say("main", i);
        sem_post(&full);
    }
    join();
    return 0;
}

static pthread_rwlock_t shared_lock = PTHREAD_RWLOCK_INITIALIZER;

static void *look(void *name) {
    for (int i = 0; i < ROUNDS; i++) {
        pthread_rwlock_rdlock(&shared_lock);
        say(name, i);
        pthread_rwlock_unlock(&shared_lock);
    }
    return NULL;
}

static int readers(void) {
    begin(look);
    for (int i = 0; i < ROUNDS; i++) {
        pthread_rwlock_wrlock(&shared_lock);
        say("main", i);
        must(!fsync(file), "fsync");
        pthread_rwlock_unlock(&shared_lock);
    }
    join();
    return 0;
}

/* ---- threads that don't rest */

static void *talk(void *name) {
    pthread_mutex_lock(&lock);
    while (!ends) {
        turn++;
        pthread_cond_signal(&changed);
        pthread_cond_wait(&changed, &lock);
    }
    pthread_cond_signal(&changed);
    pthread_mutex_unlock(&lock);
    return name;
}

/* Two threads wake each other until a third ends that, which has to write first. */
static int talks(void) {
    for (int i = 0; i < 2; i++) must(!pthread_create(&threads[i], NULL, talk, names[i]), "pthread_create");
    say("main", 0);
    say("main", 1);
    pthread_mutex_lock(&lock);
    ends = true;
    pthread_cond_signal(&changed);
    pthread_mutex_unlock(&lock);
    for (int i = 0; i < 2; i++) must(!pthread_join(threads[i], NULL), "pthread_join");
    return 0;
}

static atomic_bool has_begun;

static void *set_begun(void *name) {
    has_begun = true;
    say(name, 0);
    return NULL;
}

/* Waits in a loop until another thread has begun, and lets it go first, or doesn't. */
static int wait_for_begun(bool yields) {
    has_begun = false;
    must(!pthread_create(&threads[0], NULL, set_begun, "begun"), "pthread_create");
    while (!has_begun)
        if (yields) sched_yield();
    say("main", 0);
    return pthread_join(threads[0], NULL);
}

static int yields(void) { return wait_for_begun(true); }
static int spins(void) { return wait_for_begun(false); }

static int computes(void) {
    int failed = 0;
    for (int i = 0; i < 15; i++) failed += spins();
    return failed;
}

/* ---- signals, and threads that are cancelled */

static void on_signal(int number) {
    int before = errno;
    (void)number;
    say("signal", 0);
    errno = before;
}

static void *wait_for_end(void *name) {
    pthread_mutex_lock(&lock);
    while (!ends) pthread_cond_wait(&changed, &lock);
    say(name, 0);
    pthread_mutex_unlock(&lock);
    return NULL;
}

static void let_end(void) {
    pthread_mutex_lock(&lock);
    ends = true;
    pthread_cond_broadcast(&changed);
    pthread_mutex_unlock(&lock);
}

/* A signal comes for each of three threads that wait, once with a handler after which the system makes the call again, and once without. Then one comes for
   any of them, as the first thread blocks it. */
static int signals(void) {
    sigset_t blocked;
    begin(wait_for_end);
    say("main", 0);
    for (int i = 0; i < 2 * THREADS; i++) {
        struct sigaction action = {.sa_handler = on_signal, .sa_flags = i % 2 ? SA_RESTART : 0};
        sigaction(SIGUSR1, &action, NULL);
        must(!pthread_kill(threads[i % THREADS], SIGUSR1), "pthread_kill");
        say("main", i + 1);
    }
    sigemptyset(&blocked);
    sigaddset(&blocked, SIGUSR1);
    must(!pthread_sigmask(SIG_BLOCK, &blocked, NULL) && !kill(getpid(), SIGUSR1), "kill");
    say("main", 2 * THREADS + 1);
    let_end();
    join();
    return 0;
}

static void leave(void *name) {
    say(name, 9);
    pthread_mutex_unlock(&lock);
}

static void *wait_for_ever(void *name) {
    pthread_mutex_lock(&lock);
    pthread_cleanup_push(leave, name);
    for (;;) pthread_cond_wait(&changed, &lock);
    pthread_cleanup_pop(1);
    return NULL;
}

static int cancels(void) {
    begin(wait_for_ever);
    say("main", 0);
    for (int i = THREADS; i-- > 0;) must(!pthread_cancel(threads[i]), "pthread_cancel");
    say("main", 1);
    join();
    return 0;
}

/* ---- processes */

static int run_again(const char *name, bool is_spawned) {
    char *words[] = {"threads", (char *)name, NULL};
    pid_t child;
    int status;
    if (!is_spawned) return execv("/proc/self/exe", words);
    must(!posix_spawn(&child, "/proc/self/exe", NULL, NULL, words, (char *[]){NULL}), "posix_spawn");
    return waitpid(child, &status, 0) != child || status;
}

/* Beside threads that wait a child begins threads of its own, and another program runs. */
static int forks(void) {
    int status;
    begin(wait_for_end);
    say("main", 0);
    pid_t child = fork();
    if (!child) _exit(locks());
    must(!run_again("commits", true), "posix_spawn");
    must(waitpid(child, &status, 0) == child && !status, "child");
    let_end();
    join();
    return 0;
}

static void *become(void *name) {
    (void)name;
    run_again("locks", false);
    return fail("execv"), NULL;
}

/* One of several threads starts another program in place of all of them: those that wait are gone. */
static int replaces(void) {
    pthread_t replacing;
    begin(wait_for_end);
    say("main", 0);
    pthread_create(&replacing, NULL, become, NULL);
    pthread_join(replacing, NULL);
    return 1;
}

/* A process that is killed while its threads wait leaves nothing that would wait for them. */
static int kills(void) {
    int ready[2], status;
    char byte;
    must(!pipe(ready), "pipe");
    pid_t child = fork();
    if (!child) {
        begin(wait_for_end);
        say("child", 0);
        must(write(ready[1], "", 1) == 1, "write");
        join();
    }
    must(read(ready[0], &byte, 1) == 1, "read");
    kill(child, SIGKILL);
    must(waitpid(child, &status, 0) == child && WIFSIGNALED(status), "child");
    return commits();
}

/* A lock that processes share, and one whose holder ends. */
static int shares(void) {
    pthread_mutexattr_t how;
    pthread_mutex_t *both = mmap(NULL, sizeof *both, PROT_READ | PROT_WRITE, MAP_SHARED | MAP_ANONYMOUS, -1, 0);
    int status;
    must(both != MAP_FAILED, "mmap");
    pthread_mutexattr_init(&how);
    pthread_mutexattr_setpshared(&how, PTHREAD_PROCESS_SHARED);
    pthread_mutexattr_setrobust(&how, PTHREAD_MUTEX_ROBUST);
    pthread_mutex_init(both, &how);
    pid_t child = fork();
    if (!child) {
        pthread_mutex_lock(both);
        say("child", 0);
        usleep(10000);
        _exit(0); /* with the lock */
    }
    usleep(5000);
    int locked = pthread_mutex_lock(both);
    must(waitpid(child, &status, 0) == child && !status, "child");
    return locked && locked != EOWNERDEAD;
}

/* ---- the system's own calls */

static atomic_uint word, other_word;
static atomic_int slept;

static long futex(atomic_uint *at, int command, unsigned value, const void *limit, atomic_uint *other, unsigned last) {
    long done = syscall(SYS_futex, at, command, value, limit, other, last);
    return done < 0 ? -errno : done;
}

static int command = FUTEX_WAIT;

static void *sleep_on_word(void *name) {
    long done = futex(&word, command, 0, NULL, NULL, FUTEX_BITSET_MATCH_ANY);
    must(done == 0 || done == -EAGAIN, "futex");
    slept++;
    say(name, 0);
    return NULL;
}

/* Lets three threads sleep, and then does `wake` until all are awake. It may count no more than three. */
static void sleep_until(int how, long (*wake)(void)) {
    long woken = 0;
    command = how;
    word = other_word = 0;
    slept = 0;
    begin(sleep_on_word);
    for (int i = 0; i < THREADS; i++) say("main", i);
    while (slept < THREADS) {
        long done = wake();
        must(done >= 0, "wake");
        woken += done;
        say("main", 9);
    }
    must(woken <= THREADS, "more than sleep");
    join();
}

static long wake_one(void) { return futex(&word, FUTEX_WAKE, 1, NULL, NULL, 0); }
static long wake_one_private(void) { return futex(&word, FUTEX_WAKE_PRIVATE, 1, NULL, NULL, 0); }
static long wake_bits(void) { return futex(&word, FUTEX_WAKE_BITSET_PRIVATE, 2, NULL, NULL, 4); }

static long move_one(void) {
    long moved = futex(&word, FUTEX_CMP_REQUEUE_PRIVATE, 1, (void *)1, &other_word, 0);
    long woken = futex(&other_word, FUTEX_WAKE_PRIVATE, 1, NULL, NULL, 0);
    return moved < 0 || woken < 0 ? -1 : 0; /* the system counts those too that it moved */
}

/* Sets the other word to 1, and wakes those that wait for this one. */
static long wake_and_set(void) {
    long woken = futex(&word, FUTEX_WAKE_OP_PRIVATE, 1, (void *)1, &other_word, FUTEX_OP(FUTEX_OP_SET, 1, FUTEX_OP_CMP_EQ, 0));
    return other_word == 1 ? woken : -1;
}

static int wakes(void) {
    struct timespec limit = {0, 2000000}, wrong = {0, -1};
    sleep_until(FUTEX_WAIT, wake_one);
    sleep_until(FUTEX_WAIT_PRIVATE, wake_one_private);
    sleep_until(FUTEX_WAIT_BITSET_PRIVATE, wake_bits);
    sleep_until(FUTEX_WAIT_PRIVATE, move_one);
    sleep_until(FUTEX_WAIT_PRIVATE, wake_and_set);
    word = 1;
    must(futex(&word, FUTEX_WAIT_PRIVATE, 0, NULL, NULL, 0) == -EAGAIN, "another value");
    must(futex(&word, FUTEX_WAIT_PRIVATE, 1, &limit, NULL, 0) == -ETIMEDOUT, "a limit");
    must(futex(&word, FUTEX_WAIT_BITSET_PRIVATE, 1, &limit, NULL, 1) == -ETIMEDOUT, "a limit that is over");
    must(futex(&word, FUTEX_WAIT_PRIVATE, 1, &wrong, NULL, 0) == -EINVAL, "a limit that is none");
    must(futex(&word, FUTEX_WAIT_BITSET_PRIVATE, 1, NULL, NULL, 0) == -EINVAL, "no bits");
    must(futex((atomic_uint *)((uintptr_t)&word + 1), FUTEX_WAIT_PRIVATE, 1, NULL, NULL, 0) == -EINVAL, "a word between two");
    must(futex((atomic_uint *)64, FUTEX_WAIT_PRIVATE, 1, NULL, NULL, 0) == -EFAULT, "no word");
    return 0;
}

static int end_at_once(void *unused) {
    (void)unused;
    syscall(SYS_exit, 0);
    return 0;
}

/* The system clears the word and wakes who waits for it, when a thread ends that the C library doesn't know. */
static int cleared(void) {
    static char stack[STACK] __attribute__((aligned(16)));
    int how = CLONE_VM | CLONE_FS | CLONE_FILES | CLONE_SIGHAND | CLONE_THREAD | CLONE_SYSVSEM | CLONE_CHILD_CLEARTID;
    word = 1;
    must(clone(end_at_once, stack + STACK, how, NULL, NULL, NULL, &word) > 0, "clone");
    while (word) futex(&word, FUTEX_WAIT, 1, NULL, NULL, 0);
    say("main", 0);
    return 0;
}

int main(int count, char **words) {
    static const struct { const char *name; int (*act)(void); } cases[] = {
        {"locks", locks}, {"starts", starts}, {"told_to_end", told_to_end}, {"commits", commits}, {"gathers", gathers}, {"turns", turns},
        {"barriers", barriers}, {"semaphores", semaphores}, {"readers", readers}, {"talks", talks}, {"yields", yields}, {"spins", spins}, {"computes", computes},
        {"signals", signals}, {"cancels", cancels}, {"forks", forks}, {"replaces", replaces}, {"kills", kills}, {"shares", shares},
        {"wakes", wakes}, {"cleared", cleared},
    };
    file = open("log", O_RDWR | O_CREAT | O_APPEND, 0644);
    must(file >= 0, "log");
    for (size_t i = 0; count > 1 && i < sizeof cases / sizeof *cases; i++)
        if (!strcmp(words[1], cases[i].name)) return cases[i].act();
    return 64;
}
