#define _GNU_SOURCE
#include "filter.h"

#include "table.h"

#include <linux/audit.h>
#include <linux/filter.h>
#include <linux/fs.h>
#include <linux/futex.h>
#include <linux/seccomp.h>
#include <stddef.h>
#include <stdlib.h>
#include <sys/mman.h>
#include <sys/prctl.h>
#include <sys/syscall.h>
#include <unistd.h>

enum { MOST_STEPS = 1024, MOST_ROWS = 120, FIRST_FOREIGN = 0x40000000 };

/* The lower half of an argument. Nothing that is looked for is longer, except addresses. */
#define ARGUMENT(number) ((unsigned)offsetof(struct seccomp_data, args) + 8u * ((unsigned)(number) - 1))
#define UPPER_HALF 4u

#define LOAD(from) ((struct sock_filter)BPF_STMT(BPF_LD | BPF_W | BPF_ABS, from))
#define KEEP_BITS(bits) ((struct sock_filter)BPF_STMT(BPF_ALU | BPF_AND | BPF_K, bits))
#define IF_EQUAL(value, yes, no) ((struct sock_filter)BPF_JUMP(BPF_JMP | BPF_JEQ | BPF_K, value, yes, no))
#define IF_ANY(bits, yes, no) ((struct sock_filter)BPF_JUMP(BPF_JMP | BPF_JSET | BPF_K, bits, yes, no))
#define IF_AT_LEAST(value, yes, no) ((struct sock_filter)BPF_JUMP(BPF_JMP | BPF_JGE | BPF_K, value, yes, no))
#define SKIP(count) ((struct sock_filter)BPF_STMT(BPF_JMP | BPF_JA, count))
#define ANSWER(with) ((struct sock_filter)BPF_STMT(BPF_RET | BPF_K, with))
#define ASK ANSWER(SECCOMP_RET_USER_NOTIF)
#define ALLOW ANSWER(SECCOMP_RET_ALLOW)

bool is_foreign(unsigned interface, int number) { return interface != AUDIT_ARCH_X86_64 || number >= FIRST_FOREIGN; }

struct steps {
    struct sock_filter list[MOST_STEPS];
    unsigned short length;
};

static void add(struct steps *steps, struct sock_filter step) { steps->list[steps->length++] = step; }

/* Adds the condition that a call's arguments must meet for the supervisor to be asked about it. */
static void add_condition(struct steps *steps, const struct row *row) {
    switch (row->where) {
    case SHARED_FILES: /* MAP_SHARED_VALIDATE is 3 and MAP_PRIVATE 2 */
        add(steps, LOAD(ARGUMENT(row->flags)));
        add(steps, IF_ANY(MAP_ANONYMOUS, 2, 0));
        add(steps, IF_ANY(MAP_SHARED, 0, 1));
        add(steps, ASK);
        return add(steps, ALLOW);
    case WRITABLE:
        add(steps, LOAD(ARGUMENT(row->mode)));
        add(steps, IF_ANY(PROT_WRITE, 0, 1));
        add(steps, ASK);
        return add(steps, ALLOW);
    case NEW_LIMITS:
        add(steps, LOAD(ARGUMENT(row->bytes)));
        add(steps, IF_EQUAL(0, 0, 2));
        add(steps, LOAD(ARGUMENT(row->bytes) + UPPER_HALF));
        add(steps, IF_EQUAL(0, 1, 0));
        add(steps, ASK);
        return add(steps, ALLOW);
    case NEW_RIGHTS:
        add(steps, LOAD(ARGUMENT(row->mode)));
        add(steps, IF_EQUAL(PR_CAPBSET_DROP, 2, 0));
        add(steps, IF_EQUAL(PR_SET_SECUREBITS, 1, 0));
        add(steps, IF_EQUAL(PR_CAP_AMBIENT, 0, 1));
        add(steps, ASK);
        return add(steps, ALLOW);
    case CLONED_FILES:
        add(steps, LOAD(ARGUMENT(row->flags)));
        add(steps, IF_EQUAL((unsigned)FICLONE, 1, 0));
        add(steps, IF_EQUAL((unsigned)FICLONERANGE, 0, 1));
        add(steps, ASK);
        return add(steps, ALLOW);
    case FUTEXES:
        add(steps, LOAD(ARGUMENT(row->mode)));
        add(steps, KEEP_BITS((unsigned)FUTEX_CMD_MASK));
        add(steps, IF_AT_LEAST(FUTEX_LOCK_PI, 0, 2));
        add(steps, IF_EQUAL(FUTEX_WAIT_BITSET, 1, 0));
        add(steps, IF_EQUAL(FUTEX_WAKE_BITSET, 0, 1));
        add(steps, ASK);
        return add(steps, ALLOW);
    default:
        return add(steps, ASK);
    }
}

static bool is_looked_at(const struct row *row, const struct looks *looks) {
    if (row->where == ON_SOCKETS) return looks->sockets;
    if (row->where == PINNED) return looks->random;
    if (row->where == ORDERED || row->where == FUTEXES) return looks->order;
    return true;
}

/* Adds a search by halves for one of so many rows. It is short, since the system tries each number there is when the filter is set. */
static void add_rows(struct steps *steps, const struct row *const *rows, size_t count) {
    if (count == 0) return add(steps, ALLOW);
    if (count == 1) {
        add(steps, IF_EQUAL((unsigned)rows[0]->number, 1, 0));
        add(steps, ALLOW);
        return add_condition(steps, rows[0]);
    }
    size_t half = count / 2;
    add(steps, IF_AT_LEAST((unsigned)rows[half]->number, 0, 1));
    unsigned short jump = steps->length;
    add(steps, SKIP(0));
    add_rows(steps, rows, half);
    steps->list[jump].k = (unsigned)(steps->length - jump - 1);
    add_rows(steps, rows + half, count - half);
}

static int by_number(const void *one, const void *other) {
    return (*(const struct row *const *)one)->number - (*(const struct row *const *)other)->number;
}

static void add_table(struct steps *steps, const struct looks *looks) {
    const struct row *rows[MOST_ROWS];
    size_t count = 0;
    for (size_t i = 0; i < table_length && count < MOST_ROWS; i++)
        if (is_looked_at(&table[i], looks)) rows[count++] = &table[i];
    qsort(rows, count, sizeof *rows, by_number);
    add_rows(steps, rows, count);
}

int set_filter(const struct looks *looks) {
    static struct steps steps;
    add(&steps, LOAD(offsetof(struct seccomp_data, arch)));
    add(&steps, IF_EQUAL(AUDIT_ARCH_X86_64, 1, 0));
    add(&steps, ASK);
    add(&steps, LOAD(offsetof(struct seccomp_data, nr)));
    add(&steps, IF_AT_LEAST(FIRST_FOREIGN, 0, 1));
    add(&steps, ASK);
    add_table(&steps, looks);
    struct sock_fprog program = {steps.length, steps.list};
    if (prctl(PR_SET_NO_NEW_PRIVS, 1, 0, 0, 0)) return -1;
    return (int)syscall(SYS_seccomp, SECCOMP_SET_MODE_FILTER,
        SECCOMP_FILTER_FLAG_NEW_LISTENER | SECCOMP_FILTER_FLAG_WAIT_KILLABLE_RECV, &program);
}
