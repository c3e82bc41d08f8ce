#define _GNU_SOURCE
#include "pin.h"

#include "order.h"
#include "parts.h"

#include <errno.h>
#include <sys/sysmacros.h>

bool is_pinned;

enum { MEMORY = 1, RANDOM = 8, URANDOM = 9, AT_ONCE = 1 << 16 };

/* SplitMix64. All requests of the run share one stream of numbers, in the order in which they come. */
static uint64_t next_number(void) {
    static uint64_t state_of_it;
    uint64_t mixed = state_of_it += 0x9e3779b97f4a7c15u;
    mixed = (mixed ^ (mixed >> 30)) * 0xbf58476d1ce4e5b9u;
    mixed = (mixed ^ (mixed >> 27)) * 0x94d049bb133111ebu;
    return mixed ^ (mixed >> 31);
}

static void fill(char *bytes, size_t length) {
    for (size_t at = 0; at < length; at += sizeof(uint64_t)) {
        uint64_t number = next_number();
        memcpy(bytes + at, &number, length - at < sizeof number ? length - at : sizeof number);
    }
}

static void give_bytes(struct call *call, const struct parts *parts) {
    static char bytes[AT_ONCE];
    size_t length = parts->length < AT_ONCE ? parts->length : AT_ONCE;
    if (!may_go(call)) return;
    fill(bytes, length);
    size_t given = scatter(call, parts, 0, length, bytes);
    finish(call, length && !given ? -EFAULT : (long)given);
}

void serve_random(struct call *call) {
    struct parts parts;
    int error = parts_of(call, &parts);
    if (error) finish(call, error);
    else give_bytes(call, &parts);
}

bool serve_random_read(struct call *call, const struct opened *opened) {
    struct parts parts;
    struct stat told;
    if (!is_pinned || opened->file < 0 || !S_ISCHR(opened->facts.file.key.mode) || fstat(opened->file, &told)) return false;
    bool is_random = major(told.st_rdev) == MEMORY && (minor(told.st_rdev) == RANDOM || minor(told.st_rdev) == URANDOM);
    if (!is_random || parts_of(call, &parts)) return false;
    give_bytes(call, &parts);
    return true;
}
