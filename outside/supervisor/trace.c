#define _GNU_SOURCE
#include "trace.h"

#include <fcntl.h>
#include <stdio.h>
#include <string.h>

char *written_number(char *to, uint64_t number) {
    char digits[20], *digit = digits + sizeof digits;
    do *--digit = (char)('0' + number % 10);
    while (number /= 10);
    return mempcpy(to, digit, (size_t)(digits + sizeof digits - digit));
}

const char *link_of(int file, char *link) {
    *written_number(stpcpy(link, "/proc/self/fd/"), (unsigned)file) = 0;
    return link;
}

/* The flags of an open, as strace shows them. */
const char *flag_names(int flags, char *text) {
    static const struct { int flag; const char *name; } names[] = {
        {O_CREAT, "O_CREAT"},         {O_EXCL, "O_EXCL"},     {O_TRUNC, "O_TRUNC"},       {O_APPEND, "O_APPEND"},
        {O_NONBLOCK, "O_NONBLOCK"},   {O_SYNC, "O_SYNC"},     {O_DSYNC, "O_DSYNC"},       {O_DIRECT, "O_DIRECT"},
        {O_TMPFILE, "O_TMPFILE"},     {O_DIRECTORY, "O_DIRECTORY"}, {O_NOFOLLOW, "O_NOFOLLOW"}, {O_PATH, "O_PATH"},
        {O_CLOEXEC, "O_CLOEXEC"},
    };
    int mode = flags & O_ACCMODE;
    char *end = stpcpy(text, mode == O_RDONLY ? "O_RDONLY" : mode == O_WRONLY ? "O_WRONLY" : "O_RDWR");
    for (size_t i = 0; i < sizeof names / sizeof *names; i++)
        if ((flags & names[i].flag) == names[i].flag) {
            end = stpcpy(stpcpy(end, "|"), names[i].name);
            flags &= ~names[i].flag;
        }
    return text;
}

/* The name of a point: what the program has named it, or that of the call, with its file if points are named by file. Bytes that scenarios or settings
   can't have are replaced. */
const char *point_name(const struct scenario *scenario, enum point point, const char *file, char *name) {
    if (point == OWN) return file;
    if (!scenario->by_file || point > KEEP) return point_names[point];
    char *end = stpcpy(stpcpy(name, point_names[point]), "@");
    for (; *file && end < name + MOST_POINT; file++) {
        bool fits = *file > ' ' && *file < 127 && !strchr(";=\"\\", *file);
        *end++ = fits ? *file : '_';
    }
    *end = 0;
    return name;
}

/* ---- a line */

static char *column(char *end) {
    *end = '\t';
    return end + 1;
}

char *trace_line(char *to, const struct hit_line *hit) {
    char *end = column(written_number(to, hit->number));
    end = column(stpcpy(end, hit->counter->name));
    end = column(written_number(end, hit->counter->hits));
    end = column(written_answer(end, hit->term));
    end = column(escaped(end, hit->path));
    end = column(written_number(end, (unsigned)hit->process));
    end = column(escaped(end, hit->flags ? hit->flags : "-"));
    memset(end, ' ', RESULT_WIDTH);
    *end = '-';
    end[RESULT_WIDTH] = '\n';
    return end;
}

void result_text(char *text, long result, int error) {
    const char *name = result < 0 ? strerrorname_np(error) : NULL;
    memset(text, ' ', RESULT_WIDTH);
    if (name) memcpy(text, name, strlen(name));
    else if (result < 0) written_number(stpcpy(text, "-"), -(uint64_t)result);
    else written_number(text, (uint64_t)result);
}
