/* Names at whose calls no fault is planned, such as the hundreds of files of a catalogue that nobody doubts. FAULTS_QUIET has patterns of names under the root, a
   line each: `?` is any character and `*` any number of them within a folder's name, `**` goes through folders too. A pattern without a slash is of the last part of
   a name. */
#define _GNU_SOURCE
#include "quiet.h"

#include <stdlib.h>
#include <string.h>

static const char *patterns = "";

void read_quiet(void) {
    const char *text = getenv("FAULTS_QUIET");
    if (text) patterns = text;
}

static bool matches(const char *pattern, size_t length, const char *name) {
    if (!length) return !*name;
    if (*pattern != '*') {
        bool is_same = *name && (*pattern == '?' ? *name != '/' : *pattern == *name);
        return is_same && matches(pattern + 1, length - 1, name + 1);
    }
    bool goes_through = length > 1 && pattern[1] == '*';
    size_t stars = goes_through ? 2 : 1;
    while (!matches(pattern + stars, length - stars, name)) {
        if (!*name || (*name == '/' && !goes_through)) return false;
        name++;
    }
    return true;
}

bool is_quiet(const char *path) {
    const char *slash = strrchr(path, '/'), *last = slash ? slash + 1 : path;
    for (const char *pattern = patterns; *pattern;) {
        size_t length = strcspn(pattern, "\n");
        if (length && matches(pattern, length, memchr(pattern, '/', length) ? path : last)) return true;
        pattern += length + (pattern[length] == '\n');
    }
    return false;
}
