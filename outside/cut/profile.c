#define _GNU_SOURCE
#include "profile.h"

#include <libgen.h>
#include <stdio.h>
#include <stdlib.h>
#include <unistd.h>

static const char *const syncs[] = {"fsync", "fdatasync", "dsync", "msync", "syncfs", "sync", NULL};
static const char *const ofs[] = {"file", "folder", "all", NULL};
static const char *const conditions[] = {"always", "new", "names", "moves", "attributes", "length", "entries", NULL};
static const char *const lasts[] = {"range", "contents", "length", "attributes", "creation", "names", "moves", "place", "above", "entries", "taken",
    "earlier", "names-all", "all", "grown", NULL};
static const char *const mays[] = {"near", "later", "lengths", NULL};
static const char *const left[] = {"names", "lengths", "zeros", "replacing", "cleared", "failed", NULL};
static const char *const left_words[LEAVES][4] = {
    {"order", "any"}, {"shortened", "alone"}, {"anywhere", "before", "written"}, {"full", "empty"}, {"first", "apart"}, {"again", "new"},
};

/* A line of the table, as words between blanks. */
struct line {
    char *text, *words[8];
    size_t count;
};

static int number_of(const struct line *line, const char *word, const char *const *words) {
    for (int number = 0; word && words[number]; number++)
        if (!strcmp(word, words[number])) return number;
    refuse(word ? word : line->text, "the table of profiles has no such word");
}

static unsigned bits_of(const struct line *line, char *text, const char *const *words) {
    unsigned bits = 0;
    if (text && !strcmp(text, "-")) return 0;
    for (char *rest, *word = strtok_r(text, ",", &rest); word; word = strtok_r(NULL, ",", &rest)) bits |= 1u << number_of(line, word, words);
    return bits;
}

static void take_line(struct profile *profile, const struct line *line) {
    char *const *words = line->words;
    if (!strcmp(words[0], "leaves") && line->count == 4) {
        int what = number_of(line, words[2], left);
        profile->leaves[what] = number_of(line, words[3], left_words[what]);
        return;
    }
    bool is_rule = !strcmp(words[0], "keeps") && line->count == 7 && profile->count < sizeof profile->rules / sizeof *profile->rules;
    if (!is_rule) refuse(words[0], "this line of the table of profiles can't be read");
    profile->rules[profile->count++] = (struct rule){
        number_of(line, words[2], syncs), number_of(line, words[3], ofs), bits_of(line, words[4], conditions), bits_of(line, words[5], lasts),
        bits_of(line, words[6], mays),
    };
}

/* The table lies beside the sources of this program, or beside what is installed of them. */
static FILE *open_table(void) {
    char own[PATH_MAX] = "", path[LONG_PATH];
    must(readlink("/proc/self/exe", own, sizeof own - 1) > 0, "/proc/self/exe");
    joined(path, dirname(own), "../cut/profiles");
    FILE *table = fopen(path, "re");
    must(table, path);
    return table;
}

void read_profile(struct profile *profile, const char *name) {
    FILE *table = open_table();
    char *text = NULL;
    size_t size = 0;
    bool is_there = false;
    *profile = (struct profile){0};
    while (getline(&text, &size, table) > 0) {
        struct line line = {.text = text};
        text[strcspn(text, "#\n")] = 0;
        for (char *rest, *word = strtok_r(text, " ", &rest); word && line.count < 8; word = strtok_r(NULL, " ", &rest)) line.words[line.count++] = word;
        if (line.count < 2 || strcmp(line.words[1], name)) continue;
        take_line(profile, &line);
        is_there = true;
    }
    free(text);
    fclose(table);
    if (!is_there) refuse(name, "the table of profiles has no such profile");
}
