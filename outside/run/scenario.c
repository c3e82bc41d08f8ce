#define _GNU_SOURCE
#include "scenario.h"

#include <errno.h>
#include <stddef.h>
#include <stdio.h>
#include <string.h>

#define CALL "sys::"

const char *const point_names[POINTS] = {
    CALL "open",  CALL "read",  CALL "write",   CALL "fsync",   CALL "truncate", CALL "rename", CALL "link", CALL "unlink",
    CALL "mkdir", CALL "rmdir", CALL "symlink", CALL "connect", CALL "accept",   CALL "send",   CALL "recv", "power::keep",
    "order::next", "work::next", "own",
};
const char *const task_names[TASKS] = {"off", "return", "sleep", "panic", "print", "pause", "yield", "delay"};

/* The names that a return may have. */
static const struct {
    const char *name;
    int number;
} errors[] = {
    {"EIO", EIO},               {"ENOSPC", ENOSPC},         {"EDQUOT", EDQUOT},           {"EACCES", EACCES},
    {"EPERM", EPERM},           {"EROFS", EROFS},           {"EINTR", EINTR},             {"EAGAIN", EAGAIN},
    {"EBUSY", EBUSY},           {"EEXIST", EEXIST},         {"EFBIG", EFBIG},             {"EMFILE", EMFILE},
    {"ENFILE", ENFILE},         {"ENOENT", ENOENT},         {"ENOMEM", ENOMEM},           {"ESTALE", ESTALE},
    {"EXDEV", EXDEV},           {"ECONNRESET", ECONNRESET}, {"ECONNREFUSED", ECONNREFUSED}, {"ECONNABORTED", ECONNABORTED},
    {"EPIPE", EPIPE},           {"ETIMEDOUT", ETIMEDOUT},   {"ENOTCONN", ENOTCONN},       {"EHOSTUNREACH", EHOSTUNREACH},
};

static bool refuse(struct scenario *scenario, const char *kind, unsigned term) {
    scenario->bad = (struct bad){kind, scenario->piece, term};
    return false;
}

static bool is_blank(char byte) { return byte == ' ' || byte == '\t' || byte == '\r' || byte == '\n'; }

static char *trimmed(char *text) {
    while (is_blank(*text)) text++;
    char *end = text + strlen(text);
    while (end > text && is_blank(end[-1])) end--;
    *end = 0;
    return text;
}

/* Reads one or more digits, of any length, and nothing else. The value is theirs, or if that is more than `most`, one more than `most`. */
static bool read_digits(const char *text, uint64_t most, uint64_t *value) {
    *value = 0;
    if (!*text) return false;
    for (; *text; text++) {
        if (*text < '0' || *text > '9') return false;
        *value = *value * 10 + (uint64_t)(*text - '0');
        if (*value > most) *value = most + 1;
    }
    return true;
}

/* Reads a percentage, digits or digits, a point and one to four digits, as millionths of the whole. */
static bool read_share(char *text, uint32_t *share) {
    char *point = strchr(text, '.');
    uint64_t whole, decimals = 0;
    if (point) {
        *point++ = 0;
        size_t length = strlen(point);
        if (length > 4 || !read_digits(point, 9999, &decimals)) return false;
        for (; length < 4; length++) decimals *= 10;
    }
    if (!read_digits(text, 100, &whole)) return false;
    *share = whole >= 100 ? WHOLE_SHARE : (uint32_t)(whole * 10000 + decimals);
    return true;
}

/* Reads the task's argument by the rule of the task: it is dropped, kept, or read as milliseconds. */
static bool read_argument(struct term *term, const char *argument) {
    uint64_t millis;
    switch (term->task) {
    case RETURN: case PANIC: case PRINT:
        term->argument = argument;
        return true;
    case SLEEP: case DELAY:
        if (!argument || !read_digits(argument, MOST_MILLIS, &millis) || millis > MOST_MILLIS) return false;
        term->millis = (uint32_t)millis;
        return true;
    default:
        return true;
    }
}

static bool read_task(struct term *term, const char *text) {
    for (int task = 0; task < TASKS; task++)
        if (!strcmp(text, task_names[task])) {
            term->task = task;
            return true;
        }
    return false;
}

/* Reads a term up to its argument. Returns the kind of what is wrong with it, or null. */
static const char *read_head(struct term *term, char *text) {
    char *argument = strchr(text, '('), *mark;
    uint64_t count;
    if (argument) {
        char *last = text + strlen(text) - 1;
        if (*last != ')') return "Parentheses";
        *last = *argument++ = 0;
    }
    if ((mark = strchr(text, '%'))) {
        *mark = 0;
        if (!read_share(text, &term->share)) return "BadPercent";
        text = mark + 1;
    }
    if ((mark = strchr(text, '*'))) {
        *mark = 0;
        if (!read_digits(text, UINT32_MAX, &count) || count > UINT32_MAX) return "BadCount";
        term->counted = true;
        term->count = (uint32_t)count;
        text = mark + 1;
    }
    if (!read_task(term, text)) return "UnknownTask";
    return read_argument(term, argument) ? NULL : "BadMillis";
}

static bool read_term(struct scenario *scenario, struct chain *chain, char *text) {
    unsigned number = chain->length + 1;
    if (chain->length == MOST_TERMS) return refuse(scenario, "TooMany", number);
    struct term term = {.share = WHOLE_SHARE};
    const char *kind = read_head(&term, text);
    if (kind) return refuse(scenario, kind, number);
    if (term.task != OFF && ++scenario->faults > MOST_FAULTS) return refuse(scenario, "TooMany", number);
    chain->terms[chain->length++] = term;
    return true;
}

/* The length of the character that begins there, or 0 if it is none of UTF-8. */
static size_t character(const unsigned char *byte) {
    static const uint32_t least[] = {0, 0, 0x80, 0x800, 0x10000};
    size_t length = *byte < 0x80 ? 1 : *byte < 0xc0 ? 0 : *byte < 0xe0 ? 2 : *byte < 0xf0 ? 3 : *byte < 0xf8 ? 4 : 0;
    uint32_t value = *byte & (0x7fu >> length);
    for (size_t i = 1; i < length; i++) {
        if ((byte[i] & 0xc0) != 0x80) return 0;
        value = value << 6 | (byte[i] & 0x3f);
    }
    bool is_half = value >= 0xd800 && value < 0xe000; /* of a character in another form */
    return length > 1 && (value < least[length] || value > 0x10ffff || is_half) ? 0 : length;
}

static bool is_text(const char *name) {
    const unsigned char *byte = (const unsigned char *)name;
    for (size_t length; *byte; byte += length)
        if (*byte < ' ' || *byte == 127 || *byte == ';' || *byte == '=' || !(length = character(byte))) return false;
    return true;
}

bool is_own_name(const char *name) {
    static const char *const prefixes[] = {CALL, "power::", "order::", "work::"};
    size_t length = strlen(name);
    if (!length || length > MOST_NAME || is_blank(*name) || is_blank(name[length - 1])) return false;
    for (size_t i = 0; i < sizeof prefixes / sizeof *prefixes; i++)
        if (!strncmp(name, prefixes[i], strlen(prefixes[i]))) return false;
    const char *behind = name + strspn(name, "0123456789"); /* in hits, `2*a` is `a` twice */
    return is_text(name) && (behind == name || *behind != '*');
}

/* The point of a name: one of the program's own; or a call, and if points are named by file, an at sign and the file. */
static enum point point_of(const struct scenario *scenario, const char *name) {
    size_t length = strcspn(name, "@");
    if (is_own_name(name)) return OWN;
    for (int point = KEEP; point < OWN; point++)
        if (!strcmp(name, point_names[point])) return point;
    if (scenario->by_file != (name[length] == '@')) return POINTS;
    for (int point = 0; point < KEEP; point++)
        if (!strncmp(name, point_names[point], length) && !point_names[point][length]) return point;
    return POINTS;
}

const struct chain *chain_named(const struct scenario *scenario, const char *name) {
    for (unsigned i = 0; i < scenario->length; i++)
        if (!strcmp(scenario->chains[i].name, name)) return &scenario->chains[i];
    return NULL;
}

static struct chain *chain_of(struct scenario *scenario, const char *name) {
    enum point point = point_of(scenario, name);
    if (point == POINTS) {
        scenario->stranger = name;
        return &scenario->other;
    }
    struct chain *chain = (struct chain *)chain_named(scenario, name);
    if (!chain) chain = &scenario->chains[scenario->length++];
    chain->name = name;
    chain->point = point;
    return chain;
}

static bool read_piece(struct scenario *scenario, char *piece) {
    if (++scenario->entries > MOST_ENTRIES) return refuse(scenario, "TooMany", 0);
    char *rest = strchr(piece, '=');
    if (!rest) return refuse(scenario, "NoAction", 0);
    *rest++ = 0;
    char *name = trimmed(piece);
    if (!*name) return refuse(scenario, "NoName", 0);
    struct chain *chain = chain_of(scenario, name);
    chain->entry = scenario->piece;
    chain->length = 0; /* if a name comes again, its last chain counts */
    while (rest) {
        char *text = rest, *arrow = strstr(rest, "->");
        rest = arrow ? arrow + 2 : NULL;
        if (arrow) *arrow = 0;
        if (!read_term(scenario, chain, trimmed(text))) return false;
    }
    return true;
}

/* Finds the operation that a return at work::next gives, by its number. */
static bool find_operation(struct term *term) {
    uint64_t number;
    if (!term->argument || !read_digits(term->argument, MOST_OPERATIONS, &number) || !number || number > MOST_OPERATIONS) return false;
    term->operation = (unsigned)number;
    return true;
}

#define AT(point) (1u << (point))

/* What a return may do in place of an error, and the points at which it can be done. */
static const struct {
    const char *name;
    int number;
    unsigned points;
} deeds[] = {
    {"HALF", HALF_DONE, AT(READ) | AT(WRITE) | AT(SEND) | AT(RECV)},
    {"DROP", DROPPED, AT(SEND)},
    {"KILL", KILLED, (AT(KEEP) - 1) | AT(OWN)},
    {"TERM", TERMINATED, (AT(KEEP) - 1) | AT(OWN)},
    {"FULL", FILLED, AT(OPEN) | AT(WRITE) | AT(FSYNC) | AT(TRUNCATE) | AT(RENAME) | AT(LINK) | AT(MKDIR) | AT(SYMLINK)},
};

/* Finds the error of a return at a point. Returns false if there is no error of that name, or if it can't be done there. Without a name it is the
   error of a broken disk or line. Points of a power cut and of the order take each return as it is, and one of the program's own any text. */
static bool find_error(struct term *term, enum point point) {
    const char *name = term->argument ? term->argument : "";
    if (point == WORK) return find_operation(term);
    if (point == KEEP || point == NEXT) return true;
    for (size_t i = 0; i < sizeof deeds / sizeof *deeds; i++)
        if (!strcmp(name, deeds[i].name) && (point != OWN || deeds[i].points & AT(OWN))) {
            term->error = deeds[i].number;
            return deeds[i].points & AT(point);
        }
    if (point == OWN) {
        term->error = term->argument ? TOLD : EIO;
        return true;
    }
    if (!*name) name = point >= CONNECT ? "ECONNRESET" : "EIO";
    for (size_t i = 0; i < sizeof errors / sizeof *errors; i++)
        if (!strcmp(name, errors[i].name)) {
            term->error = errors[i].number;
            return true;
        }
    return false;
}

/* Refuses, before anything runs, what the grammar allows and what can't be done here. For a share, random words would have to be drawn in the
   component, and they couldn't be drawn again. */
static bool can_do(struct scenario *scenario) {
    for (unsigned number = 0; number < scenario->length; number++)
        for (unsigned i = 0; i < scenario->chains[number].length; i++) {
            struct chain *chain = &scenario->chains[number];
            struct term *term = &chain->terms[i];
            scenario->piece = chain->entry;
            if (term->share > 0 && term->share < WHOLE_SHARE) return refuse(scenario, "NoShares", i + 1);
            if (term->task == RETURN && !find_error(term, chain->point)) return refuse(scenario, "UnknownError", i + 1);
            if (term->task == RETURN && term->error == TOLD && strlen(term->argument) > MOST_TEXT) return refuse(scenario, "TooLong", i + 1);
        }
    return true;
}

bool read_scenario(struct scenario *scenario, char *text) {
    if (strlen(text) > MOST_BYTES) return refuse(scenario, "TooLong", 0);
    for (char *piece; (piece = strsep(&text, ";"));) {
        scenario->piece++;
        piece = trimmed(piece);
        if (*piece && !read_piece(scenario, piece)) return false;
    }
    return can_do(scenario);
}

/* Whether a term goes on with what the one before it did at the hit before, where that is something of which one in a row acts. */
static bool is_repeated(const struct term *before, const struct term *term) {
    bool acts_once = term->task == RETURN && (term->error == EINTR || term->error == FILLED);
    return acts_once && before && before->task == RETURN && before->error == term->error;
}

const struct term *acting_term(const struct chain *chain, uint64_t *used) {
    const struct term *before = NULL; /* that of the hit before */
    for (unsigned i = 0; chain && i < chain->length; i++) {
        const struct term *term = &chain->terms[i];
        if (term->share == 0 || (term->counted && term->count == 0)) continue;
        if (used[i] > 0) before = term;
        if (term->counted && used[i] >= term->count) continue;
        used[i]++;
        return is_repeated(before, term) ? NULL : term;
    }
    return NULL;
}

char *escaped(char *to, const char *text) {
    for (; *text; text++) {
        unsigned char byte = (unsigned char)*text;
        if (byte >= ' ' && byte != 127 && byte != '\\') *to++ = *text;
        else to += sprintf(to, "\\%03o", byte);
    }
    return to;
}

char *written_answer(char *to, const struct term *term) {
    if (!term || term->task == OFF || term->task == YIELD) return stpcpy(to, "go");
    to = stpcpy(to, task_names[term->task]);
    if (term->task == SLEEP || term->task == DELAY) return to + sprintf(to, "(%u)", term->millis);
    if (!term->argument) return to;
    *to++ = '(';
    to = escaped(to, term->argument);
    *to++ = ')';
    return to;
}
