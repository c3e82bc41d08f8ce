/* keys FLAW session | keys FLAW list: keys with values, in the file `log` of the folder in which it is started, a line for each change.

   A session reads operations, a line each, and prints each line once it is done:

     put KEY VALUE, del KEY   appends the change to the log, and syncs it
     compact                  writes what there is to a new log, which takes the place of the old one

   `list` writes each key and its value, in the order in which they came. With the flaw `sound` it keeps its word. With `no_folder_sync` the name of the
   new log isn't synced: after a power cut the old one is there, which has nothing of what was put since. */
#include "flaw.h"

enum { MOST = 100, LONGEST = 100 };

static char changes[MOST][LONGEST]; /* what there is, each as it was put */
static int count, log_file;

/* ---- changes */

static bool is_of(const char *change, const char *key, size_t length) {
    return !strncmp(change + 4, key, length) && (change[4 + length] == ' ' || !change[4 + length]);
}

/* Takes over a change: a key that was put before is put anew, behind all others. */
static void take(const char *change) {
    const char *key = change + 4;
    int kept = 0;
    for (int i = 0; i < count; i++)
        if (!is_of(changes[i], key, strcspn(key, " ")) && kept++ < i) strcpy(changes[kept - 1], changes[i]);
    count = kept;
    if (!strncmp(change, "put ", 4)) strcpy(changes[count++], change);
}

static bool is_change(const char *text) { return (!strncmp(text, "put ", 4) || !strncmp(text, "del ", 4)) && strlen(text) < LONGEST && count < MOST; }

/* ---- the log */

/* Reads the log up to the first line that is none or has no end, and returns how many bytes these are. */
static long read_log(void) {
    static char bytes[1 << 16];
    ssize_t length = 0, got;
    while ((got = read(log_file, bytes + length, sizeof bytes - 1 - (size_t)length)) > 0) length += got;
    must(got == 0, "log");
    bytes[length] = 0;
    char *line = bytes;
    for (char *end; (end = strchr(line, '\n')); line = end + 1) {
        *end = 0;
        if (!is_change(line)) break;
        take(line);
    }
    return line - bytes;
}

static void append(int file, const char *change) {
    char line[LONGEST + 1];
    int length = snprintf(line, sizeof line, "%s\n", change);
    must(write_all(file, line, (size_t)length), "log");
}

/* What a write that wasn't finished has left is cut off, so that the next line begins where the last whole one ends. */
static void open_log(void) {
    log_file = open("log", O_RDWR | O_CREAT, 0644);
    must(log_file >= 0, "log");
    long end = read_log();
    must(!ftruncate(log_file, end) && lseek(log_file, end, SEEK_SET) == end && !fsync(log_file) && sync_names(), "log");
}

static void compact(void) {
    int new = open("new", O_RDWR | O_CREAT | O_TRUNC, 0644);
    must(new >= 0, "new");
    for (int i = 0; i < count; i++) append(new, changes[i]);
    must(!fsync(new) && !rename("new", "log") && sync_names(), "new");
    close(log_file);
    log_file = new;
}

/* ---- commands */

static bool perform(const char *operation) {
    if (!strcmp(operation, "compact")) return compact(), true;
    if (!is_change(operation)) return false;
    append(log_file, operation);
    must(!fdatasync(log_file), "log");
    take(operation);
    return true;
}

static void session(void) {
    char line[LONGEST];
    open_log();
    while (fgets(line, sizeof line, stdin)) {
        line[strcspn(line, "\n")] = 0;
        if (perform(line)) dprintf(STDOUT_FILENO, "%s\n", line);
        else fprintf(stderr, "keys: no such operation: %s\n", line);
    }
}

static void list(void) {
    if ((log_file = open("log", O_RDONLY)) < 0) return;
    read_log();
    for (int i = 0; i < count; i++) puts(changes[i] + 4);
}

int main(int number, char **words) {
    must(number == 3, "keys FLAW session | keys FLAW list");
    flaw = words[1];
    if (!strcmp(words[2], "list")) list();
    else session();
    return 0;
}
