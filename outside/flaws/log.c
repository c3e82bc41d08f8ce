/* log FLAW COMMAND..: records in the files `snap` and `log` of the folder in which it is started, a line each: a sum, a blank, the text.

     add WORD     appends a record; it lasts once it is synced
     sync         syncs them, and says `added WORD` of each
     snapshot     writes all records to a new `snap`, and empties the log
     list         writes the records

   With the flaw `sound` it keeps its word. log.py is the same in Python. */
#include "flaw.h"
#include <errno.h>

enum { MOST = 100, LONGEST = 100 };

static char records[MOST][LONGEST];
static int count, acknowledged;

/* ---- lines */

static unsigned sum_of(const char *text) {
    unsigned sum = 5381;
    for (; *text; text++) sum = sum * 33 + (unsigned char)*text;
    return sum;
}

/* Whether a line is a record; `torn_taken` doesn't look at its sum. */
static bool read_line(char *line) {
    char *text = strchr(line, ' ');
    if (!text || strlen(text + 1) >= LONGEST || count == MOST) return false;
    if (!has("torn_taken") && strtoul(line, NULL, 16) != sum_of(text + 1)) return false;
    strcpy(records[count++], text + 1);
    return true;
}

/* Reads the records of a file up to the first line that is none; answers how many bytes are read, -1 where the file can't be. */
static off_t read_file(int file) {
    static char bytes[MOST * LONGEST];
    ssize_t length = 0, got, at = 0;
    while ((got = read(file, bytes + length, sizeof bytes - 1 - (size_t)length)) > 0) length += got;
    if (got < 0) return -1;
    bytes[length] = 0;
    while (at < length) {
        char *end = memchr(bytes + at, '\n', (size_t)(length - at));
        if (!end && !has("torn_taken")) return at;
        if (end) *end = 0;
        if (!read_line(bytes + at)) return at;
        at = end ? end - bytes + 1 : length;
    }
    return at;
}

static bool append(int file, const char *text) {
    char line[LONGEST + 16];
    int length = snprintf(line, sizeof line, "%08x %s\n", sum_of(text), text);
    return write(file, line, (size_t)length) == length;
}

/* ---- the files */

static void read_snapshot(void) {
    int snap = open("snap", O_RDONLY);
    if (snap < 0 && errno == ENOENT) return;
    must(snap >= 0, "snap");
    must(read_file(snap) >= 0, "snap");
    close(snap);
}

/* What can't be read is not to be written over; `recovery_deletes` begins anew. What a torn record has left is cut off; `torn_appended` leaves
   it there. */
static int open_log(void) {
    int log = open("log", O_RDWR | O_CREAT, 0644);
    must(log >= 0, "log");
    off_t end = read_file(log);
    if (end < 0 && has("recovery_deletes")) end = 0;
    must(end >= 0, "log");
    if (!has("torn_appended")) must(!ftruncate(log, end) && !fsync(log), "log");
    must(lseek(log, 0, SEEK_END) >= 0, "log");
    must(sync_names(), "folder");
    return log;
}

/* ---- commands */

static void sync_log(int log) {
    must(!fsync(log), "log");
    while (acknowledged < count) dprintf(STDOUT_FILENO, "added %s\n", records[acknowledged++]);
}

/* `full_disk` doesn't look whether the snapshot could be written. */
static void snapshot(int log) {
    int new = open("new", O_WRONLY | O_CREAT | O_TRUNC, 0644);
    bool written = new >= 0;
    for (int i = 0; written && i < count; i++) written = append(new, records[i]);
    must(written || has("full_disk"), "new");
    must(!fsync(new) && !close(new) && !rename("new", "snap"), "snap");
    must(sync_names(), "folder");
    must(!ftruncate(log, 0) && lseek(log, 0, SEEK_SET) == 0 && !fsync(log), "log");
}

int main(int number, char **words) {
    must(number > 2, "log FLAW COMMAND..");
    flaw = words[1];
    read_snapshot();
    int log = open_log();
    acknowledged = count;
    for (int i = 2; i < number; i++) {
        if (!strcmp(words[i], "sync")) sync_log(log);
        else if (!strcmp(words[i], "snapshot")) snapshot(log);
        else if (!strcmp(words[i], "list")) for (int each = 0; each < count; each++) puts(records[each]);
        else if (!strcmp(words[i], "add") && i + 1 < number && count < MOST && strlen(words[i + 1]) < LONGEST) {
            strcpy(records[count++], words[++i]);
            must(append(log, words[i]), "log");
        }
    }
    return 0;
}
