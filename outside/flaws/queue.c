/* queue FLAW push WORD..: appends words to the file `queue` of the folder in which it is started, and says `pushed WORD` of each once that lasts.
   queue FLAW list: writes the words that are there, a line each.

   A record is the length of its word and a sum of its bytes, four bytes each, and the word. What follows the last whole record is a torn one. */
#include "flaw.h"
#include <stdint.h>

enum { LONGEST = 100, MOST = 1 << 16 };

struct head {
    uint32_t length, sum;
};

static char bytes[MOST];

static uint32_t sum_of(const char *word, size_t length) {
    uint32_t sum = 5381;
    while (length-- > 0) sum = sum * 33 + (unsigned char)*word++;
    return sum;
}

/* The length of the record there, 0 where none is whole. `torn_taken` takes what is there of a word. */
static size_t record_at(const char *at, size_t left) {
    struct head head;
    if (left < sizeof head) return 0;
    memcpy(&head, at, sizeof head);
    left -= sizeof head;
    if (has("torn_taken") && head.length > 0) return sizeof head + (head.length < left ? head.length : left);
    return head.length <= left && head.sum == sum_of(at + sizeof head, head.length) ? sizeof head + head.length : 0;
}

/* Reads the records; answers where the last one ends. */
static off_t read_records(int file, bool list) {
    size_t length = 0, at = 0, record;
    ssize_t got;
    while ((got = read(file, bytes + length, sizeof bytes - length)) > 0) length += (size_t)got;
    must(!got, "queue");
    for (; (record = record_at(bytes + at, length - at)); at += record)
        if (list) printf("%.*s\n", (int)(record - sizeof(struct head)), bytes + at + sizeof(struct head));
    return (off_t)at;
}

/* `torn_kept` appends to a torn record. */
static int open_queue(void) {
    int file = open("queue", O_RDWR | O_CREAT, 0644);
    must(file >= 0 && sync_names(), "queue");
    off_t end = read_records(file, false);
    if (!has("torn_kept")) must(!ftruncate(file, end) && !fsync(file), "queue");
    must(lseek(file, 0, SEEK_END) >= 0, "queue");
    return file;
}

static void push(int file, const char *word) {
    char record[sizeof(struct head) + LONGEST];
    struct head head = {(uint32_t)strlen(word), sum_of(word, strlen(word))};
    must(head.length <= LONGEST, word);
    memcpy(record, &head, sizeof head);
    memcpy(record + sizeof head, word, head.length);
    must(write_all(file, record, sizeof head + head.length) && sync_file(file), "queue");
    dprintf(STDOUT_FILENO, "pushed %s\n", word);
}

int main(int number, char **words) {
    if (number < 3) return 1;
    flaw = words[1];
    if (!strcmp(words[2], "list")) {
        int file = open("queue", O_RDONLY);
        if (file >= 0) read_records(file, true);
        return 0;
    }
    int file = open_queue();
    for (int i = 3; i < number; i++) push(file, words[i]);
    return 0;
}
