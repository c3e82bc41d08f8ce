/* note FLAW WORD..: keeps its last word in the file `note` of the folder in which it is started, and says `saved WORD` once that lasts. With the
   flaw `sound` it does. note.py is the same in Python. */
#include "flaw.h"

static bool replace(int file, int folder) {
    if (has("rename_first")) return !rename("new", "note") && sync_file(file) && sync_folder(folder);
    return sync_file(file) && !rename("new", "note") && sync_folder(folder);
}

/* `clean_up` keeps the old file by a second name, and puts it back where something fails: but it doesn't look whether that could be done. */
static void put_back(int folder) {
    unlink("note");
    link("old", "note");
    unlink("old");
    fsync(folder);
}

static bool save(const char *word, int folder) {
    if (has("clean_up") && link("note", "old")) return false;
    int file = open("new", O_WRONLY | O_CREAT | O_TRUNC, 0644);
    if (file < 0) return false;
    bool saved = write_all(file, word, strlen(word)) && replace(file, folder);
    close(file);
    if (has("clean_up") && !saved) put_back(folder);
    if (has("clean_up") && saved && unlink("old")) return false;
    return saved;
}

int main(int count, char **words) {
    int folder = open(".", O_RDONLY | O_DIRECTORY);
    if (count < 2 || folder < 0) return 1;
    flaw = words[1];
    for (int i = 2; i < count; i++) {
        if (!save(words[i], folder)) return 1;
        dprintf(STDOUT_FILENO, "saved %s\n", words[i]);
    }
    return 0;
}
