/* The store of each language: a value replaced as it should be, read back, and each other call of names, in the folder that it is
   started in. Ends with 1 where a call fails. Also C++, and static. */
#include <fcntl.h>
#include <stdio.h>
#include <string.h>
#include <sys/stat.h>
#include <unistd.h>

static int done(int failed) { return failed ? (perror("store"), 1) : 0; }

int main(void) {
    char bytes[16];
    int file = open("new", O_WRONLY | O_CREAT | O_TRUNC, 0644);
    if (file < 0 || write(file, "value", 5) != 5 || ftruncate(file, 4) || fsync(file) || close(file)) return done(1);
    if (rename("new", "value")) return done(1);
    int folder = open(".", O_RDONLY | O_DIRECTORY);
    if (folder < 0 || fsync(folder) || close(folder)) return done(1);
    file = open("value", O_RDONLY);
    if (file < 0 || read(file, bytes, 4) != 4 || memcmp(bytes, "valu", 4) || close(file)) return done(1);
    return done(link("value", "other") || symlink("value", "way") || unlink("old") || mkdir("made", 0755) || rmdir("made"));
}
