/* Marks how long the notes and the output of a run are at each hit. */
#define _GNU_SOURCE
#include "marks.h"

#include "../run/run.h"
#include "variables.h"

#include <fcntl.h>
#include <stdio.h>
#include <sys/stat.h>
#include <unistd.h>

/* The marks and the output are kept open, since standard output may be another file by the time that the run ends. */
static int open_marks(void) {
    char name[LONG_PATH];
    snprintf(name, sizeof name, "%s/marks", run_folder);
    return open(name, O_WRONLY | O_APPEND | O_CLOEXEC);
}

void mark_hit(uint64_t number) {
    static int marks, output = -1;
    if (!marks) {
        marks = open_marks();
        output = fcntl(STDOUT_FILENO, F_DUPFD_CLOEXEC, 0);
    }
    if (marks < 0) return;
    char line[80];
    struct stat told;
    long long said = output < 0 || fstat(output, &told) ? 0 : (long long)told.st_size;
    int length = snprintf(line, sizeof line, "%llu\t%llu\t%lld\n", (unsigned long long)number, (unsigned long long)state->noted, said);
    if (write(marks, line, (size_t)length) != length) refuse("can't write the marks", run_folder);
}
