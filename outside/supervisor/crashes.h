/* The processes of a run that ended by a signal of a crash: a line for each in the file `crashes` of the run's folder, with the number of hits that the
   run had when this was seen, the signal, and the name of the program. */
#ifndef CRASHES_H
#define CRASHES_H

#include "supervisor.h"

bool is_crash(int signal);

/* From here on the end of a thread is seen, until its handle is closed. */
void watch_end(struct thread *thread);

/* Notes the crash of a thread that won't be watched any more, and of all that have ended since the last time. */
void see_end(const struct thread *thread);
void note_crashes(void);

/* Notes that the command ended with that status, as a shell does for a program of its own that crashed, if the system can't tell that itself. */
void note_status(int status, const char *name);

#endif
