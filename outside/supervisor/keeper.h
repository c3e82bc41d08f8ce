/* The keeper is the process between the supervisor and the command. It becomes the parent of all that the command starts, so that nothing is lost,
   and ends all of it if the supervisor is killed. */
#ifndef KEEPER_H
#define KEEPER_H

#include "filter.h"

#include <sys/types.h>

/* Starts the command and returns the listener of its filter. If the system lacks something, a line says what, and this process ends. */
int start_command(char **words, const struct looks *looks);

/* Whether all processes of the run have ended. `status` is the status of the command, as wait has it. */
bool has_ended(int *status);

/* Waits until all processes of the run have ended. No call would report that. */
void wait_for_end(void);

/* Ends every process of the run, and waits until they are gone. Returns the status of the command, as wait has it. */
int end_all(void);

/* The next process that ended by a signal of a crash, of those that the keeper waits for: the command, and all whose parent has ended. Null if there
   is no other. */
struct crash {
    pid_t process;
    int signal;
    char program[32]; /* its name */
};
const struct crash *next_crash(void);

pid_t command(void);
bool command_runs(void);

/* Calls `sees` for each thread of the run. If that returns false, it ends early and returns false too. */
bool each_thread(bool (*sees)(pid_t process, pid_t thread));

#endif
