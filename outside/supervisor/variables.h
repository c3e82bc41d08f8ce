/* The variables of the environment: the scenario, the run and the root. */
#ifndef VARIABLES_H
#define VARIABLES_H

#include "../run/run.h"

extern struct scenario scenario;
extern struct state *state;
extern char root[PATH_MAX], run_folder[PATH_MAX];
extern bool is_kept, forgets, sees_sockets; /* whether changes are noted, whether blocks of a failed sync are lost, and whether sockets are points */
extern bool waits_for_begin; /* whether no fault acts before the program says so */

/* Reads all variables. If one can't be used, it refuses the run. */
void read_variables(void);

/* Notes a program that runs under the supervisor: a line in the run's folder, and a count. */
void say_loaded(int process, const char *program);

/* Prints what is wrong, and ends the run with REFUSED. */
_Noreturn void refuse(const char *what, const char *why);

#endif
