/* Names at whose calls no fault is planned. */
#ifndef QUIET_H
#define QUIET_H

#include <stdbool.h>

/* Reads FAULTS_QUIET, patterns of names under the root, a line each. */
void read_quiet(void);

/* Whether a call on the file of this name is no hit. It is made and noted as any other. */
bool is_quiet(const char *path);

#endif
