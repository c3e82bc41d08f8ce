/* What a session is asked to do. It reads its operations, a line each, from its standard input. Whenever it has read all that it was given and asks
   for more, work::next is hit: the scenario gives it another line, or its input ends. */
#ifndef OPERATIONS_H
#define OPERATIONS_H

#include <stdbool.h>

struct call;
struct opened;

/* Reads FAULTS_OPERATIONS and FAULTS_LENGTH. */
void read_operations(void);

/* The line of that number, from 1. */
const char *operation_named(unsigned number);

/* Makes the input, before the command is started, and lets the command's first process have it. */
void make_input(void);
void take_input(void);

/* Serves a read if it is one of the input. */
bool serve_operation(struct call *call, const struct opened *opened);

/* Whether all that was given has been read, and the input hasn't ended. */
bool awaits_operation(void);

/* A program that waits by poll reads only once there is something to be read, so it asks when all of its threads rest and one of them waits for the input.
   Then offer_operation is called. */
bool is_polled(void);
void offer_operation(void);

#endif
