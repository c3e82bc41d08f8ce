/* How syncs end. */
#ifndef SYNCS_H
#define SYNCS_H

#include "supervisor.h"

/* Whether the disk itself is synced too, because its power is cut by what was written to it. */
extern bool syncs_disk;

/* Syncs the file system of the root. The others of this machine are none of the program's data. */
long sync_root(void);

/* Ends a sync that succeeds. */
void finish_sync(struct call *call);

#endif
