/* The file of notes, and how records are written to it. */
#ifndef NOTES_FILE_H
#define NOTES_FILE_H

#include <stdbool.h>
#include <stdint.h>
#include <sys/uio.h>

/* Writes a record of that size behind the last one. It may change `parts`. */
bool append_note(struct iovec *parts, int count, uint64_t size);

/* Writes all parts at that place of the file, for a record that is written part by part. */
bool write_parts_at(struct iovec *parts, int count, uint64_t at);

#endif
