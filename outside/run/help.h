/* The text that `--help` of a program prints. The pages of share/ are made from it. */
#ifndef HELP_H
#define HELP_H

#include "whole.h"

#include <string.h>

extern const char help[];

static inline bool asks_help(const char *word) { return !strcmp(word, "-h") || !strcmp(word, "--help"); }

static inline bool write_help(int file) { return write_whole(file, help, strlen(help)); }

#endif
