/* The root folder of a run. It is known by its identity and not by its path, which may lead elsewhere by now. All that is below is reached from its
   open descriptor, name by name, so no symbolic link is followed, and nothing that is mounted below is entered. */
#ifndef TREE_H
#define TREE_H

#include "../run/run.h"

#include <dirent.h>

struct tree {
    int folder;
    struct identity identity;
    uint64_t mount;
};

/* Needed since a descriptor is held for each folder on the way down. */
void raise_limit_of_descriptors(void);

/* Opens the folder of that path, which must not be a symbolic link. */
void open_tree(struct tree *tree, const char *path);

/* Refuses the folder if anything is mounted below it. Changes nothing. */
void check_tree(const struct tree *tree);

/* Deletes all that is below. */
void empty_tree(const struct tree *tree);

/* Opens a folder by its name in an open folder. The tree's own folder is "." in itself. */
int open_below(const struct tree *tree, int above, const char *name);

/* Opens a folder in the same way to read its names: next_name gives each of them except `.` and `..`, and then null. */
DIR *names_below(const struct tree *tree, int above, const char *name);
const char *next_name(DIR *names);

#endif
