/* Files that are read, and files that are written whole or not at all. The name "-" is standard input or output. */
#ifndef FILES_H
#define FILES_H

#include <stdbool.h>
#include <stddef.h>
#include <stdint.h>
#include <stdio.h>

#include "say.h"

bool is_standard(const char *name);

/* A file that is read, as people call it. */
const char *input_name(const char *name);

/* Opens a file for reading, standard input only once. NULL if it cannot be opened: why becomes the reason. */
FILE *open_file(const char *name, char why[WHY]);

/* Closes it. Gives whether all of it could be read; if not, why becomes the reason. */
bool close_file(FILE *file, char why[WHY]);

/* Reads at most room bytes; count becomes how many there were. If it cannot be read, why becomes the reason. */
bool read_file(const char *name, uint8_t *bytes, size_t room, size_t *count, char why[WHY]);

/* Replaces a file by these bytes, or leaves it as it was and says why. */
bool write_file(const char *name, const void *bytes, size_t count);

/* Do both names lead to one existing file? */
bool same_file(const char *one, const char *other);

/* All bytes to a descriptor. errno is the reason if it could not. */
bool write_all(int file, const void *bytes, size_t count);

#endif
