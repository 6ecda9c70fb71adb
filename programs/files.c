/* A file is written next to its place, under a name of its own, and then takes the place in one step. */
#define _GNU_SOURCE
#include "files.h"

#include <errno.h>
#include <signal.h>
#include <stdio.h>
#include <stdlib.h>
#include <string.h>
#include <sys/stat.h>
#include <unistd.h>

#include "say.h"

bool is_standard(const char *name)
{
    return strcmp(name, "-") == 0;
}

const char *input_name(const char *name)
{
    return is_standard(name) ? "standard input" : name;
}

/* Why a file cannot be read, from errno. */
static void unread(char why[WHY])
{
    snprintf(why, WHY, "cannot be read: %s", strerror(errno));
}

FILE *open_file(const char *name, char why[WHY])
{
    static bool standard_read;

    if (!is_standard(name)) {
        FILE *file = fopen(name, "rb");
        if (file == NULL)
            unread(why);
        return file;
    }
    if (standard_read) {
        snprintf(why, WHY, "cannot be read twice");
        return NULL;
    }
    standard_read = true;
    return stdin;
}

bool close_file(FILE *file, char why[WHY])
{
    bool good = !ferror(file);

    if (!good)
        unread(why);
    /* Standard input stays open: no other file then gets its number. */
    if (file != stdin)
        fclose(file);
    return good;
}

bool read_file(const char *name, uint8_t *bytes, size_t room, size_t *count, char why[WHY])
{
    FILE *file = open_file(name, why);

    if (file == NULL)
        return false;
    *count = fread(bytes, 1, room, file);
    return close_file(file, why);
}

bool same_file(const char *one, const char *other)
{
    struct stat a, b;

    if (is_standard(one) || is_standard(other))
        return false;
    return stat(one, &a) == 0 && stat(other, &b) == 0 && a.st_dev == b.st_dev && a.st_ino == b.st_ino;
}

bool write_all(int file, const void *bytes, size_t count)
{
    const char *next = bytes;

    while (count > 0) {
        ssize_t written = write(file, next, count);
        if (written < 0 && errno == EINTR)
            continue;
        if (written < 0)
            return false;
        next += written;
        count -= (size_t)written;
    }
    return true;
}

static const char *reason(int error)
{
    switch (error) {
    case ENOENT:
        return "its folder does not exist";
    case ENOTDIR:
        return "part of its path is not a folder";
    case EACCES:
    case EPERM:
    case EROFS:
        return "no permission to write there";
    case ENOSPC:
    case EDQUOT:
        return "the disk is full";
    default:
        return strerror(error);
    }
}

/* Where the bytes belong: what a symbolic link leads to, else the name itself. NULL, and says why, if no file can be
   there or it cannot be replaced. mode becomes that of the file. */
static char *place_of(const char *name, mode_t *mode)
{
    struct stat found;
    char *place = NULL;
    mode_t mask = umask(0);

    umask(mask);
    *mode = 0666 & ~mask;
    if (stat(name, &found) == 0) {
        *mode = found.st_mode & 07777;
        if (S_ISDIR(found.st_mode))
            say(name, "is a folder");
        else if (!S_ISREG(found.st_mode))
            say(name, "is not a regular file, and is left as it is");
        else if (access(name, W_OK) != 0)
            say(name, "%s", reason(errno));
        else if ((place = realpath(name, NULL)) == NULL)
            say(name, "%s", strerror(errno));
    } else if (lstat(name, &found) == 0) {
        say(name, "is a symbolic link to a missing file");
    } else if (name[0] == '\0') {
        say("''", "is not a file name");
    } else if ((place = strdup(name)) == NULL) {
        say(name, "%s", strerror(errno));
    }
    return place;
}

/* Writes the file next to its place, under the name beside, and moves it there. errno is the reason if it could not. */
static bool put(char *beside, const char *place, mode_t mode, const void *bytes, size_t count)
{
    int file = mkstemp(beside);

    if (file < 0)
        return false;
    /* The bytes reach the disk before the name does: a crash leaves the old file or the new one. */
    bool good = fchmod(file, mode) == 0 && write_all(file, bytes, count) && fsync(file) == 0;
    int error = errno;
    if (close(file) != 0 && good) {
        error = errno;
        good = false;
    }
    if (good && rename(beside, place) == 0)
        return true;
    if (good)
        error = errno;
    unlink(beside);
    errno = error;
    return false;
}

/* The same, with signals held back: one that stops the program takes effect when the file is in its place or gone. */
static bool put_unstopped(char *beside, const char *place, mode_t mode, const void *bytes, size_t count)
{
    sigset_t all, before;

    sigfillset(&all);
    sigprocmask(SIG_BLOCK, &all, &before);
    bool good = put(beside, place, mode, bytes, count);
    int error = errno;
    sigprocmask(SIG_SETMASK, &before, NULL);
    errno = error;
    return good;
}

static bool write_standard(const void *bytes, size_t count)
{
    if (write_all(STDOUT_FILENO, bytes, count))
        return true;
    say("standard output", "%s", strerror(errno));
    return false;
}

bool write_file(const char *name, const void *bytes, size_t count)
{
    mode_t mode;

    if (is_standard(name))
        return write_standard(bytes, count);
    char *beside, *place = place_of(name, &mode);
    if (place == NULL)
        return false;
    const char *slash = strrchr(place, '/');
    int folder = slash == NULL ? 0 : (int)(slash - place + 1);
    if (asprintf(&beside, "%.*s.feldrime.XXXXXX", folder, place) < 0) {
        say(name, "%s", strerror(ENOMEM));
        free(place);
        return false;
    }
    bool good = put_unstopped(beside, place, mode, bytes, count);
    if (!good)
        say(name, "%s", reason(errno));
    free(beside);
    free(place);
    return good;
}
