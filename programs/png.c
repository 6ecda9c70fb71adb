/* The program pnmtopng makes the file's bytes, in memory. As a program of the machine it needs no library for x86-64
   when this one is emulated. */
#define _GNU_SOURCE
#include "png.h"

#include <errno.h>
#include <stdio.h>
#include <stdlib.h>
#include <string.h>
#include <sys/mman.h>
#include <sys/wait.h>
#include <unistd.h>

#include "files.h"
#include "say.h"

static const uint8_t brightness[] = { [FELDRIME_BLACK] = 0, [FELDRIME_GRAY] = 170, [FELDRIME_WHITE] = 255 };

/* A PGM picture: a header, then a byte for each dot. */
static bool write_pgm(int file, const struct page *page, const uint8_t *picture)
{
    uint8_t line[FELDRIME_LINE];

    if (dprintf(file, "P5\n%u %u\n255\n", (unsigned)page->dots, (unsigned)page->lines) < 0)
        return false;
    for (uint32_t y = 0; y < page->lines; y++) {
        for (uint32_t x = 0; x < page->dots; x++)
            line[x] = brightness[picture[(size_t)y * page->dots + x]];
        if (!write_all(file, line, page->dots))
            return false;
    }
    return lseek(file, 0, SEEK_SET) == 0;
}

/* Runs pnmtopng from one file to the other. */
static bool convert(int from, int to)
{
    int status;
    pid_t child = fork();

    if (child == 0) {
        if (dup2(from, STDIN_FILENO) >= 0 && dup2(to, STDOUT_FILENO) >= 0)
            execlp("pnmtopng", "pnmtopng", "-quiet", (char *)NULL);
        _exit(127);
    }
    if (child < 0 || waitpid(child, &status, 0) != child) {
        say("pnmtopng", "%s", strerror(errno));
        return false;
    }
    if (WIFEXITED(status) && WEXITSTATUS(status) == 127)
        say("pnmtopng", "cannot be run; to install it: apt-get install --no-install-recommends netpbm");
    else if (status != 0)
        say("pnmtopng", "failed to make the picture");
    return status == 0;
}

/* All bytes of a file, newly allotted. NULL if they cannot be had. */
static uint8_t *bytes_of(int file, size_t *count)
{
    off_t end = lseek(file, 0, SEEK_END);
    uint8_t *bytes = end > 0 ? malloc((size_t)end) : NULL;

    if (bytes != NULL && pread(file, bytes, (size_t)end, 0) != end) {
        free(bytes);
        return NULL;
    }
    *count = (size_t)end;
    return bytes;
}

bool write_png(const char *name, const struct page *page, const uint8_t *picture)
{
    int from = memfd_create("picture", 0), to = memfd_create("png", 0);
    size_t count;
    uint8_t *bytes = NULL;

    if (from < 0 || to < 0 || !write_pgm(from, page, picture))
        say("the picture", "%s", strerror(errno));
    else if (convert(from, to) && (bytes = bytes_of(to, &count)) == NULL)
        say("the picture", "there is no memory for it");
    /* Before anything is written: if standard output is closed, one of them has its number. */
    close(from);
    close(to);
    bool good = bytes != NULL && write_file(name, bytes, count);
    free(bytes);
    return good;
}
