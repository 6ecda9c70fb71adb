/* Linked with the program, in place of the C library's: whoever writes a file is told to stop while it is half done. */
#include <signal.h>
#include <unistd.h>

int fsync(int file)
{
    (void)file;
    return raise(SIGTERM);
}
