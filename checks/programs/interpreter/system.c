/* What Lua's libraries ask for, and no script here uses: there are no files, and the clock stands at 0. */
#include <errno.h>
#include <sys/types.h>
#include <time.h>

static int no_file(void)
{
    errno = ENOENT;
    return -1;
}

int open(const char *path, int flags, ...)
{
    (void)path;
    (void)flags;
    return no_file();
}

int close(int file)
{
    (void)file;
    return no_file();
}

ssize_t read(int file, void *to, size_t count)
{
    (void)file;
    (void)to;
    (void)count;
    return no_file();
}

ssize_t write(int file, const void *from, size_t count)
{
    (void)file;
    (void)from;
    (void)count;
    return no_file();
}

off_t lseek(int file, off_t to, int from)
{
    (void)file;
    (void)to;
    (void)from;
    return no_file();
}

int unlink(const char *path)
{
    (void)path;
    return no_file();
}

time_t time(time_t *to)
{
    if (to != NULL)
        *to = 0;
    return 0;
}

clock_t clock(void)
{
    return 0;
}
