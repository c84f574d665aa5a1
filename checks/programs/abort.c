/* A self-checking program calls this where it finds something wrong: it exits with 134, as a shell says of an aborted process. */
#include <stdlib.h>
#include <unistd.h>

void abort(void)
{
    _exit(134);
}
