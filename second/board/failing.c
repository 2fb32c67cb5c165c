/* For loop.c, linked with --wrap=fsync: the calls of fsync that SLIP_FAILS names fail, counted from a, as in "cd". */
#include <errno.h>
#include <stdlib.h>
#include <string.h>

int __real_fsync(int file);

int __wrap_fsync(int file)
{
    static int call = 'a';
    const char *fails = getenv("SLIP_FAILS");
    if (fails != NULL && strchr(fails, call++) != NULL) {
        errno = EIO;
        return -1;
    }
    return __real_fsync(file);
}
