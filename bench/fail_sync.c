/* Fails each sync of a file's data with the error whose number is in FAIL, as a disk does that is broken or full. Where FROM and TO are given,
   it moves the file FROM to the path TO in place of that, as another process may while a batch is written.
   Built and loaded before the C library by bench/stores.py. */
#include <errno.h>
#include <stdio.h>
#include <stdlib.h>

int fdatasync(int file) {
    const char *text = getenv("FAIL"), *from = getenv("FROM"), *to = getenv("TO");
    (void)file;
    if (from && to) {
        rename(from, to);
        return 0;
    }
    errno = text ? atoi(text) : EIO;
    return -1;
}
