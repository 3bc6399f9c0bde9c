// Preloaded into a program, this adds each call of fsync and rename to the file SYNC_CALLS, a line each, before it is made;
// the call that SYNC_FAILS names fails.
#define _GNU_SOURCE
#include <dlfcn.h>
#include <errno.h>
#include <stdio.h>
#include <stdlib.h>
#include <string.h>

static int fails(const char *call) {
    const char *failing = getenv("SYNC_FAILS");
    FILE *calls = fopen(getenv("SYNC_CALLS"), "a");
    if (calls) {
        fprintf(calls, "%s\n", call);
        fclose(calls);
    }
    errno = EIO;
    return failing && strcmp(failing, call) == 0;
}

int fsync(int file) {
    int (*next)(int) = (int (*)(int))dlsym(RTLD_NEXT, "fsync");
    return fails("fsync") ? -1 : next(file);
}

int rename(const char *from, const char *to) {
    int (*next)(const char *, const char *) = (int (*)(const char *, const char *))dlsym(RTLD_NEXT, "rename");
    return fails("rename") ? -1 : next(from, to);
}
