// Preloaded into a program, this refuses one allocation: the call of malloc or realloc with the number REFUSE_NTH, counted
// from 1. When that call is made, it creates the file REFUSE_MARK.
#include <fcntl.h>
#include <stdlib.h>
#include <unistd.h>

extern void *__libc_malloc(size_t size);
extern void *__libc_realloc(void *block, size_t size);

static long refused_call;
static long calls;
static const char *mark;

__attribute__((constructor)) static void begin(void) {
    const char *number = getenv("REFUSE_NTH");
    mark = getenv("REFUSE_MARK");
    refused_call = number ? atol(number) : 0;
    __atomic_store_n(&calls, 0, __ATOMIC_SEQ_CST);
}

static int is_refused(void) {
    if (refused_call == 0 || __atomic_add_fetch(&calls, 1, __ATOMIC_SEQ_CST) != refused_call)
        return 0;
    if (mark)
        close(open(mark, O_CREAT | O_WRONLY, 0600));
    return 1;
}

void *malloc(size_t size) {
    return is_refused() ? NULL : __libc_malloc(size);
}

void *realloc(void *block, size_t size) {
    return is_refused() ? NULL : __libc_realloc(block, size);
}
