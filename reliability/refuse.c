/* Refuses memory to the program that this is preloaded into (LD_PRELOAD). REFUSE_AT=N: call number N for memory, counted
   from 1, gets none; with REFUSE_FROM=1 all calls after it get none either. REFUSE_TELL=FD: at call N a byte is written to
   that file descriptor, so that it is known whether a run came so far. */
#include <errno.h>
#include <stddef.h>
#include <stdlib.h>
#include <unistd.h>

extern void *__libc_malloc(size_t size);
extern void *__libc_calloc(size_t count, size_t size);
extern void *__libc_realloc(void *block, size_t size);

static unsigned long calls, refused_call;
static int goes_on, told = -1;

static long number(const char *name) {
    const char *text = getenv(name);
    return text ? atol(text) : -1;
}

__attribute__((constructor)) static void begin(void) {
    long at = number("REFUSE_AT");
    goes_on = number("REFUSE_FROM") > 0;
    told = (int)number("REFUSE_TELL");
    calls = 0;
    refused_call = at > 0 ? (unsigned long)at : 0;
}

static int is_refused(void) {
    unsigned long call = __atomic_add_fetch(&calls, 1, __ATOMIC_SEQ_CST);
    if (!refused_call || call < refused_call || (call > refused_call && !goes_on))
        return 0;
    if (call == refused_call && told >= 0 && write(told, "x", 1) != 1)
        _exit(99);
    errno = ENOMEM;
    return 1;
}

void *malloc(size_t size) { return is_refused() ? NULL : __libc_malloc(size); }

void *calloc(size_t count, size_t size) { return is_refused() ? NULL : __libc_calloc(count, size); }

void *realloc(void *block, size_t size) { return is_refused() ? NULL : __libc_realloc(block, size); }
