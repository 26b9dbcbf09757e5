// A library that is loaded before a program (LD_PRELOAD), and refuses one of its requests for memory.
//
// REFUSE=N refuses the request of number N, from 1, and no other, and then makes the empty file that REFUSED names.
#include <errno.h>
#include <fcntl.h>
#include <stdlib.h>
#include <unistd.h>

extern void *__libc_malloc(size_t size);
extern void *__libc_realloc(void *old, size_t size);
extern void *__libc_calloc(size_t count, size_t size);

static unsigned long requests;

// Counts a request for memory, and answers whether it is the one to be refused.
static int is_refused(void) {
    const char *number = getenv("REFUSE");
    if (number == NULL || __atomic_add_fetch(&requests, 1, __ATOMIC_SEQ_CST) != strtoul(number, NULL, 10)) {
        return 0;
    }
    const char *told = getenv("REFUSED");
    if (told != NULL) {
        close(open(told, O_CREAT | O_WRONLY, 0600));
    }
    errno = ENOMEM;
    return 1;
}

void *malloc(size_t size) { return is_refused() ? NULL : __libc_malloc(size); }

void *realloc(void *old, size_t size) { return is_refused() ? NULL : __libc_realloc(old, size); }

void *calloc(size_t count, size_t size) { return is_refused() ? NULL : __libc_calloc(count, size); }
