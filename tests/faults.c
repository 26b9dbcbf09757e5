// A library that is loaded before the program (LD_PRELOAD), and has one thing go wrong in it.
//
// It stops the program before its `main`, and takes orders from the open file 4, each a row of settings. For each it
// starts a copy of the process (fork), which does as the settings say and goes on to `main`, and answers the copy's
// wait status. So a run costs no new loading of the program. The open file 3 gets one byte for each thing that went
// wrong.
//
// With NO_MEMORY defined at its compilation it leaves memory alone, as a program that watches its memory itself wants.
#define _GNU_SOURCE
#include <dlfcn.h>
#include <errno.h>
#include <malloc.h>
#include <pthread.h>
#include <stdlib.h>
#include <string.h>
#include <sys/syscall.h>
#include <sys/types.h>
#include <sys/wait.h>
#include <unistd.h>

enum { MARKS = 3, ORDERS = 4, MOST_SECONDS = 60, MOST_SPARE = 40 };

// The settings; a number below 0 stands for none. runs.py has them in this order.
static struct {
    long refuse;         // refuses the growth of memory of this number, from 1: a new piece, or one that gets longer
    long refuse_behind;  // 1: and all behind it
    long read_ends;      // reads of standard input give so many bytes in all; then each fails
    long read_error;     // by this error of the system
    long read_once;      // 1: one read fails, and those behind it give the rest
    long write_ends;     // writes to standard output take so many bytes in all; then each fails
    long write_error;    // by this error of the system; 0: each takes nothing
    long piece;          // each such read or write moves at most so many bytes
    long refuse_threads; // 1: no thread is made
    long refuse_shrinks; // 1: no piece of memory gets shorter
} set = {-1, -1, -1, -1, -1, -1, -1, -1, -1, -1};

typedef int creator(pthread_t *, const pthread_attr_t *, void *(*)(void *), void *);
static creator *create_thread;

__attribute__((constructor)) static void take_orders(void) {
    create_thread = (creator *)dlsym(RTLD_NEXT, "pthread_create");
    typeof(set) order;
    while (syscall(SYS_read, ORDERS, &order, sizeof order) == sizeof order) {
        pid_t copy = fork();
        if (copy == 0) {
            set = order;
            close(ORDERS);
            alarm(MOST_SECONDS);
            return;
        }
        int status = -1;
        if (copy < 0 || waitpid(copy, &status, 0) != copy || write(ORDERS, &status, sizeof status) < 0) {
            _exit(1);
        }
    }
    _exit(0);
}

static void mark(void) { syscall(SYS_write, MARKS, "!", 1); }

// How many of these bytes one call moves at most, where so many are left until it fails.
static size_t least(size_t bytes, long left) {
    if (left >= 0 && bytes > (size_t)left) {
        bytes = (size_t)left;
    }
    return set.piece > 0 && bytes > (size_t)set.piece ? (size_t)set.piece : bytes;
}

ssize_t read(int file, void *buffer, size_t bytes) {
    static long given;
    if (file != STDIN_FILENO) {
        return syscall(SYS_read, file, buffer, bytes);
    }
    if (set.read_ends >= 0 && given == set.read_ends && bytes > 0) {
        if (set.read_once > 0) {
            set.read_ends = -1;
        }
        mark();
        errno = (int)set.read_error;
        return -1;
    }
    ssize_t moved = syscall(SYS_read, file, buffer, least(bytes, set.read_ends < 0 ? -1 : set.read_ends - given));
    given += moved > 0 ? moved : 0;
    return moved;
}

ssize_t write(int file, const void *buffer, size_t bytes) {
    static long taken;
    if (file != STDOUT_FILENO) {
        return syscall(SYS_write, file, buffer, bytes);
    }
    if (set.write_ends >= 0 && taken == set.write_ends && bytes > 0) {
        mark();
        errno = (int)set.write_error;
        return set.write_error == 0 ? 0 : -1;
    }
    ssize_t moved = syscall(SYS_write, file, buffer, least(bytes, set.write_ends < 0 ? -1 : set.write_ends - taken));
    taken += moved > 0 ? moved : 0;
    return moved;
}

int pthread_create(pthread_t *thread, const pthread_attr_t *kind, void *(*work)(void *), void *given) {
    if (set.refuse_threads > 0) {
        mark();
        return EAGAIN;
    }
    return create_thread(thread, kind, work, given);
}

#ifndef NO_MEMORY
extern void *__libc_malloc(size_t size);
extern void *__libc_realloc(void *old, size_t size);
extern void *__libc_calloc(size_t count, size_t size);

// Counts a growth of memory, and answers whether it is refused.
static int is_refused(void) {
    static long growths;
    if (set.refuse < 0) {
        return 0;
    }
    long number = __atomic_add_fetch(&growths, 1, __ATOMIC_SEQ_CST);
    if (number < set.refuse || (number > set.refuse && set.refuse_behind <= 0)) {
        return 0;
    }
    mark();
    errno = ENOMEM;
    return 1;
}

void *malloc(size_t size) { return is_refused() ? NULL : __libc_malloc(size); }

// Whether a piece gets shorter. The C library gives a little more than is asked for, so who asks for nearly all of what
// is there may ask for more than before.
static int is_shrink(void *old, size_t size) {
    return old != NULL && size + MOST_SPARE < malloc_usable_size(old);
}

void *realloc(void *old, size_t size) {
    int shrinks = is_shrink(old, size);
    if (shrinks && set.refuse_shrinks > 0) {
        mark();
        errno = ENOMEM;
        return NULL;
    }
    return !shrinks && is_refused() ? NULL : __libc_realloc(old, size);
}

void *calloc(size_t count, size_t size) { return is_refused() ? NULL : __libc_calloc(count, size); }
#endif
