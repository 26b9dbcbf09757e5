/* coroutines.c: a stack for each thread that goes by a schedule, and how one thread goes on in place of another. */
#include "explore/schedule.h"
#include "record/record.h"
#include <sys/mman.h>

enum { STACK = 256 * 1024 };
static const uintptr_t STACKS = 0x210000000000; /* the same in each run: what lies on a stack counts by its address */
static char *stacks[MAX_THREADS];
static uintptr_t main_low, main_high;

/* With a page below it that nobody may touch. */
static char *stack_of(int n)
{
    if (stacks[n])
        return stacks[n];
    stacks[n] = mmap((char *)STACKS + (size_t)n * STACK, STACK, PROT_READ | PROT_WRITE,
                     MAP_PRIVATE | MAP_ANONYMOUS | MAP_NORESERVE, -1, 0);
    if (stacks[n] == MAP_FAILED || mprotect(stacks[n], PAGE, PROT_NONE))
        give_up("out of memory");
    return stacks[n];
}

void map_stacks(void)
{
    for (int n = 1; n < MAX_THREADS; n++)
        stack_of(n);
}

/* What a run may use of the main thread's stack, from here on: what is above depends on the environment. */
void note_main_stack(void)
{
    enum { ROOM = 1 << 20 };
    IoGetStackLimits(&main_low, &main_high);
    main_low = (uintptr_t)__builtin_frame_address(0) - ROOM;
}

/* The same in each run, however snapshots have cut the mappings. */
void stack_by_schedule(int n, uintptr_t *low, uintptr_t *high)
{
    *low = n ? (uintptr_t)stack_of(n) + PAGE : main_low;
    *high = n ? (uintptr_t)stack_of(n) + STACK : main_high;
}

#if defined(__x86_64__)
/* Without the system calls that swapcontext makes: these write to pages that may be closed (tracking.c). */
static void *stopped_at[MAX_THREADS]; /* stack pointers */
void switch_stacks(void **from, void *to);
__asm__(".text\n"
        ".globl switch_stacks\n"
        ".type switch_stacks,@function\n"
        "switch_stacks:\n"
        "push %rbp\n"
        "push %rbx\n"
        "push %r12\n"
        "push %r13\n"
        "push %r14\n"
        "push %r15\n"
        "sub $8,%rsp\n"
        "stmxcsr (%rsp)\n"
        "fnstcw 4(%rsp)\n"
        "mov %rsp,(%rdi)\n"
        "mov %rsi,%rsp\n"
        "ldmxcsr (%rsp)\n"
        "fldcw 4(%rsp)\n"
        "add $8,%rsp\n"
        "pop %r15\n"
        "pop %r14\n"
        "pop %r13\n"
        "pop %r12\n"
        "pop %rbx\n"
        "pop %rbp\n"
        "ret\n"
        ".size switch_stacks,.-switch_stacks\n");

void make_coroutine(int n, void (*begin)(void))
{
    enum { SAVED = 6 };
    const uintptr_t usual_modes = (uintptr_t)0x037F << 32 | 0x1F80; /* of both units for numbers with a fraction */
    uintptr_t *top = (uintptr_t *)(stack_of(n) + STACK) - 1;
    *top = 0; /* nobody has called it */
    *--top = (uintptr_t)begin;
    for (int i = 0; i < SAVED; i++)
        *--top = 0;
    *--top = usual_modes;
    stopped_at[n] = top;
}

void switch_coroutines(int from, int to) { switch_stacks(&stopped_at[from], stopped_at[to]); }
#else
#include <ucontext.h>
static ucontext_t contexts[MAX_THREADS];

void make_coroutine(int n, void (*begin)(void))
{
    getcontext(&contexts[n]);
    contexts[n].uc_stack.ss_sp = stack_of(n);
    contexts[n].uc_stack.ss_size = STACK;
    makecontext(&contexts[n], begin, 0);
}

void switch_coroutines(int from, int to) { swapcontext(&contexts[from], &contexts[to]); }
#endif
