/* stack_blocks.c: what lies on the stack of a dispatch, or of a routine, that has returned: a packet's IoStatusBlock or event
   while the packet is in flight, and an event that somebody sets. What lies there then is another's: it is told, and not
   written to. */
#include "explore/explore.h"
#include "io/io.h"
#include "record/record.h"

enum { MOST = 256 };
typedef struct { Packet *p; uint64_t use; const Frame *status_of, *event_of; } Blocks;
static Blocks blocks[MOST];
static int n_blocks;
/* Events that a dispatch or routine initialized on its stack. `of` is NULL once that has returned. */
typedef struct { const void *event; const Frame *of; char whose[120]; } Local;
static Local locals[MOST];
static int n_locals, n_reused;
static pthread_mutex_t locals_lock = PTHREAD_MUTEX_INITIALIZER;

/* In the call of which frame of this thread the address lies on its stack, or NULL. */
const Frame *frame_around(const void *at)
{
    const Frame *f = self.frames;
    if ((const char *)at < (const char *)__builtin_frame_address(0))
        return NULL;
    while (f && (const char *)at > (const char *)f)
        f = f->up;
    return f;
}

static bool is_over(const Blocks *b) { return !lives(b->p) || b->p->use != b->use; }

/* A packet was built on this thread. */
void remember_blocks(Packet *p)
{
    const Blocks new = { p, p->use, frame_around(p->irp->UserIosb), frame_around(p->irp->UserEvent) };
    for (int i = 0; i < n_blocks; i++)
        if (is_over(&blocks[i]))
            blocks[i--] = blocks[--n_blocks];
    if ((new.status_of || new.event_of) && n_blocks < MOST)
        blocks[n_blocks++] = new;
}

static Local *local_at(const void *event)
{
    for (int i = 0; i < n_locals; i++)
        if (locals[i].event == event)
            return &locals[i];
    return NULL;
}

/* An event is initialized on this thread: what was there before is over. */
void remember_event(const void *event)
{
    pthread_mutex_lock(&locals_lock);
    const Frame *f = frame_around(event);
    Local *l = local_at(event);
    if (!l && f)
        l = &locals[n_locals < MOST ? n_locals++ : n_reused++ % MOST];
    if (l)
        *l = (Local){ .event = f ? event : NULL, .of = f };
    pthread_mutex_unlock(&locals_lock);
}

static void events_are_over(const Frame *f)
{
    pthread_mutex_lock(&locals_lock);
    for (int i = 0; i < n_locals; i++)
        if (locals[i].of == f) {
            touch(locals[i].event, WRITES);
            locals[i].of = NULL;
            snprintf(locals[i].whose, sizeof locals[i].whose, "%s", what_runs(f));
        }
    pthread_mutex_unlock(&locals_lock);
}

/* Whether the event lies where a dispatch or routine has returned, which is told. Under G. */
bool is_over_event(const void *event)
{
    pthread_mutex_lock(&locals_lock);
    const Local *l = local_at(event), found = l ? *l : (Local){ .of = self.frames };
    pthread_mutex_unlock(&locals_lock);
    if (!l || found.of)
        return false;
    touch(event, READS);
    fault("StackBlock", NULL, "the event lies on the stack of %s, which has returned; not written to", found.whose);
    return true;
}

/* The dispatch or routine of this frame has returned. */
void check_blocks(const Frame *f)
{
    events_are_over(f);
    stack_goes(f);
    for (int i = 0; i < n_blocks; i++) {
        const Blocks b = blocks[i];
        if (is_over(&b) || (b.status_of != f && b.event_of != f))
            continue;
        fault_at("StackBlock", b.p, "IoBuild", b.p->sites.allocated, "its %s lies on the stack of %s, which has returned "
                 "while the packet is in flight; not written to", b.status_of == f ? "IoStatusBlock" : "event",
                 what_runs(f));
        b.p->built.status_gone |= b.status_of == f;
        b.p->built.event_gone |= b.event_of == f;
    }
}
