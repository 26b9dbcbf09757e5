/*
 * cancel_at.c: a request of the test is cancelled at a call of a driver. Requests are numbered as they are sent, and for
 * each the calls that drivers make while it is on its way. WDM_CANCEL=K@N cancels the K-th request just before its N-th
 * call, from another thread, which is through or waits before the call goes on. WDM_CANCEL=count lists all of them in the
 * summary.
 */
#include "explore/explore.h"
#include "io/io.h"
#include "ke/ke.h"
#include "record/record.h"
#include <unistd.h>

enum { MAX_REQUESTS = 512, MAX_PLACES = 8192, MOMENT = 100, MOST_MOMENTS = 500 }; /* MOMENT: microseconds */
typedef struct { Packet *p; uint64_t use; int calls; UCHAR major; } Sent;
typedef struct { int request, call; UCHAR major; WDM_SITE at; const char *name; } CancelPlace;

static Sent requests[MAX_REQUESTS];
static CancelPlace *places;
static int n_requests, n_places, wanted_request, wanted_call;
static bool counts;
static struct { Packet *p; uint64_t use; WDM_SITE at; const char *name; _Atomic bool is_over; } cancelling;
static _Thread_local bool cancels;

static void read_wish(void)
{
    const char *wish = options.cancel;
    counts = wish && !strcmp(wish, "count");
    places = counts ? calloc(MAX_PLACES, sizeof *places) : NULL;
    if (wish && !counts && sscanf(wish, "%d@%d", &wanted_request, &wanted_call) != 2)
        wanted_request = 0;
}

static bool is_wished(void)
{
    static pthread_once_t once = PTHREAD_ONCE_INIT;
    pthread_once(&once, read_wish);
    return (places || wanted_request) && !by_schedule;
}

/* The I/O manager cancels no request of these kinds. */
static bool is_cancelled_never(UCHAR major)
{
    return major == IRP_MJ_PNP || major == IRP_MJ_POWER || major == IRP_MJ_SYSTEM_CONTROL || major == IRP_MJ_CLEANUP ||
        major == IRP_MJ_CLOSE;
}

/* Under G: the originator of a packet sends it. One of a driver's own is no request of the test. */
void request_sent(Packet *p)
{
    if (!is_wished() || p->allocator != NOBODY || p->current <= p->size || n_requests == MAX_REQUESTS)
        return;
    const UCHAR major = raw_at(p, p->current - 1)->MajorFunction;
    if (!is_cancelled_never(major))
        requests[n_requests++] = (Sent){ .p = p, .use = p->use, .major = major };
}

static bool is_on_its_way(const Sent *r) { return lives(r->p) && r->p->use == r->use && r->p->current <= r->p->size; }

static void *run_cancel(void *context)
{
    Call c;
    (void)context;
    cancels = true;
    enter_quietly(&c, "a cancel of the test's", (WDM_SITE){ 0 });
    leave_host();
    cancel_if_alive(cancelling.p, cancelling.use, (WDM_SITE){ 0 });
    cancelling.is_over = true;
    return NULL;
}

/* A thread has to wait: the one that cancels is as far as it comes. */
void waits_now(void)
{
    if (cancels)
        cancelling.is_over = true;
}

/* Counts the call for each request that is on its way. Returns whether the one that is wanted is to be cancelled. */
static bool is_the_place(const char *name, WDM_SITE at)
{
    bool found = false;
    pthread_mutex_lock(&host_lock);
    for (int i = 0; i < n_requests; i++) {
        Sent *r = &requests[i];
        if (!is_on_its_way(r))
            continue;
        r->calls++;
        if (counts && n_places < MAX_PLACES)
            places[n_places++] = (CancelPlace){ i + 1, r->calls, r->major, at, name };
        if (i + 1 == wanted_request && r->calls == wanted_call && !cancelling.p) {
            cancelling.p = r->p;
            cancelling.use = r->use;
            cancelling.at = at;
            cancelling.name = name;
            found = true;
        }
    }
    pthread_mutex_unlock(&host_lock);
    return found;
}

/* Before a call of a driver. */
void cancel_at(const char *name, WDM_SITE at)
{
    if (!is_wished() || is_hosts_file(at.file) || (!self.frames && !self.is_driver) || !is_the_place(name, at) ||
        start_thread(run_cancel, NULL, "cancel", NULL, NULL))
        return;
    for (int i = 0; i < MOST_MOMENTS && !cancelling.is_over; i++)
        usleep(MOMENT);
}

bool was_cancelled_there(void) { return cancelling.p != NULL; }

/* For the end of a run. */
void tell_cancelled_there(void)
{
    if (cancelling.p)
        say("the request was cancelled at %s in %s, before %s", place(cancelling.at),
            cancelling.at.function ? cancelling.at.function : "?", cancelling.name);
}

/* For the plan of runs. */
void write_cancel_places(FILE *out)
{
    for (int i = 0; i < n_places; i++)
        fprintf(out, "cancel %d@%d %s %s %s\n", places[i].request, places[i].call, major_name(places[i].major),
                place(places[i].at), places[i].name);
}
