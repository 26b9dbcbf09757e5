/* outcomes.c: how a run by a schedule ended: its class, its transcript, its outcome by packet, and why it fails. */
#include "explore/exploration.h"
#include "io/io.h"
#include "record/record.h"
#include <fcntl.h>
#include <unistd.h>

static char first_fault[600];
static bool is_finished, is_short;

void note_fault(const char *text)
{
    remember_fault();
    if (!first_fault[0])
        snprintf(first_fault, sizeof first_fault, "%s", text);
}

/* The first failure is kept, and ends the exploration, unless all of them are wanted. */
void note_failure(const Schedule *s, int cost, const char *why)
{
    int none = 0;
    shared->n_failed++;
    if (!atomic_compare_exchange_strong(&shared->has_failed, &none, 1))
        return;
    shared->failed = *s;
    shared->cost = cost;
    snprintf(shared->why, sizeof shared->why, "%s", why);
    if (!shared->goes_on)
        shared->order = TO_STOP;
}

static uint64_t hash_of(const char *text, size_t length)
{
    uint64_t h = 0xcbf29ce484222325u;
    for (size_t i = 0; i < length; i++)
        h = (h ^ (unsigned char)text[i]) * 0x100000001b3u;
    return h;
}

/* A transcript that no run had before goes behind the others: a line with its schedule, its own lines, and an empty one. */
static void keep_transcript(uint64_t hash)
{
    const char *path = options.orders;
    char *text = NULL;
    size_t length = 0;
    if (!path || !put_in(&shared->transcripts, hash))
        return;
    FILE *all = open_memstream(&text, &length);
    if (!all) {
        perror(path);
        return;
    }
    fprintf(all, "%s\n", schedule_text(&followed));
    write_transcript(all);
    fputs("\n", all);
    fclose(all);
    const int f = open(path, O_WRONLY | O_CREAT | O_APPEND, 0644);
    if (f < 0 || write(f, text, length) != (ssize_t)length) /* all at once, so that no other process's comes between */
        perror(path);
    close(f);
    free(text);
}

/* Packets by the thread that allocated them, and in which order. */
static int by_name(const void *a, const void *b)
{
    const Packet *p = *(Packet *const *)a, *q = *(Packet *const *)b;
    return p->name < q->name ? -1 : p->name > q->name;
}

static size_t put_packet(char *text, size_t room, const Packet *p)
{
    if (p->stands_in.of)
        return 0;
    return (size_t)snprintf(text, room, "%s %#x%s%s; ", p->sites.sent.file ? major_name(p->major) : "never sent",
                            p->status, p->cancel ? ", with Irp->Cancel set" : "",
                            lives(p) && p->owner >= 0 ? " not completed" : "");
}

/* What each packet ended with. */
static void put_outcome(char *text, size_t room)
{
    static Packet *sorted[MAX_PACKETS];
    size_t n = 0;
    text[0] = 0;
    memcpy(sorted, packets, (size_t)n_packets * sizeof *sorted);
    qsort(sorted, (size_t)n_packets, sizeof *sorted, by_name);
    for (int i = 0; i < n_packets && n + 1 < room; i++)
        n += put_packet(text + n, room - n, sorted[i]);
}

static void count_outcome(void)
{
    char text[4000];
    put_outcome(text, sizeof text);
    const uint64_t hash = hash_of(text, strlen(text)) | 1;
    for (size_t i = hash % MAX_OUTCOMES, n = 0; n < MAX_OUTCOMES; n++, i = (i + 1) % MAX_OUTCOMES) {
        Outcome *o = &shared->outcomes[i];
        uint64_t none = 0;
        if (atomic_compare_exchange_strong(&shared->outcome_hashes[i], &none, hash))
            snprintf(o->text, sizeof o->text, "%.*s", (int)sizeof o->text - 1, text);
        if (shared->outcome_hashes[i] == hash) {
            o->classes++;
            return;
        }
    }
}

/* Whether this run's class is a new one. Else it ends as another one did. */
bool wants_transcript(void)
{
    const bool wants = !is_exploring || !footprints || put_in(&shared->classes, state_of_run());
    is_finished = true;
    return wants;
}

/* The transcript of a run that isn't as another one. */
void hand_in(uint64_t hash, size_t entries)
{
    if (is_exploring && entries < expected_entries())
        is_short = true;
    if (!is_exploring || (!footprints && !put_in(&shared->classes, hash)))
        return;
    shared->n_classes++;
    count_outcome();
    keep_transcript(hash);
}

/* Returns why the run fails, or NULL. */
static const char *failure(int status)
{
    static char text[700];
    if (first_fault[0])
        return first_fault;
    if (limit_reached())
        return NULL;
    if (!is_finished)
        snprintf(text, sizeof text, "no transcript, and exit status %d", status);
    else if (is_short)
        snprintf(text, sizeof text, "fewer entries than the test expects");
    else if (status)
        snprintf(text, sizeof text, "exit status %d", status);
    else
        return NULL;
    return text;
}

static void raise_to(_Atomic unsigned long *most, unsigned long n)
{
    unsigned long was = *most;
    while (was < n && !atomic_compare_exchange_weak(most, &was, n))
        ;
}

static void note_limit(void)
{
    if (limit_reached() && !shared->n_limited++)
        snprintf(shared->limit, sizeof shared->limit, "%s", limit_reached());
}

/* Ends a process, where orders are explored or a schedule is followed. */
void end_run(int status)
{
    fflush(NULL);
    alarm(0); /* this process may have to wait for others */
    if (!shared)
        end_process(status);
    const char *why = failure(status);
    if (is_exploring) {
        shared->runs++;
        note_limit();
        raise_to(&shared->most_decisions, (unsigned long)n_decisions);
        raise_to(&shared->most_points, (unsigned long)points_of_run());
        if (why)
            note_failure(&followed, cost_of_run(), why);
        if (why && shared->goes_on) /* as another class than where nothing fails */
            put_in(&shared->classes, state_of_run() ^ hash_of(why, strcspn(why, ":")));
        end_exploring_run();
    } else {
        if (schedule_misfits())
            say("STOPPED: the schedule doesn't fit this program");
        tell_story(stderr);
        fflush(NULL);
    }
    end_process(status);
}
