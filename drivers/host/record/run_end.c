/* run_end.c: the end of a run: its transcript, its summary for `run`, and the ways in which it can't go on. */
#include "record/record.h"
#include "explore/explore.h"
#include "mm/mm.h"
#include "rules/rules.h"
#include "test/test.h"
#include <errno.h>

static const char *stopped_by; /* why the run couldn't go on */

/* What `run` reads: one key and value a line. */
static void write_summary(size_t entries)
{
    const char *path = options.summary;
    FILE *f = path ? open_high(path) : NULL;
    if (!f)
        return;
    fprintf(f, "entries %zu\nwanted %zu\nfaults %d\nnotes %d\n", entries, expected_entries(), n_faults, n_notes);
    if (stopped_by)
        fprintf(f, "stopped %s\n", stopped_by);
    if (limit_reached())
        fprintf(f, "limit %s\n", limit_reached());
    fprintf(f, "allocations %d\nattached %d\n%s", n_allocations, count_attached(),
            memory_was_refused() || was_cancelled_there() || options.pend ? "disturbed 1\n" : "");
    write_cancel_places(f);
    write_allocations(f);
    tell_expected(f);
    write_covered(f);
    fclose(f);
}

/* The transcript goes to WDM_TRANSCRIPT, or else to standard output. Returns how many entries it has. Under G. */
size_t write_out(void)
{
    const char *path = options.transcript;
    size_t n;
    if (!wants_transcript())
        return expected_entries();
    FILE *out = is_exploring ? NULL : path ? open_high(path) : stdout;
    if (!out && !is_exploring) {
        say("%s: %s", path, strerror(errno));
        end_process(5);
    }
    tell_all_touches();
    tell_block_touches();
    check_pool();
    tell_refused();
    tell_cancelled_there();
    tell_repeats();
    learn_reached();
    const uint64_t hash = hash_transcript(&n);
    if (out)
        write_transcript(out);
    if (n < n_history)
        say("the transcript ends before entry %zu, a send that hasn't returned; %zu entries more aren't in it", n,
            n_history - n - 1);
    if (out == stdout)
        fflush(out);
    else if (out)
        fclose(out);
    if (path && out)
        write_places(path, n);
    hand_in(hash, n);
    write_summary(n);
    say("%zu entr%s, %d fault%s%s, %d note%s", n, n == 1 ? "y" : "ies", n_faults, n_faults == 1 ? "" : "s",
        stopped_by ? " (one of them that it stopped)" : "", n_notes, n_notes == 1 ? "" : "s");
    if (n_early)
        say("recorded before the dispatch returned, since another thread had the packet: %d", n_early);
    return n;
}

/* The run can't go on: what the threads are in and which packets are in flight is told, what was recorded is written,
   and the process ends. Under G, which is never given back. */
void stop_run(const char *why)
{
    stopped_by = why;
    note_fault(why);
    tell_others();
    tell_locks_held();
    tell_packets();
    write_out();
    end_run(3);
}

/* The host gives up, at this call. */
void give_up(const char *why)
{
    const bool has_place = self.calls && self.calls->at.file;
    begin_last_words();
    n_faults++;
    say("STOPPED: %s%s%s%s", why, has_place ? ", at " : "", has_place ? place(self.calls->at) : "",
        has_place ? callers_of(self.calls) : "");
    stop_run(why);
}
