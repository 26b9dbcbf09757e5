/*
 * choices.c: which choices are made at a decision: each that wasn't made yet.
 *
 * There are no sleep sets, since with a bound of preemptions they lose runs. They leave out T after U where T before U was
 * made, and the two change nothing in common. Both orders lead to the same state, but behind one U goes on for nothing
 * and T costs a preemption, and behind the other it is the other way round. So what is left out may end within the bound
 * where what was made doesn't. Instead each choice in a state counts as made with what was left of the bound behind it
 * (`claim`), and is made again only where more is left. What sleep sets would save besides is the run that finds no
 * choice left, and ends.
 */
#include "explore/snapshots.h"
#include "record/record.h"

bool is_exploring;
static int spent; /* preemptions and early timers of this run so far */

int cost_of_run(void) { return spent; }
void begin_at_cost(int cost) { spent = cost; }

/* Whether this choice in this state wasn't made yet with as much left of the bound. Then it counts as made. */
static bool claim(uint64_t state, int choice, int left)
{
    const uint64_t both = state + (uint64_t)choice * 0x9E3779B97F4A7C15u;
    return put_with_rest(&shared->states, both * 0xBF58476D1CE4E5B9u, left);
}

/* Notes a place where a thread is preempted, or could be. */
static void note_site(const Place *p, bool preempted)
{
    const uintptr_t key = p->pc ? (uintptr_t)p->pc : (uintptr_t)p->at.file;
    for (size_t i = (key * 31 + (unsigned)p->at.line) % MAX_SITES, n = 0; key && n < MAX_SITES; n++) {
        Site *s = &shared->sites[(i + n) % MAX_SITES];
        uintptr_t none = 0;
        if (atomic_compare_exchange_strong(&s->key, &none, key)) {
            s->line = (uint32_t)p->at.line;
            s->is_code = p->pc != NULL;
            s->what = p->what;
        }
        if (s->key == key && s->line == (uint32_t)p->at.line) {
            if (preempted)
                s->preempted = true;
            return;
        }
    }
}

/* Runs with one deviation are made in each part, whole; a run with more belongs to a part by its first two. */
static bool is_in_each_part(void) { return shared->parts && followed.n < 2; }

static bool is_in_part(uint32_t step, int choice)
{
    if (!shared->parts || followed.n != 1)
        return true;
    const uint64_t first = followed.at[0].step * MAX_THREADS + followed.at[0].choice;
    const uint64_t both = (first << 32 | (step * MAX_THREADS + (unsigned)choice)) * 0x9E3779B97F4A7C15u;
    return (int)((both >> 40) % (unsigned)shared->parts) == shared->part;
}

/* What a choice costs of the round's bound. */
static int cost_of(const Choices *c, int choice) { return shared->counts_all ? choice != c->usual : price_of(c, choice); }

static bool is_to_be_made(const Choices *c, uint32_t step, int choice, uint64_t state)
{
    const int cost = spent + cost_of(c, choice);
    if (cost > shared->bound) {
        shared->beyond++;
        return false;
    }
    if (!is_in_part(step, choice))
        return false;
    shared->begun += cost == shared->bound && cost > spent;
    return !shared->reduces || claim(state, choice, shared->bound - cost);
}

__attribute__((noreturn)) static void end_cut(void)
{
    shared->cut++;
    end_exploring_run();
    end_process(0);
}

static void count_choices(const Choices *c)
{
    for (int t = 0; t < MAX_THREADS; t++)
        if (t != c->usual && can_choose(c, t))
            ++*(price_of(c, t) ? &shared->priced_choices : &shared->free_choices);
}

/* The usual one last. Returns how many there are. */
static int choices_to_make(const Choices *c, uint32_t step, uint64_t state, ToMake *all)
{
    int n = 0;
    for (int t = 0; t < MAX_THREADS; t++)
        if (t != c->usual && can_choose(c, t) && is_to_be_made(c, step, t, state))
            all[n++] = (ToMake){ (uint8_t)t, (uint8_t)(spent + cost_of(c, t)) };
    if (!shared->reduces || is_in_each_part() || claim(state, c->usual, shared->bound - spent))
        all[n++] = (ToMake){ (uint8_t)c->usual, (uint8_t)spent };
    else if (n)
        shared->cut++;
    return n;
}

/* Makes each choice. Returns the one that this process goes on with, or a new one, or this one again. */
int explore_choices(const Choices *c, uint32_t step)
{
    const uint64_t state = shared->reduces ? state_of_run() : 0;
    ToMake all[MAX_THREADS];
    if (shared->only_first) {
        count_choices(c);
        return c->usual;
    }
    if (shared->order != GOES_ON)
        end_cut();
    const int n = choices_to_make(c, step, state, all);
    if (!n)
        end_cut();
    const int made = !by_snapshots ? fork_for_each(all, n, c->usual, step) : n > 1 ? make_each(all, n) : 0;
    const ToMake it = all[made];
    if (by_snapshots)
        share_out();
    spent = it.cost;
    note_site(c->place, it.choice != c->usual && c->may_stay);
    return it.choice;
}
