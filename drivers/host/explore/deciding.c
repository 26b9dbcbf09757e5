/* deciding.c: which choice is made: as a schedule says, by chance, or each of them (choices.c). */
#include "explore/exploration.h"
#include "record/record.h"

Schedule followed;
int n_decisions;
static Schedule given; /* what this run has to do otherwise than usual */
static int n_met;      /* how much of that it has done */
static bool by_chance, misfits;
static uint64_t chance;

int price_of(const Choices *c, int choice) { return choice != c->usual && (c->may_stay || is_early(c, choice)); }
void give_schedule(const Schedule *s) { given = *s; }
bool schedule_misfits(void) { return misfits || n_met < given.n; }

bool goes_by_chance(void) { return by_chance; }

void go_by_chance(uint64_t seed)
{
    by_chance = true;
    chance = seed * 0x9E3779B97F4A7C15u + 1;
}

static void deviate(uint32_t step, int choice)
{
    if (by_chance) /* whose seed says it all */
        return;
    if (followed.n == MAX_DEVIATIONS)
        reach_limit("a schedule has 4,096 choices that aren't the usual ones: make its test smaller");
    followed.at[followed.n++] = (Deviation){ step, (uint8_t)choice };
}

static unsigned by_dice(unsigned sides)
{
    chance ^= chance << 13;
    chance ^= chance >> 7;
    chance ^= chance << 17;
    return (unsigned)(chance >> 33) % sides;
}

/* One time in four it is another thread, one time in sixty-four the next timer. */
static int choose_by_chance(const Choices *c)
{
    const uint32_t others = c->ready & ~(1u << c->usual);
    if (c->by_time != NOBODY && !by_dice(64))
        return c->by_time;
    if (!others || by_dice(4))
        return c->usual;
    for (unsigned t = 0, n = by_dice((unsigned)__builtin_popcount(others));; t++)
        if ((others >> t & 1) && !n--)
            return (int)t;
}

/* What the schedule says here, or else the usual choice. */
static int choose_given(const Choices *c, uint32_t step)
{
    if (given.at[n_met].step != step)
        return c->usual;
    const int choice = given.at[n_met++].choice;
    misfits |= choice == c->usual || !can_choose(c, choice);
    return misfits ? c->usual : choice;
}

int decide(const Choices *c)
{
    const uint32_t step = (uint32_t)n_decisions++;
    int chosen = c->usual;
    if (n_met < given.n)
        chosen = choose_given(c, step);
    else if (by_chance)
        chosen = choose_by_chance(c);
    else if (is_exploring)
        chosen = explore_choices(c, step);
    if (chosen != c->usual)
        deviate(step, chosen);
    return chosen;
}
