/* limits.c: what the host does no more in a run. That is no fault of a driver's, and `run` tells it as what it is. */
#include "record/record.h"
#include "explore/explore.h"

enum { USUAL_POINTS = 3000000 };
static const char *reached;

const char *limit_reached(void) { return reached; }

/* What was recorded so far is written and judged. Each limit says what to do about it. */
void reach_limit(const char *what)
{
    static char text[300];
    begin_last_words();
    snprintf(text, sizeof text, "%s%s", what, strchr(what, ':') ? "" : ": let its test do less in one run");
    reached = text;
    say("NOT TRIED FURTHER: %s", text);
    write_out();
    end_run(3);
}

ULONG devices_left(void) { return (ULONG)(MAX_DEVICES - n_devices); }

int most_points(void)
{
    return options.points > 0 ? options.points : USUAL_POINTS;
}
