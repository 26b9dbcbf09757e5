/* reached.c: which completion routines met an error, which cancel routines were called, and which dispatches there are: by the
   history and the drivers, at the end of a run. */
#include "test/own.h"

static void learn(const Asked *a)
{
    if (a->kind == ROUTINE && a->set->flags & SL_INVOKE_ON_ERROR)
        routine_was_called((const void *)a->set->fn, !NT_SUCCESS(a->status));
    if (a->kind == CANCELLING)
        cancel_routine_set(a->fn, true);
    else if (a->cancel)
        cancel_routine_set((const void *)a->cancel, false);
}

void learn_reached(void)
{
    for (size_t i = 0; i < n_history; i++) {
        if (history[i]->op == SET_CANCEL && history[i]->routine)
            cancel_routine_set((const void *)history[i]->routine, false);
        for (int k = 0; k < history[i]->n; k++)
            learn(&history[i]->asked[k]);
    }
    learn_dispatches();
}
