/* lines.h: the lines of a transcript, as docs/FORMATS.md says of form 2: what the host and the recorder write alike. It
   needs no library. Each of both fills in what a line says, and takes the pieces of its text. */
#ifndef IRPX_LINES_H
#define IRPX_LINES_H

#include "names.h"

/* A setting of a completion routine. */
typedef struct { int is_set; IrpxRule rule; int routine; uint64_t context; unsigned flags; } IrpxLineSetting;

enum { IRPX_NONE = -1 }; /* in place of a routine's number, or of a device */
typedef struct {
    IrpxKind kind;
    IrpxPlan plan;
    int dispatch, cancel; /* their numbers; cancel: of the routine that is asked, or that a hold sets */
    IrpxLineSetting set;  /* of a plan; or the routine that is asked */
    int mark, replaced;
    uint64_t new_status, new_information;
    unsigned slot;        /* from here on what it was shown */
    uint64_t use;
    int device, major, location, returned, cancelled, has_lower;
    uint64_t word, status, information, context;
} IrpxLineAsked;

typedef struct {
    IrpxOp op;
    int by, cancel, device, other; /* other: the driver, the device that is attached to, the target, the size */
    int drained, major;
    unsigned slot;
    uint64_t use, word, information, status;
    IrpxLineSetting set;
} IrpxLineCall;

typedef struct {
    IrpxReply kind;
    unsigned slot;
    uint64_t answer;       /* a device, a status, a use, whether it was cancelled */
    int cancel;            /* the previous cancel routine, or the one that is seen */
    const char *refused;
    int owner, current, is_cancelled, returned, marked; /* what a look sees, and the next two */
    uint64_t status, information;
} IrpxLineReply;

typedef struct {
    int n_cancels, n_dispatches, n_drivers, n_majors, n_devices, n_seats;
    const int *n_routines; /* of each rule */
    const unsigned char *finishes, *leaves; /* of each cancel routine */
    int (*dispatch)(int driver, int major); /* its number, or IRPX_NONE */
} IrpxLineHeader;

static const char *const irpx_ops[] = { "create_device", "attach", "detach", "delete", "allocate", "free", "reuse",
    "set_next", "copy_to_next", "skip", "set_routine", "mark_pending", "call_driver", "complete", "set_cancel_routine",
    "cancel", "look" };
static const char *const irpx_rules[] = { "watch", "change", "keeper", "keep_on_error", "free" };

/* A text, and a number behind it. */
static void line_number(IrpxLines *t, const char *text, uint64_t value)
{
    t->text(t, text);
    t->number(t, value);
}

static void line_truth(IrpxLines *t, const char *text, int is_true)
{
    t->text(t, text);
    t->text(t, is_true ? "true" : "false");
}

static void line_irp(IrpxLines *t, const char *text, unsigned slot, uint64_t use)
{
    t->text(t, text);
    t->irp(t, slot, use);
}

static void line_party(IrpxLines *t, const char *text, int by)
{
    t->text(t, text);
    if (by < 0)
        t->text(t, by == IRPX_ENDED ? "'ended'" : "'o'");
    else
        t->number(t, (uint64_t)by);
}

static void line_or_null(IrpxLines *t, const char *text, int number)
{
    t->text(t, text);
    if (number < 0)
        t->text(t, "null");
    else
        t->number(t, (uint64_t)number);
}

static void line_routine(IrpxLines *t, const char *text, const IrpxLineSetting *s)
{
    t->text(t, text);
    t->text(t, irpx_rules[s->rule]);
    line_number(t, "',", (uint64_t)s->routine);
}

static void line_setting(IrpxLines *t, const IrpxLineSetting *s)
{
    if (!s->is_set) {
        t->text(t, "null");
        return;
    }
    line_routine(t, "['", s);
    line_number(t, ",", s->context);
    t->text(t, s->flags & SL_INVOKE_ON_SUCCESS ? ",'s" : ",'");
    t->text(t, s->flags & SL_INVOKE_ON_ERROR ? "e" : "");
    t->text(t, s->flags & SL_INVOKE_ON_CANCEL ? "c']" : "']");
}

static void line_plan(IrpxLines *t, const IrpxLineAsked *a)
{
    line_number(t, "{'dispatch':", (uint64_t)a->dispatch);
    if (a->plan == IRPX_FINISH) {
        line_number(t, ",'plan':['finish',", a->new_status);
        line_number(t, ",", a->new_information);
    } else if (a->plan == IRPX_SKIPS)
        t->text(t, ",'plan':['skip'");
    else if (a->plan == IRPX_FORWARD || a->plan == IRPX_FORWARD_PEND) {
        t->text(t, a->plan == IRPX_FORWARD ? ",'plan':['forward'," : ",'plan':['forward_pend',");
        line_setting(t, &a->set);
    } else
        line_or_null(t, ",'plan':['hold',", a->cancel);
    t->text(t, "]");
}

static void line_answer(IrpxLines *t, const IrpxLineAsked *a)
{
    if (a->kind == IRPX_CANCELLING) {
        if (a->plan == IRPX_FINISH)
            line_number(t, "{'answer':['finish',", a->new_information);
        else
            t->text(t, "{'answer':['leave'");
        line_or_null(t, "],'cancel':", a->cancel);
        return;
    }
    line_truth(t, a->plan == IRPX_KEEP ? "{'answer':['keep'," : "{'answer':['continue',", a->mark);
    if (a->replaced) {
        line_number(t, ",[", a->new_status);
        line_number(t, ",", a->new_information);
        line_routine(t, "]],'completion':['", &a->set);
    } else
        line_routine(t, ",null],'completion':['", &a->set);
    t->text(t, "]");
}

static void line_asked(IrpxLines *t, const IrpxLineAsked *a)
{
    if (a->kind == IRPX_DISPATCH)
        line_plan(t, a);
    else
        line_answer(t, a);
    line_or_null(t, ",'shown':[", a->device);
    line_irp(t, ",", a->slot, a->use);
    line_number(t, ",", (uint64_t)a->major);
    line_number(t, ",", (uint64_t)a->location);
    line_number(t, ",", a->word);
    line_number(t, ",", a->status);
    line_number(t, ",", a->information);
    line_truth(t, ",", a->returned);
    line_truth(t, ",", a->cancelled);
    line_number(t, ",", a->context);
    line_truth(t, ",", a->has_lower);
    t->text(t, "]}");
}

/* The keys of calls on devices, in byte order. */
static void line_device_call(IrpxLines *t, const IrpxLineCall *c)
{
    if (c->op == IRPX_ATTACH || c->op == IRPX_DELETE) {
        line_number(t, "'device':", (uint64_t)c->device);
        t->text(t, ",");
    }
    t->text(t, "'do':'");
    t->text(t, irpx_ops[c->op]);
    if (c->op == IRPX_CREATE)
        line_number(t, "','driver':", (uint64_t)c->other);
    else if (c->op == IRPX_DELETE)
        line_truth(t, "','drained':", c->drained);
    if (c->op == IRPX_ATTACH)
        line_number(t, "','to':", (uint64_t)c->other);
    else
        line_number(t, c->op == IRPX_DETACH ? "','lower':" : ",'lock':", (uint64_t)c->device);
}

/* The keys of calls on packets, in byte order. */
static void line_packet_call(IrpxLines *t, const IrpxLineCall *c)
{
    if (c->op >= IRPX_SET_NEXT && c->op <= IRPX_SET_CANCEL) {
        line_party(t, "'by':", c->by);
        t->text(t, ",");
    }
    if (c->op == IRPX_SET_CANCEL) {
        line_or_null(t, "'cancel':", c->cancel);
        t->text(t, ",");
    }
    t->text(t, "'do':'");
    t->text(t, irpx_ops[c->op]);
    if (c->op == IRPX_ALLOCATE) {
        line_number(t, "','size':", (uint64_t)c->other);
        return;
    }
    if (c->op == IRPX_COMPLETE)
        line_number(t, "','information':", c->information);
    line_irp(t, c->op == IRPX_COMPLETE ? ",'irp':[" : "','irp':[", c->slot, c->use);
    t->text(t, "]");
    if (c->op == IRPX_SET_NEXT) {
        line_number(t, ",'major':", (uint64_t)c->major);
        line_number(t, ",'word':", c->word);
    } else if (c->op == IRPX_SET_ROUTINE) {
        t->text(t, ",'set':");
        line_setting(t, &c->set);
    } else if (c->op == IRPX_REUSE || c->op == IRPX_COMPLETE)
        line_number(t, ",'status':", c->status);
    else if (c->op == IRPX_CALL)
        line_number(t, ",'target':", (uint64_t)c->other);
}

static void line_seen(IrpxLines *t, const IrpxLineReply *r)
{
    line_party(t, "{'seen':[", r->owner);
    line_number(t, ",", (uint64_t)r->current);
    line_number(t, ",", r->status);
    line_number(t, ",", r->information);
    line_truth(t, ",", r->is_cancelled);
    line_or_null(t, ",", r->cancel);
    line_truth(t, ",", r->returned);
    line_truth(t, ",", r->marked);
    t->text(t, "]}");
}

static void line_reply(IrpxLines *t, const IrpxLineReply *r)
{
    switch (r->kind) {
    case IRPX_DEVICE: line_number(t, "{'device':", r->answer); break;
    case IRPX_STATUS: line_number(t, "{'status':", r->answer); break;
    case IRPX_CANCELLED: line_truth(t, "{'cancelled':", r->answer != 0); break;
    case IRPX_PREVIOUS: line_or_null(t, "{'previous':", r->cancel); break;
    case IRPX_IRP_REF:
        line_irp(t, "{'irp':[", r->slot, r->answer);
        t->text(t, "]");
        break;
    case IRPX_REFUSED:
        t->text(t, "{'refused':'");
        t->word(t, r->refused);
        t->text(t, "'");
        break;
    case IRPX_SEEN: line_seen(t, r); return;
    default: t->text(t, "'done'"); return;
    }
    t->text(t, "}");
}

static void line_call(IrpxLines *t, const IrpxLineCall *c)
{
    t->text(t, "],'call':{");
    if (c->op <= IRPX_DELETE)
        line_device_call(t, c);
    else
        line_packet_call(t, c);
}

static void line_end(IrpxLines *t, uint64_t n, const IrpxLineReply *r, int seat)
{
    line_number(t, "},'n':", n);
    t->text(t, ",'reply':");
    line_reply(t, r);
    t->text(t, ",'seat':");
    t->seat(t, seat);
    t->text(t, "}\n");
}

static void line_counts(IrpxLines *t, const IrpxLineHeader *h)
{
    for (int i = 0; i < IRPX_RULES; i++)
        line_number(t, i ? "," : "[", (uint64_t)h->n_routines[i]);
}

static void line_driver(IrpxLines *t, const IrpxLineHeader *h, int driver)
{
    const char *before = "[[";
    for (int m = 0; m < h->n_majors; m++)
        if (h->dispatch(driver, m) != IRPX_NONE) {
            line_number(t, before, (uint64_t)m);
            line_number(t, ",", (uint64_t)h->dispatch(driver, m));
            before = "],[";
        }
    t->text(t, *before == '[' ? "[]" : "]]");
}

static void line_header(IrpxLines *t, const IrpxLineHeader *h)
{
    t->text(t, "{'cancels':[");
    for (int i = 0; i < h->n_cancels; i++) {
        t->text(t, i ? "," : "");
        t->text(t, h->finishes[i] == h->leaves[i] ? "'either'" : h->finishes[i] ? "'must_finish'" : "'must_leave'");
    }
    t->text(t, "],'completions':");
    line_counts(t, h);
    t->text(t, "],'dispatches':[");
    for (int i = 0; i < h->n_dispatches; i++) {
        t->text(t, i ? "," : "");
        line_counts(t, h);
        line_number(t, ",", (uint64_t)h->n_cancels);
        t->text(t, "]");
    }
    t->text(t, "],'drivers':[");
    for (int k = 0; k < h->n_drivers; k++) {
        t->text(t, k ? "," : "");
        line_driver(t, h, k);
    }
    line_number(t, "],'form':2,'locks':", (uint64_t)(h->n_devices ? h->n_devices : 1));
    line_number(t, ",'seats':", (uint64_t)(h->n_seats ? h->n_seats : 1));
    t->text(t, ",'slots':0}\n");
}

#endif
