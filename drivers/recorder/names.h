/* names.h: parties, calls, plans, replies and rules, in the order in which the host has them too; and what takes text. */
#ifndef IRPX_NAMES_H
#define IRPX_NAMES_H

#include <stdint.h>

enum { IRPX_ORIGINATOR = -1, IRPX_ENDED = -2, IRPX_NOBODY = -3 }; /* parties beside device numbers */
typedef enum { IRPX_CREATE, IRPX_ATTACH, IRPX_DETACH, IRPX_DELETE, IRPX_ALLOCATE, IRPX_FREED, IRPX_REUSE,
               IRPX_SET_NEXT, IRPX_COPY, IRPX_SKIP, IRPX_SET_ROUTINE, IRPX_MARK, IRPX_CALL, IRPX_COMPLETE,
               IRPX_SET_CANCEL, IRPX_CANCEL, IRPX_LOOK } IrpxOp;
typedef enum { IRPX_DISPATCH, IRPX_ROUTINE, IRPX_CANCELLING } IrpxKind;
typedef enum { IRPX_UNDECIDED, IRPX_FINISH, IRPX_HOLD, IRPX_SKIPS, IRPX_FORWARD, IRPX_FORWARD_PEND, IRPX_CONTINUE,
               IRPX_KEEP, IRPX_LEAVE } IrpxPlan;
typedef enum { IRPX_NONE_YET, IRPX_DONE, IRPX_DEVICE, IRPX_IRP_REF, IRPX_STATUS, IRPX_PREVIOUS, IRPX_CANCELLED,
               IRPX_SEEN, IRPX_REFUSED } IrpxReply;
typedef enum { IRPX_WATCH, IRPX_CHANGE, IRPX_KEEPER, IRPX_KEEP_ON_ERROR, IRPX_FREE_RULE, IRPX_RULES } IrpxRule;

/* Where the pieces of a line go. */
typedef struct IrpxLines {
    void (*text)(struct IrpxLines *to, const char *text); /* of lines.h; a quote is written ' */
    void (*word)(struct IrpxLines *to, const char *word); /* of another one */
    void (*number)(struct IrpxLines *to, uint64_t value);
    void (*seat)(struct IrpxLines *to, int seat);
    void (*irp)(struct IrpxLines *to, unsigned slot, uint64_t use); /* with a comma between */
} IrpxLines;

#endif
