/* sent_handles.c: handles that the host's own test sends in the input of controls, as a program does: of an event, of a file, and
   one that is closed. A driver takes the object by it in the program's thread, as one of the type that it uses, and gives
   its reference back. */
#include "rules/rules.h"
#include "ke/ke.h"
#include "ob/ob.h"

static PVOID objects[2]; /* of the event, of the file */

bool is_sent_handle(const void *object) { return object && (object == objects[0] || object == objects[1]); }
static const char *kind_sent(const void *object) { return object == objects[0] ? "event" : "file"; }

/* A driver takes this object by its handle. Where that is told, it doesn't get it, so that the run goes on. Under G. */
NTSTATUS check_sent_handle(const void *object, POBJECT_TYPE type)
{
    const Frame *f = self.frames;
    while (f && f->up)
        f = f->up;
    if (!f || f->kind != DISPATCH) {
        broken("HandleContext", NULL, "a program's handle is taken in a thread that isn't the program's: there it is no handle, or "
               "that of something else");
        return STATUS_INVALID_HANDLE;
    }
    if (!type && f->p->mode == UserMode) {
        broken("HandleType", NULL, "a program's handle, here of its %s, is taken with NULL in place of a type, so that it may be "
               "of anything", kind_sent(object));
        return STATUS_OBJECT_TYPE_MISMATCH;
    }
    return STATUS_SUCCESS;
}

/* The driver is unloaded, and has kept its reference. Under G. */
void tell_sent_left(int driver)
{
    char text[80];
    for (int i = 0; i < 2; i++) {
        const WDM_SITE at = reference_of(objects[i]);
        if (at.file && driver_of_file(at.file) == driver) {
            snprintf(text, sizeof text, "a reference to a program's %s", kind_sent(objects[i]));
            left_behind(text, "ObReferenceObjectByHandle", at);
        }
    }
}

/* One of an event, and one of the file where there is one, else NULL. Returns whether there is an event's. */
BOOLEAN make_sent_handles(PFILE_OBJECT file, HANDLE made[2])
{
    if (!NT_SUCCESS(ZwCreateEvent(&made[0], EVENT_ALL_ACCESS, NULL, NotificationEvent, FALSE)))
        return FALSE;
    objects[0] = handle_object(made[0], NULL);
    objects[1] = file;
    made[1] = file ? new_handle(*IoFileObjectType, file) : NULL;
    return TRUE;
}

/* The file stays open. */
void close_sent_handles(const HANDLE made[2])
{
    forget_handle(made[0]);
    forget_handle(made[1]);
}
