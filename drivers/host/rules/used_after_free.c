/* used_after_free.c: objects of the kernel that are used in memory which has gone: a freed pool block, a deleted device's
   extension. */
#include "rules/rules.h"
#include "mm/mm.h"
#include "record/record.h"

static int gone_device(const void *object)
{
    for (int i = 0; i < n_devices; i++) {
        const char *from = devices[i].extension;
        const bool is_gone = !devices[i].live && !devices[i].goes;
        if (is_gone && (const char *)object >= from && (const char *)object < from + devices[i].extension_size)
            return i;
    }
    return NOBODY;
}

/* Under G: a call uses this object. */
void check_used(const void *object, const char *kind)
{
    Block *b = freed_block_of(object);
    const int d = b ? NOBODY : gone_device(object);
    if (b) {
        broken("UsedInFreedMemory", NULL, "the %s lies in the %s, which was freed at %s", kind, block_text(b),
               place(b->released));
        open_pages(b);
    } else if (d >= 0)
        broken("UsedInFreedMemory", NULL, "the %s lies in the extension of %s, which is deleted", kind, who(d));
}
