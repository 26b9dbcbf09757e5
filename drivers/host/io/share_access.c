/* share_access.c: how a file may be opened more than once, and bits beyond a bitmap. */
#include "explore/explore.h"
#include "ke/ke.h"
#include "record/record.h"
#include "wdm_bits.h"
#include "wdm_share.h"

VOID WdmBitsBeyond(PCSTR Name, ULONG From, ULONG Count, ULONG Size, WDM_SITE at)
{
    Call c;
    enter_quietly(&c, Name, at);
    fault("BitRange", NULL, "%u bit%s from bit %u on, of a bitmap of %u: Windows touches what lies behind it", Count,
          Count == 1 ? "" : "s", From, Size);
    leave_host();
}

static bool wants_access(const FILE_OBJECT *f) { return f->ReadAccess || f->WriteAccess || f->DeleteAccess; }

static void keep_in_file(PFILE_OBJECT file, ACCESS_MASK access, ULONG share)
{
    file->ReadAccess = (access & (FILE_READ_DATA | FILE_EXECUTE)) != 0;
    file->WriteAccess = (access & (FILE_WRITE_DATA | FILE_APPEND_DATA)) != 0;
    file->DeleteAccess = (access & DELETE) != 0;
    const bool wants = wants_access(file);
    file->SharedRead = wants && share & FILE_SHARE_READ;
    file->SharedWrite = wants && share & FILE_SHARE_WRITE;
    file->SharedDelete = wants && share & FILE_SHARE_DELETE;
}

/* Who only looks at a file's attributes counts for nobody. */
static void count_file(const FILE_OBJECT *f, PSHARE_ACCESS all, ULONG more)
{
    if (!wants_access(f))
        return;
    all->OpenCount += more;
    all->Readers += f->ReadAccess ? more : 0;
    all->Writers += f->WriteAccess ? more : 0;
    all->Deleters += f->DeleteAccess ? more : 0;
    all->SharedRead += f->SharedRead ? more : 0;
    all->SharedWrite += f->SharedWrite ? more : 0;
    all->SharedDelete += f->SharedDelete ? more : 0;
}

static bool is_refused(const FILE_OBJECT *f, const SHARE_ACCESS *all)
{
    return wants_access(f) &&
        ((f->ReadAccess && all->SharedRead < all->OpenCount) || (f->WriteAccess && all->SharedWrite < all->OpenCount) ||
         (f->DeleteAccess && all->SharedDelete < all->OpenCount) || (all->Readers && !f->SharedRead) ||
         (all->Writers && !f->SharedWrite) || (all->Deleters && !f->SharedDelete));
}

NTSTATUS WdmIoCheckShareAccess(ACCESS_MASK Access, ULONG Share, PFILE_OBJECT File, PSHARE_ACCESS All, BOOLEAN Update, WDM_SITE at)
{
    Call c;
    enter_host(&c, "IoCheckShareAccess", at);
    touch_memory(All, sizeof *All, Update ? WRITES : READS);
    keep_in_file(File, Access, Share);
    const bool refused = is_refused(File, All);
    if (!refused && Update)
        count_file(File, All, 1);
    leave_host();
    return refused ? STATUS_SHARING_VIOLATION : STATUS_SUCCESS;
}

VOID WdmIoSetShareAccess(ACCESS_MASK Access, ULONG Share, PFILE_OBJECT File, PSHARE_ACCESS All, WDM_SITE at)
{
    Call c;
    enter_host(&c, "IoSetShareAccess", at);
    touch_memory(All, sizeof *All, WRITES);
    keep_in_file(File, Access, Share);
    *All = (SHARE_ACCESS){ 0 };
    count_file(File, All, 1);
    leave_host();
}

VOID WdmIoUpdateShareAccess(PFILE_OBJECT File, PSHARE_ACCESS All, WDM_SITE at)
{
    Call c;
    enter_host(&c, "IoUpdateShareAccess", at);
    touch_memory(All, sizeof *All, WRITES);
    count_file(File, All, 1);
    leave_host();
}

VOID WdmIoRemoveShareAccess(PFILE_OBJECT File, PSHARE_ACCESS All, WDM_SITE at)
{
    Call c;
    enter_host(&c, "IoRemoveShareAccess", at);
    touch_memory(All, sizeof *All, WRITES);
    if (wants_access(File) && !All->OpenCount)
        fault("ShareAccess", NULL, "a file is taken out more often than it was put in");
    else
        count_file(File, All, 0u - 1);
    leave_host();
}
