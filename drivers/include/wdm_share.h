/* wdm_share.h: how a file may be opened more than once. The driver guards the SHARE_ACCESS by a lock of its own. */
#ifndef WDM_SHARE_H
#define WDM_SHARE_H

#include "wdm_io.h"

typedef struct _SHARE_ACCESS {
    ULONG OpenCount, Readers, Writers, Deleters, SharedRead, SharedWrite, SharedDelete;
} SHARE_ACCESS, *PSHARE_ACCESS;
NTSTATUS WdmIoCheckShareAccess(ACCESS_MASK Access, ULONG Share, PFILE_OBJECT File, PSHARE_ACCESS All, BOOLEAN Update, WDM_SITE at);
VOID WdmIoSetShareAccess(ACCESS_MASK Access, ULONG Share, PFILE_OBJECT File, PSHARE_ACCESS All, WDM_SITE at);
VOID WdmIoUpdateShareAccess(PFILE_OBJECT File, PSHARE_ACCESS All, WDM_SITE at);
VOID WdmIoRemoveShareAccess(PFILE_OBJECT File, PSHARE_ACCESS All, WDM_SITE at);
#define IoCheckShareAccess(access, share, file, all, update) \
    WdmIoCheckShareAccess((access), (share), (file), (all), (BOOLEAN)(update), WDM_HERE)
#define IoCheckShareAccessEx(access, share, file, all, update, writes) \
    ((void)(writes), IoCheckShareAccess((access), (share), (file), (all), (update)))
#define IoSetShareAccess(access, share, file, all) WdmIoSetShareAccess((access), (share), (file), (all), WDM_HERE)
#define IoSetShareAccessEx(access, share, file, all, writes) \
    ((void)(writes), IoSetShareAccess((access), (share), (file), (all)))
#define IoUpdateShareAccess(file, all) WdmIoUpdateShareAccess((file), (all), WDM_HERE)
#define IoRemoveShareAccess(file, all) WdmIoRemoveShareAccess((file), (all), WDM_HERE)

/* A routine of the system by its name: the later ones that the host has, and some that every Windows has; else NULL, as in a
   Windows without it. */
PVOID WdmSystemRoutine(PUNICODE_STRING Name, WDM_SITE at);
#define MmGetSystemRoutineAddress(name) (WdmAtLevel("MmGetSystemRoutineAddress", WDM_HERE), WdmSystemRoutine((name), WDM_HERE))

#endif
