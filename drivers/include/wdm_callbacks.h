/* wdm_callbacks.h: callback objects, by which drivers tell each other; handles of objects by their pointers; pages without
   addresses. */
#ifndef WDM_CALLBACKS_H
#define WDM_CALLBACKS_H

#include "wdm_io.h"

typedef struct _CALLBACK_OBJECT *PCALLBACK_OBJECT;
typedef VOID CALLBACK_FUNCTION(PVOID Context, PVOID Argument1, PVOID Argument2);
typedef CALLBACK_FUNCTION *PCALLBACK_FUNCTION;
NTSTATUS WdmExCreateCallback(PCALLBACK_OBJECT *Object, POBJECT_ATTRIBUTES Attributes, BOOLEAN Create, BOOLEAN Many, WDM_SITE at);
PVOID WdmExRegisterCallback(PCALLBACK_OBJECT Object, PCALLBACK_FUNCTION Function, PVOID Context, WDM_SITE at);
VOID WdmExUnregisterCallback(PVOID Registration, WDM_SITE at);
VOID WdmExNotifyCallback(PVOID Object, PVOID Argument1, PVOID Argument2, WDM_SITE at);
#define ExCreateCallback(object, attributes, create, many) \
    WdmExCreateCallback((object), (attributes), (BOOLEAN)(create), (BOOLEAN)(many), WDM_HERE)
#define ExRegisterCallback(object, function, context) WdmExRegisterCallback((object), (function), (context), WDM_HERE)
#define ExUnregisterCallback(registration) WdmExUnregisterCallback((registration), WDM_HERE)
#define ExNotifyCallback(object, one, two) WdmExNotifyCallback((object), (one), (two), WDM_HERE)

NTSTATUS WdmObOpenByPointer(PVOID Object, POBJECT_TYPE Type, PHANDLE Handle, WDM_SITE at);
#define ObOpenObjectByPointer(object, attributes, state, access, type, mode, handle) \
    ((void)(attributes), (void)(state), (void)(access), (void)(mode), \
     WdmObOpenByPointer((object), (POBJECT_TYPE)(type), (handle), WDM_HERE))

#define MM_DONT_ZERO_ALLOCATION 1
#define MM_ALLOCATE_FROM_LOCAL_NODE_ONLY 2
#define MM_ALLOCATE_FULLY_REQUIRED 4
#define MM_ALLOCATE_NO_WAIT 8
#define MM_ALLOCATE_PREFER_CONTIGUOUS 0x10
#define MM_ALLOCATE_REQUIRE_CONTIGUOUS_CHUNKS 0x20
PMDL WdmMmAllocatePages(SIZE_T Bytes, ULONG Flags, WDM_SITE at);
VOID WdmMmFreePages(PMDL Mdl, WDM_SITE at);
#define MmAllocatePagesForMdlEx(low, high, skip, bytes, cache, flags) \
    ((void)(low), (void)(high), (void)(skip), (void)(cache), WdmMmAllocatePages((bytes), (flags), WDM_HERE))
#define MmAllocatePagesForMdl(low, high, skip, bytes) MmAllocatePagesForMdlEx((low), (high), (skip), (bytes), MmCached, 0)
#define MmFreePagesFromMdl(mdl) WdmMmFreePages((mdl), WDM_HERE)

#endif
