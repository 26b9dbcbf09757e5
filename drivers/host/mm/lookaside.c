/* lookaside.c: lookaside lists of Windows Vista and later. Each block comes from pool and goes back there, at the driver's own
   lines; a list has to be deleted before its memory goes, or its driver. */
#include "explore/explore.h"
#include "ke/ke.h"
#include "record/record.h"
#include "rules/rules.h"

NTSTATUS WdmExInitializeList(PLOOKASIDE_LIST_EX List, PALLOCATE_FUNCTION_EX Allocate, PFREE_FUNCTION_EX Free, POOL_TYPE Type,
                             ULONG Flags, SIZE_T Bytes, ULONG Tag, WDM_SITE at)
{
    Call c;
    enter_host(&c, "ExInitializeLookasideListEx", at);
    const ULONG both = EX_LOOKASIDE_LIST_EX_FLAGS_RAISE_ON_FAIL | EX_LOOKASIDE_LIST_EX_FLAGS_FAIL_NO_RAISE;
    const bool is_right = !(Flags & ~both) && Flags != both;
    Holder was;
    if (take_back(List, &was))
        fault("Lookaside", NULL, "the list is there already, since %s: delete it before", place(was.at));
    if (is_right) {
        *List = (LOOKASIDE_LIST_EX){ Allocate, Free, Type, Tag, Flags, Bytes };
        give_out(List, "the lookaside list", c.name, at);
    }
    leave_host();
    return is_right ? STATUS_SUCCESS : STATUS_INVALID_PARAMETER_5;
}

/* Whether it is there. Takes G and gives it back. */
static bool check_list(PLOOKASIDE_LIST_EX list, const char *name, bool ends, WDM_SITE at)
{
    Call c;
    enter_host(&c, name, at);
    touch(list, ends ? SYNCS : READS);
    const bool is_there = ends ? take_back(list, NULL) : is_given(list, NULL);
    if (!is_there)
        fault("Lookaside", NULL, "the list isn't there: it was deleted before, or never initialized");
    leave_host();
    return is_there;
}

PVOID WdmExAllocateFromList(PLOOKASIDE_LIST_EX List, WDM_SITE at)
{
    if (!check_list(List, "ExAllocateFromLookasideListEx", false, at))
        return NULL;
    return List->Allocate ? List->Allocate(List->Type, List->Bytes, List->Tag, List)
                          : WdmAllocatePool(WDM_POOL_OF(List->Type), List->Bytes, List->Tag, at);
}

VOID WdmExFreeToList(PLOOKASIDE_LIST_EX List, PVOID Block, WDM_SITE at)
{
    if (!check_list(List, "ExFreeToLookasideListEx", false, at))
        return;
    if (List->Free)
        List->Free(Block, List);
    else
        WdmFreePool(Block, List->Tag, TRUE, at);
}

VOID WdmExDeleteList(PLOOKASIDE_LIST_EX List, BOOLEAN Deletes, WDM_SITE at)
{
    check_list(List, Deletes ? "ExDeleteLookasideListEx" : "ExFlushLookasideListEx", Deletes, at);
}
