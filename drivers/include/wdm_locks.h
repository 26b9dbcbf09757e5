/* wdm_locks.h: locks that readers share: EX_SPIN_LOCK, at DISPATCH_LEVEL, and push locks, in a critical region. */
#ifndef WDM_LOCKS_H
#define WDM_LOCKS_H

#include "wdm_ex.h"

typedef volatile LONG EX_SPIN_LOCK, *PEX_SPIN_LOCK;
KIRQL WdmExAcquireSpinLock(PEX_SPIN_LOCK Lock, BOOLEAN Alone, BOOLEAN Raises, WDM_SITE at);
VOID WdmExReleaseSpinLock(PEX_SPIN_LOCK Lock, BOOLEAN Alone, BOOLEAN Lowers, KIRQL Irql, WDM_SITE at);
BOOLEAN WdmExTrySpinLock(PEX_SPIN_LOCK Lock, BOOLEAN Alone, WDM_SITE at);
BOOLEAN WdmExConvertSpinLock(PEX_SPIN_LOCK Lock, WDM_SITE at);
#define ExAcquireSpinLockExclusive(lock) WdmExAcquireSpinLock((lock), TRUE, TRUE, WDM_HERE)
#define ExAcquireSpinLockShared(lock) WdmExAcquireSpinLock((lock), FALSE, TRUE, WDM_HERE)
#define ExAcquireSpinLockExclusiveAtDpcLevel(lock) ((void)WdmExAcquireSpinLock((lock), TRUE, FALSE, WDM_HERE))
#define ExAcquireSpinLockSharedAtDpcLevel(lock) ((void)WdmExAcquireSpinLock((lock), FALSE, FALSE, WDM_HERE))
#define ExReleaseSpinLockExclusive(lock, irql) WdmExReleaseSpinLock((lock), TRUE, TRUE, (irql), WDM_HERE)
#define ExReleaseSpinLockShared(lock, irql) WdmExReleaseSpinLock((lock), FALSE, TRUE, (irql), WDM_HERE)
#define ExReleaseSpinLockExclusiveFromDpcLevel(lock) WdmExReleaseSpinLock((lock), TRUE, FALSE, 0, WDM_HERE)
#define ExReleaseSpinLockSharedFromDpcLevel(lock) WdmExReleaseSpinLock((lock), FALSE, FALSE, 0, WDM_HERE)
#define ExTryAcquireSpinLockExclusiveAtDpcLevel(lock) WdmExTrySpinLock((lock), TRUE, WDM_HERE)
#define ExTryAcquireSpinLockSharedAtDpcLevel(lock) WdmExTrySpinLock((lock), FALSE, WDM_HERE)
#define ExTryConvertSharedSpinLockExclusive(lock) WdmExConvertSpinLock((lock), WDM_HERE)

typedef ULONG_PTR EX_PUSH_LOCK, *PEX_PUSH_LOCK;
VOID WdmExInitializePushLock(PEX_PUSH_LOCK Lock, WDM_SITE at);
VOID WdmExAcquirePushLock(PEX_PUSH_LOCK Lock, BOOLEAN Alone, WDM_SITE at);
VOID WdmExReleasePushLock(PEX_PUSH_LOCK Lock, BOOLEAN Alone, WDM_SITE at);
#define EX_DEFAULT_PUSH_LOCK_FLAGS 0
#define ExInitializePushLock(lock) WdmExInitializePushLock((lock), WDM_HERE)
#define ExAcquirePushLockExclusive(lock) WdmExAcquirePushLock((lock), TRUE, WDM_HERE)
#define ExAcquirePushLockShared(lock) WdmExAcquirePushLock((lock), FALSE, WDM_HERE)
#define ExReleasePushLockExclusive(lock) WdmExReleasePushLock((lock), TRUE, WDM_HERE)
#define ExReleasePushLockShared(lock) WdmExReleasePushLock((lock), FALSE, WDM_HERE)
#define ExAcquirePushLockExclusiveEx(lock, flags) ((void)(flags), ExAcquirePushLockExclusive(lock))
#define ExAcquirePushLockSharedEx(lock, flags) ((void)(flags), ExAcquirePushLockShared(lock))
#define ExReleasePushLockExclusiveEx(lock, flags) ((void)(flags), ExReleasePushLockExclusive(lock))
#define ExReleasePushLockSharedEx(lock, flags) ((void)(flags), ExReleasePushLockShared(lock))

#endif
