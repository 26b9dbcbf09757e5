/* usages.c: a paging file comes onto the device and goes from it, and comes where the device below refuses that. Then each driver
   of the stack is as it was: the flag of its device object, and what in its extension changes with each such file. */
#include "test/bottom_answers.h"
#include "test/test.h"
#include "ke/ke.h"
#include "mm/mm.h"
#include "record/record.h"
#include "rules/rules.h"

enum { MOST_DEVICES = 16 };
typedef uint32_t Word;
/* What is seen twice: without a paging file, with one, and once one was refused. */
typedef enum { WITHOUT, WITH, WITHOUT_AGAIN, REFUSED_ONE, N_TIMES } Time;
typedef struct { int device; ULONG flags[N_TIMES]; Word *words[N_TIMES][2]; } Seen;
static Seen seen[MOST_DEVICES];
static int n_seen;

static NTSTATUS is_done(PDEVICE_OBJECT device, PIRP irp, PVOID context)
{
    UNREFERENCED_PARAMETER(device), UNREFERENCED_PARAMETER(irp);
    KeSetEvent(context, IO_NO_INCREMENT, FALSE);
    return STATUS_MORE_PROCESSING_REQUIRED;
}

/* Tells the stack of a paging file that comes or goes. Who calls it frees the packet. */
static PIRP notify(PDEVICE_OBJECT top, BOOLEAN comes)
{
    KEVENT ended;
    PIRP irp = WdmBuildIrp(top, IRP_MJ_PNP, IRP_MN_DEVICE_USAGE_NOTIFICATION, 0, NULL, NULL);
    if (!irp)
        return NULL;
    KeInitializeEvent(&ended, NotificationEvent, FALSE);
    IoGetNextIrpStackLocation(irp)->Parameters.UsageNotification.InPath = comes;
    IoGetNextIrpStackLocation(irp)->Parameters.UsageNotification.Type = DeviceUsageTypePaging;
    IoSetCompletionRoutine(irp, is_done, &ended, TRUE, TRUE, TRUE);
    IoCallDriver(top, irp);
    KeWaitForSingleObject(&ended, Executive, KernelMode, FALSE, NULL);
    return irp;
}

static BOOLEAN is_taken(PDEVICE_OBJECT top, BOOLEAN comes)
{
    PIRP irp = notify(top, comes);
    const BOOLEAN is = irp && NT_SUCCESS(irp->IoStatus.Status);
    if (irp)
        IoFreeIrp(irp);
    return is;
}

static size_t size_of(const Seen *s) { return devices[s->device].extension_size / sizeof(Word); }

/* The devices of drivers, the uppermost first. */
static void begin_with(PDEVICE_OBJECT top)
{
    n_seen = 0;
    for (int d = device_number(top); d >= 0 && !is_bottom(devices[d].raw) && n_seen < MOST_DEVICES; d = devices[d].lower)
        if (!is_between(devices[d].raw))
            seen[n_seen++] = (Seen){ .device = d };
}

static void see(Time time, int again)
{
    Call c;
    enter_quietly(&c, "what drivers keep of a paging file", (WDM_SITE){ 0 });
    for (int i = 0; i < n_seen; i++) {
        Seen *s = &seen[i];
        s->flags[time] = devices[s->device].raw->Flags & DO_POWER_PAGABLE;
        s->words[time][again] = malloc(size_of(s) * sizeof(Word) + 1);
        if (s->words[time][again])
            memcpy(s->words[time][again], devices[s->device].extension, size_of(s) * sizeof(Word));
    }
    leave_host();
}

/* Whether this word is the same without a file both times, and another one with it; and doesn't go back where one is refused. */
static bool is_kept(const Seen *s, size_t n)
{
    const Word without = s->words[WITHOUT][0][n], with = s->words[WITH][0][n];
    bool is = with != without;
    for (int again = 0; again < 2; again++)
        is &= s->words[WITHOUT][again][n] == without && s->words[WITH][again][n] == with &&
            s->words[WITHOUT_AGAIN][again][n] == without && s->words[REFUSED_ONE][again][n] != without;
    return is;
}

static bool is_seen(const Seen *s)
{
    bool is = true;
    for (int i = 0; i < N_TIMES; i++)
        is &= s->words[i][0] && s->words[i][1];
    return is;
}

static void tell(PIRP irp, const Seen *s, const char *what)
{
    Call c;
    enter_quietly(&c, "IRP_MN_DEVICE_USAGE_NOTIFICATION", (WDM_SITE){ 0 });
    const Packet *p = find(irp);
    const CallSite by = last_call_of(p, s->device);
    c.name = by.call ? by.call : "IoCallDriver";
    c.at = by.call ? by.site : p->sites.sent;
    broken("UsageKept", p, "%s keeps %s, as with a paging file, though the device below has refused that", who(s->device), what);
    leave_host();
}

static void compare(PIRP irp, const Seen *s)
{
    char text[80];
    size_t n = 0;
    if (s->flags[REFUSED_ONE] != s->flags[WITHOUT])
        tell(irp, s, s->flags[WITHOUT] ? "DO_POWER_PAGABLE cleared in its device object" : "DO_POWER_PAGABLE in its device object");
    while (is_seen(s) && n < size_of(s) && !is_kept(s, n))
        n++;
    if (!is_seen(s) || n == size_of(s))
        return;
    snprintf(text, sizeof text, "0x%x at byte %zu of its device extension", s->words[REFUSED_ONE][0][n], n * sizeof(Word));
    tell(irp, s, text);
}

static void forget(void)
{
    for (int i = 0; i < n_seen; i++)
        for (int n = 0; n < 2 * N_TIMES; n++)
            free(seen[i].words[n / 2][n % 2]);
}

/* A paging file that the drivers don't take doesn't go either. */
static BOOLEAN comes_and_goes(PDEVICE_OBJECT top, int again)
{
    see(WITHOUT, again);
    const BOOLEAN comes = is_taken(top, TRUE);
    see(WITH, again);
    if (comes)
        is_taken(top, FALSE);
    see(WITHOUT_AGAIN, again);
    return comes;
}

void use_for_paging(PDEVICE_OBJECT top)
{
    PIRP refused[2];
    begin_with(top);
    for (int i = 0; i < 2; i++)
        comes_and_goes(top, i);
    made(SITUATION_PAGING);
    refuses_usage = TRUE;
    n_usages_refused = 0;
    for (int i = 0; i < 2; i++) {
        refused[i] = notify(top, TRUE);
        see(REFUSED_ONE, i);
    }
    refuses_usage = FALSE;
    made_if(SITUATION_USAGE_REFUSED, n_usages_refused > 0, "it isn't passed down");
    for (int i = 0; n_usages_refused && refused[0] && !NT_SUCCESS(refused[0]->IoStatus.Status) && i < n_seen; i++)
        compare(refused[0], &seen[i]);
    forget();
    for (int i = 0; i < 2; i++)
        if (refused[i])
            IoFreeIrp(refused[i]);
}
