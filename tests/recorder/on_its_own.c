/* on_its_own.c: `scenarios NAME` runs one scenario and writes its transcript to standard output, also where it crashes.
   `scenarios` names them all. */
#include "scenarios.h"
#include "ending.h"
#include <string.h>
#ifdef WDM_IO_H
#include "wdm_test.h"

PDRIVER_OBJECT ScenarioDriver(unsigned number)
{
    static const char *const names[] = { "p0", "p1", "p2" };
    return WdmLoadDriver(names[number], ProbeDriverEntry);
}
#else
NTSTATUS NTAPI IoCreateDriver(UNICODE_STRING *Name, PDRIVER_INITIALIZE Entry);

static PDRIVER_OBJECT loaded;
static NTSTATUS NTAPI entry(PDRIVER_OBJECT DriverObject, PUNICODE_STRING RegistryPath)
{
    return ProbeDriverEntry(loaded = DriverObject, RegistryPath);
}

PDRIVER_OBJECT ScenarioDriver(unsigned number)
{
    static WCHAR names[3][16] = { L"\\Driver\\P0", L"\\Driver\\P1", L"\\Driver\\P2" };
    UNICODE_STRING name = { 20, 22, names[number] };
    return IoCreateDriver(&name, entry) ? NULL : loaded;
}
#endif

void ScenarioStops(unsigned number)
{
    fprintf(stderr, "driver %u can't be loaded\n", number);
    exit(2);
}

/* Gives the record back. Returns the exit status: 5 where not all memory is given back. */
static int forget(void)
{
    IrpxForget();
#ifdef COUNTED
    extern long counted_pieces;
    return counted_pieces ? 5 : 0;
#else
    return 0;
#endif
}

int main(int argc, char **argv)
{
    for (unsigned i = 0; i < ScenarioCount; i++)
        if (argc < 2)
            puts(Scenarios[i].name);
        else if (!strcmp(Scenarios[i].name, argv[1])) {
            begin_to_watch();
            ScenarioRun(i);
            write_transcript();
            _Exit(forget()); /* the host would tell that nobody called WdmFinish */
        }
    return argc < 2 ? 0 : 2;
}
