/* loading.h: makes the drivers of scripts by IoCreateDriver, which no page documents, but Windows and Wine export. Driver
   objects are made once, and serve one script after the other. */
#include "player.h"

NTSTATUS NTAPI IoCreateDriver(UNICODE_STRING *Name, PDRIVER_INITIALIZE Entry);

static PDRIVER_OBJECT drivers[PLAY_DRIVERS];
static PDRIVER_DISPATCH unhandled; /* the manager's own dispatch, in each major of a new driver object */
static PDRIVER_INITIALIZE wanted;
static unsigned loaded;

static NTSTATUS NTAPI load_entry(PDRIVER_OBJECT DriverObject, PUNICODE_STRING RegistryPath)
{
    drivers[loaded] = DriverObject;
    if (!unhandled)
        unhandled = DriverObject->MajorFunction[0];
    for (int m = 0; m < PLAY_MAJORS; m++)
        DriverObject->MajorFunction[m] = unhandled;
    return wanted(DriverObject, RegistryPath);
}

static BOOLEAN load(unsigned i, PDRIVER_INITIALIZE Entry)
{
    WCHAR text[] = L"\\Driver\\Player00";
    UNICODE_STRING name = { sizeof text - 2, sizeof text, text };
    text[14] = (WCHAR)(L'0' + i / 10);
    text[15] = (WCHAR)(L'0' + i % 10);
    loaded = i;
    wanted = Entry;
    return NT_SUCCESS(drivers[i] ? load_entry(drivers[i], NULL) : IoCreateDriver(&name, load_entry));
}
