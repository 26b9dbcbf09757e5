/* feeder.c: `feeder DRIVER.sys FEEDS ANSWERS [by_turns|at_once]`: loads the player as a driver, feeds it the scripts of a
   file, and writes their answers. Before each script it writes the script's number to ANSWERS.at, to the disk: called again
   after a bug check, it goes on behind that script. */
#include <windows.h>
#include <winioctl.h>
#include <stdint.h>
#include <stdio.h>
#include <stdlib.h>
#include <string.h>
#include "interface.h"

static const char service_name[] = "IrpxPlayer";

static void fail(const char *what)
{
    fprintf(stderr, "feeder: %s: error %lu\n", what, GetLastError());
    exit(2);
}

/* A system that has just started may lock its services for a while. */
static BOOL start_service(SC_HANDLE service)
{
    for (int seconds = 0; seconds < 120; seconds++) {
        if (StartServiceA(service, 0, NULL))
            return TRUE;
        if (GetLastError() != ERROR_SERVICE_DATABASE_LOCKED)
            return FALSE;
        Sleep(1000);
    }
    return FALSE;
}

static SC_HANDLE start(const char *path)
{
    char full[MAX_PATH];
    SC_HANDLE manager = OpenSCManagerA(NULL, NULL, SC_MANAGER_ALL_ACCESS), service;
    if (!manager)
        fail("the services can't be opened (are you an administrator?)");
    GetFullPathNameA(path, sizeof full, full, NULL);
    service = CreateServiceA(manager, service_name, service_name, SERVICE_ALL_ACCESS, SERVICE_KERNEL_DRIVER,
                             SERVICE_DEMAND_START, SERVICE_ERROR_NORMAL, full, NULL, NULL, NULL, NULL, NULL);
    if (!service) { /* of an earlier call that was ended, maybe with another driver, which may run still */
        SERVICE_STATUS status;
        service = OpenServiceA(manager, service_name, SERVICE_ALL_ACCESS);
        if (service)
            ControlService(service, SERVICE_CONTROL_STOP, &status);
        if (service)
            ChangeServiceConfigA(service, SERVICE_NO_CHANGE, SERVICE_NO_CHANGE, SERVICE_NO_CHANGE, full, NULL, NULL, NULL,
                                 NULL, NULL, NULL);
    }
    if (!service || !start_service(service))
        fail("the driver doesn't start (is test signing on? does one of an earlier call run still?)");
    return service;
}

/* Opens a file whose writes go to the disk before they return. */
static HANDLE open_file(const char *path, const char *ending, DWORD how)
{
    char name[MAX_PATH];
    snprintf(name, sizeof name, "%s%s", path, ending);
    HANDLE file = CreateFileA(name, GENERIC_READ | GENERIC_WRITE, FILE_SHARE_READ, NULL, how,
                              FILE_ATTRIBUTE_NORMAL | FILE_FLAG_WRITE_THROUGH, NULL);
    if (file == INVALID_HANDLE_VALUE)
        fail(name);
    return file;
}

static void write_text(HANDLE file, const char *text, DWORD n)
{
    DWORD written;
    if (!WriteFile(file, text, n, &written, NULL) || written != n)
        fail("a file can't be written");
}

/* The first script that isn't tried yet. */
static long first_script(HANDLE at)
{
    char text[32] = "";
    DWORD n;
    return ReadFile(at, text, sizeof text - 1, &n, NULL) && n ? atol(text) + 1 : 0;
}

static void note(HANDLE at, long number)
{
    char text[32];
    const int n = snprintf(text, sizeof text, "%-20ld\r\n", number);
    SetFilePointer(at, 0, NULL, FILE_BEGIN);
    write_text(at, text, (DWORD)n);
}

static void take_answer(HANDLE device, HANDLE answers, long number)
{
    static char part[65536];
    DWORD n = (DWORD)snprintf(part, sizeof part, "@ %ld ", number);
    write_text(answers, part, n);
    for (uint64_t at = 0; DeviceIoControl(device, IOCTL_READ, &at, 8, part, sizeof part, &n, NULL) && n; at += n)
        write_text(answers, part, n);
}

/* Returns how many scripts were fed. */
static long feed(FILE *feeds, HANDLE device, HANDLE answers, HANDLE at, DWORD code)
{
    uint64_t count;
    DWORD n;
    const long first = first_script(at);
    long i = 0;
    for (; fread(&count, 8, 1, feeds) == 1; i++) {
        uint64_t *words = malloc(count * 8 + 8);
        if (!words || fread(words, 8, count, feeds) != count)
            fail("the feeds can't be read");
        if (i >= first) {
            note(at, i);
            if (DeviceIoControl(device, code, words, (DWORD)(count * 8), NULL, 0, &n, NULL))
                take_answer(device, answers, i);
            else
                fprintf(stderr, "feeder: script %ld: error %lu\n", i, GetLastError());
        }
        free(words);
    }
    return i - first;
}

int main(int argc, char **argv)
{
    const DWORD code = argc < 5 ? IOCTL_PLAY : !strcmp(argv[4], "at_once") ? IOCTL_PLAY_AT_ONCE : IOCTL_PLAY_BY_TURNS;
    SERVICE_STATUS status;
    if (argc < 4) {
        fprintf(stderr, "usage: feeder DRIVER.sys FEEDS ANSWERS [by_turns|at_once]\n");
        return 2;
    }
    FILE *feeds = fopen(argv[2], "rb");
    if (!feeds)
        fail(argv[2]);
    HANDLE at = open_file(argv[3], ".at", OPEN_ALWAYS), answers = open_file(argv[3], "", OPEN_ALWAYS);
    SetFilePointer(answers, 0, NULL, FILE_END);
    SC_HANDLE service = start(argv[1]);
    HANDLE device = CreateFileA("\\\\.\\IrpxPlayer", GENERIC_READ | GENERIC_WRITE, 0, NULL, OPEN_EXISTING, 0, NULL);
    if (device == INVALID_HANDLE_VALUE)
        fail("the device can't be opened");
    const long fed = feed(feeds, device, answers, at, code);
    if (fed > 0)
        printf("%ld scripts\n", fed);
    else
        printf("all scripts were played before: delete %s and %s.at to play them again\n", argv[3], argv[3]);
    CloseHandle(device);
    ControlService(service, SERVICE_CONTROL_STOP, &status);
    DeleteService(service);
    return 0;
}
