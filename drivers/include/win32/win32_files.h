/* win32_files.h: drives, files and callbacks of Win32. Files are refused: no driver here reads one. */
#ifndef WDM_WIN32_FILES_H
#define WDM_WIN32_FILES_H

#include "win32.h"

enum { DRIVE_UNKNOWN, DRIVE_NO_ROOT_DIR, DRIVE_REMOVABLE, DRIVE_FIXED, DRIVE_REMOTE, DRIVE_CDROM, DRIVE_RAMDISK };
enum { FILE_BEGIN, FILE_CURRENT, FILE_END };
enum { CREATE_NEW = 1, CREATE_ALWAYS, OPEN_EXISTING, OPEN_ALWAYS };
#define NO_ERROR 0
#define ERROR_NOT_READY 21
#define ERROR_BAD_DEV_TYPE 66
#define WC_ERR_INVALID_CHARS 0x80
#define CreateFileW(name, access, share, security, disposition, flags, like) \
    ((void)(name), (void)(access), INVALID_HANDLE_VALUE)
#define ReadFile(file, to, room, got, overlapped) ((void)(file), (void)(to), *(got) = 0, FALSE)
#define SetFilePointer(file, offset, high, whence) ((void)(file), (void)(offset), (void)(whence), 0xffffffffu)
#define DeviceIoControl(file, code, in, in_size, out, out_size, got, overlapped) \
    ((void)(file), (void)(out), (void)(got), FALSE)
#define wine_get_dos_file_name(name) ((void)(name), (WCHAR *)NULL)
#define wine_nt_to_unix_file_name(attributes, to, room, disposition) \
    ((void)(attributes), (void)(to), (void)(room), STATUS_NOT_SUPPORTED)
#define GetVersion() 10u
#define GetModuleHandleW(name) ((void)(name), (HMODULE)NULL)
#define GetProcAddress(module, name) ((void)(module), (void)(name), (FARPROC)NULL)
typedef struct { DWORD dwNumberOfProcessors; } SYSTEM_INFO;
#define GetSystemInfo(info) ((void)((info)->dwNumberOfProcessors = KeQueryActiveProcessorCount(NULL)))

/* What windows are told of drives: nothing. */
typedef struct { DWORD dbcv_size, dbcv_devicetype, dbcv_reserved, dbcv_unitmask; WORD dbcv_flags; } DEV_BROADCAST_VOLUME;
enum { DBT_DEVTYP_VOLUME = 2, DBTF_MEDIA = 1, DBT_DEVICEARRIVAL = 0x8000, DBT_DEVICEREMOVECOMPLETE = 0x8004,
       WM_DEVICECHANGE = 0x219, BSF_QUERY = 1, BSF_FORCEIFHUNG = 0x20 };
#define BroadcastSystemMessageW(flags, to, message, code, about) ((void)(about), 1)

/* Callbacks of the thread pool: each runs on a thread of its own. */
typedef struct _TP_CALLBACK_INSTANCE TP_CALLBACK_INSTANCE, *PTP_CALLBACK_INSTANCE;
typedef VOID (*PTP_SIMPLE_CALLBACK)(TP_CALLBACK_INSTANCE *, PVOID);
typedef VOID (*PNTAPCFUNC)(ULONG_PTR, ULONG_PTR, ULONG_PTR);
BOOL WdmSubmit(PTP_SIMPLE_CALLBACK Callback, PVOID Context, WDM_SITE at);
#define TrySubmitThreadpoolCallback(callback, context, environment) WdmSubmit((callback), (context), WDM_HERE)
#define SleepEx(ms, alertable) ((void)(alertable), WdmSleep((ms), WDM_HERE))

#endif
