/* sections.c: sections and files that a test made by their names. All others are refused, and the first refusal of each
   call says so. */
#include "explore/explore.h"
#include "io/io.h"
#include "ob/ob.h"
#include "record/record.h"
#include "rtl/rtl.h"

typedef struct { UNICODE_STRING name; PVOID memory; SIZE_T size; bool is_file; FILE_OBJECT file; } Made;
static struct _OBJECT_TYPE { const char *name; } section_type = { "section" };
static Made made[64];
static int n_made;

static NTSTATUS refused(const char *call)
{
    pthread_mutex_lock(&host_lock);
    touch(&host_lock, SYNCS);
    note("not there", "%s: it knows only what the test made (WdmMakeSection, WdmMakeFile), and refuses", call);
    pthread_mutex_unlock(&host_lock);
    return STATUS_NOT_SUPPORTED;
}

static PVOID make(PCWSTR path, SIZE_T size, bool is_file)
{
    UNICODE_STRING name;
    RtlInitUnicodeString(&name, path);
    pthread_mutex_lock(&host_lock);
    touch(&host_lock, SYNCS);
    if (n_made == 64)
        reach_limit("more than 64 sections and files");
    Made *m = &made[n_made++];
    *m = (Made){ .memory = host_memory(size ? size : 1), .size = size, .is_file = is_file,
                 .file = { .Type = IO_TYPE_FILE, .Size = sizeof(FILE_OBJECT) } }; /* of no device */
    copy_text(&m->name, &name);
    pthread_mutex_unlock(&host_lock);
    return m->memory;
}

PVOID WdmMakeSection(PCWSTR Path, SIZE_T Size) { return make(Path, Size, false); }
VOID WdmMakeFile(PCWSTR Path) { make(Path, 0, true); }

static NTSTATUS open_made(const char *call, PHANDLE handle, POBJECT_ATTRIBUTES a, bool is_file)
{
    *handle = NULL;
    for (int i = 0; i < n_made; i++)
        if (made[i].is_file == is_file && a->ObjectName && RtlEqualUnicodeString(&made[i].name, a->ObjectName, TRUE)) {
            *handle = is_file ? new_handle(*IoFileObjectType, &made[i].file) : new_handle((POBJECT_TYPE)&section_type, &made[i]);
            return *handle ? STATUS_SUCCESS : STATUS_INSUFFICIENT_RESOURCES;
        }
    return refused(call);
}

NTSTATUS ZwOpenSection(PHANDLE Section, ACCESS_MASK Access, POBJECT_ATTRIBUTES Attributes)
{
    (void)Access;
    return open_made("ZwOpenSection", Section, Attributes, false);
}

NTSTATUS ZwMapViewOfSection(HANDLE Section, HANDLE Process, PVOID *Base, ULONG_PTR ZeroBits, SIZE_T Commit,
                            PLARGE_INTEGER Offset, PSIZE_T Size, SECTION_INHERIT Inherit, ULONG Allocation,
                            ULONG Protection)
{
    const Made *m = handle_object(Section, (POBJECT_TYPE)&section_type);
    (void)Process, (void)ZeroBits, (void)Commit, (void)Offset, (void)Inherit, (void)Allocation, (void)Protection;
    if (!m)
        return STATUS_INVALID_HANDLE;
    *Base = m->memory;
    *Size = m->size;
    return STATUS_SUCCESS;
}

NTSTATUS ZwUnmapViewOfSection(HANDLE Process, PVOID Base)
{
    (void)Process;
    return Base ? STATUS_SUCCESS : STATUS_INVALID_PARAMETER;
}

NTSTATUS ZwCreateSection(PHANDLE Section, ACCESS_MASK Access, POBJECT_ATTRIBUTES Attributes, PLARGE_INTEGER Size,
                         ULONG Protection, ULONG Allocation, HANDLE File)
{
    (void)Section, (void)Access, (void)Attributes, (void)Size, (void)Protection, (void)Allocation, (void)File;
    return refused("ZwCreateSection");
}

NTSTATUS ZwOpenFile(PHANDLE File, ACCESS_MASK Access, POBJECT_ATTRIBUTES Attributes, PIO_STATUS_BLOCK Iosb, ULONG Share,
                    ULONG Options)
{
    (void)Access, (void)Share, (void)Options;
    NTSTATUS status;
    if (!open_by_name(File, Attributes, &status))
        status = open_made("ZwOpenFile", File, Attributes, true);
    Iosb->Status = status;
    Iosb->Information = FILE_OPENED;
    return status;
}

NTSTATUS ZwCreateFile(PHANDLE File, ACCESS_MASK Access, POBJECT_ATTRIBUTES Attributes, PIO_STATUS_BLOCK Iosb,
                      PLARGE_INTEGER Size, ULONG FileAttributes, ULONG Share, ULONG Disposition, ULONG Options,
                      PVOID Ea, ULONG EaLength)
{
    (void)Size, (void)FileAttributes, (void)Disposition, (void)Ea, (void)EaLength;
    return ZwOpenFile(File, Access, Attributes, Iosb, Share, Options);
}

/* What is written goes nowhere. */
NTSTATUS ZwWriteFile(HANDLE File, HANDLE Event, PIO_APC_ROUTINE Apc, PVOID Context, PIO_STATUS_BLOCK Iosb, PVOID Buffer,
                     ULONG Length, PLARGE_INTEGER Offset, PULONG Key)
{
    (void)Event, (void)Apc, (void)Context, (void)Key;
    if (transfer_by_handle(File, IRP_MJ_WRITE, Iosb, Buffer, Length, Offset))
        return Iosb->Status;
    if (!handle_object(File, *IoFileObjectType))
        return STATUS_INVALID_HANDLE;
    Iosb->Status = STATUS_SUCCESS;
    Iosb->Information = Length;
    return STATUS_SUCCESS;
}

NTSTATUS ZwReadFile(HANDLE File, HANDLE Event, PIO_APC_ROUTINE Apc, PVOID Context, PIO_STATUS_BLOCK Iosb, PVOID Buffer,
                    ULONG Length, PLARGE_INTEGER Offset, PULONG Key)
{
    (void)Event, (void)Apc, (void)Context, (void)Key;
    return transfer_by_handle(File, IRP_MJ_READ, Iosb, Buffer, Length, Offset) ? Iosb->Status : refused("ZwReadFile");
}

NTSTATUS ZwQueryInformationFile(HANDLE File, PIO_STATUS_BLOCK Iosb, PVOID Information, ULONG Length, ULONG Class)
{
    (void)File, (void)Iosb, (void)Information, (void)Length, (void)Class;
    return refused("ZwQueryInformationFile");
}

NTSTATUS ZwSetInformationFile(HANDLE File, PIO_STATUS_BLOCK Iosb, PVOID Information, ULONG Length, ULONG Class)
{
    (void)File, (void)Iosb, (void)Information, (void)Length, (void)Class;
    return refused("ZwSetInformationFile");
}
