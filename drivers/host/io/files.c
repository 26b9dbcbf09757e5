/*
 * files.c: files as the I/O manager has them. Each CREATE has a FILE_OBJECT; its DeviceObject is the stack's lowest device,
 * which is what was opened. A file counts as open, and its device as referenced, from a CREATE that succeeds to the end of
 * its CLOSE. CLEANUP comes when its handle is closed, whatever is pending; CLOSE once none of its requests and no reference
 * is left.
 */
#include "io/io.h"
#include "explore/explore.h"
#include "ke/ke.h"
#include "ob/ob.h"
#include "record/record.h"
#include "rules/rules.h"
#include "test/test.h"

enum { MAX_FILES = 4096 };
typedef struct { PFILE_OBJECT file; int seat; WDM_SITE opened; bool is_open, is_closing; } Opened;
static Opened files[MAX_FILES];
static int n_files, n_closing;
static const WDM_SITE nowhere;

static void hold_files(void)
{
    pthread_mutex_lock(&host_lock);
    touch(&host_lock, SYNCS);
}

static PDEVICE_OBJECT bottom_of(PDEVICE_OBJECT device)
{
    int d = device_number(device);
    while (devices[d].lower >= 0)
        d = devices[d].lower;
    return devices[d].raw;
}

static Opened *opened(const FILE_OBJECT *file)
{
    for (int i = n_files; file && i > 0; i--)
        if (files[i - 1].file == file)
            return &files[i - 1];
    return NULL;
}

/* The file that was opened last on the device and isn't closed. Under G. */
static PFILE_OBJECT last_open(PDEVICE_OBJECT bottom)
{
    for (int i = n_files; i > 0; i--)
        if (files[i - 1].file->DeviceObject == bottom && (files[i - 1].file->Flags & FO_FILE_OPEN))
            return files[i - 1].file;
    return NULL;
}

static PFILE_OBJECT new_file(PDEVICE_OBJECT bottom, WDM_SITE at)
{
    PFILE_OBJECT file = n_files < MAX_FILES ? host_memory(sizeof *file) : NULL;
    if (!file)
        return NULL;
    *file = (FILE_OBJECT){ .Type = IO_TYPE_FILE, .Size = sizeof *file, .DeviceObject = bottom, .ReadAccess = TRUE,
                           .WriteAccess = TRUE, .SharedRead = TRUE, .SharedWrite = TRUE,
                           .Flags = FO_FILE_OPEN | FO_SYNCHRONOUS_IO };
    files[n_files++] = (Opened){ .file = file, .seat = self.seat, .opened = at };
    return file;
}

PFILE_OBJECT file_for(PDEVICE_OBJECT top, UCHAR major, WDM_SITE at)
{
    hold_files();
    PDEVICE_OBJECT bottom = bottom_of(top);
    PFILE_OBJECT file = major == IRP_MJ_CREATE ? NULL : self.file && self.file->DeviceObject == bottom ? self.file :
        last_open(bottom);
    if (!file)
        file = new_file(bottom, at);
    if (file && major == IRP_MJ_CLEANUP)
        file->Flags |= FO_CLEANUP_COMPLETE;
    if (file && major == IRP_MJ_CLOSE)
        file->Flags &= ~(ULONG)FO_FILE_OPEN;
    pthread_mutex_unlock(&host_lock);
    return file;
}

/* A request of the I/O manager's has ended. Under G. */
void file_request_ended(const Packet *p)
{
    Opened *o = p->built.by_manager && (p->major == IRP_MJ_CREATE || p->major == IRP_MJ_CLOSE) ? opened(p->file) : NULL;
    if (!o)
        return;
    touch(o->file->DeviceObject, WRITES);
    if (p->major == IRP_MJ_CLOSE) {
        o->is_closing = o->is_open;
        n_closing += o->is_open;
    } else if (NT_SUCCESS(p->status)) {
        o->is_open = true;
        o->file->DeviceObject->ReferenceCount++;
    } else
        o->file->Flags &= ~(ULONG)FO_FILE_OPEN;
}

/* The dispatches of CLOSE have returned: its device may go, where it was deleted before. Under G. */
void let_closed_files_go(void)
{
    for (int i = 0; n_closing && i < n_files; i++)
        if (files[i].is_closing) {
            files[i].is_open = files[i].is_closing = false;
            n_closing--;
            touch(files[i].file->DeviceObject, WRITES);
            files[i].file->DeviceObject->ReferenceCount--;
            may_go(files[i].file->DeviceObject->HostNumber);
        }
}

static bool has_open_file(PDEVICE_OBJECT device)
{
    for (int i = 0; i < n_files; i++)
        if (files[i].is_open && files[i].file->DeviceObject == device)
            return true;
    return false;
}

/* Whether a file is open on the device itself. Under G. */
bool is_opened(PDEVICE_OBJECT device)
{
    touch(device, READS);
    return has_open_file(device);
}

/* A request of the file that is on its way, from this number on; or NULL. Under G. */
static Packet *request_of(const FILE_OBJECT *file, int *from)
{
    for (int i = *from; i < n_packets; i++) {
        Packet *p = packets[i];
        if (file && lives(p) && p->file == file && p->built.by_manager && (p->owner != ORIGINATOR || p->asking) &&
            p->major != IRP_MJ_CREATE && p->major != IRP_MJ_CLEANUP && p->major != IRP_MJ_CLOSE) {
            *from = i + 1;
            return p;
        }
    }
    return NULL;
}

static bool has_no_request(const void *file)
{
    int from = 0;
    return !request_of(file, &from);
}

/* Before CLEANUP is sent: which requests of the file the drivers hold by now. CLEANUP needn't find one that comes later. */
void before_cleanup(PFILE_OBJECT file)
{
    Call c;
    Packet *p;
    int from = 0;
    enter_quietly(&c, "what is held before IRP_MJ_CLEANUP", (WDM_SITE){ 0 });
    while ((p = request_of(file, &from)))
        if (p->at[p->current].came_back)
            p->held_at_cleanup = p->use;
    leave_host();
}

/* A driver has a request of the file: as one that waits in a queue, from where it can be cancelled; or without that. */
static void tell_kept(const Packet *p, const Opened *o, bool in_queue, Call *c)
{
    PDEVICE_OBJECT device = p->owner < 0 || p->asking ? NULL : devices[p->owner].raw;
    if (!device || p->held_at_cleanup != p->use || (p->routine != NULL) != in_queue || is_bottom(device) || is_between(device))
        return;
    const bool was_set = p->sites.cancel.file != NULL;
    c->name = was_set ? "IoSetCancelRoutine" : "IoCallDriver";
    c->at = was_set ? p->sites.cancel : p->sites.sent;
    broken("KeptOverCleanup", p, "%s still holds it when IRP_MJ_CLEANUP of its file, opened at %s, is over. Sent at %s",
           who(p->owner), place(o->opened), place(p->sites.sent));
}

static void tell_all_kept(const Opened *o, bool in_queue, Call *c)
{
    const Call before = *c;
    int from = 0;
    for (Packet *p = request_of(o->file, &from); p; p = request_of(o->file, &from)) {
        tell_kept(p, o, in_queue, c);
        *c = before;
    }
}

/* CLEANUP of the file is over: a driver is told that has had a request of it since before, in a queue; and, once nothing else goes on, one that
   has such a request otherwise, since it may be at work on that. */
void after_cleanup(PFILE_OBJECT file, WDM_SITE at)
{
    Call c;
    enter_host(&c, "IRP_MJ_CLEANUP", at);
    const Opened *o = opened(file);
    if (o && o->is_open)
        tell_all_kept(o, true, &c);
    if (o && o->is_open && !wait_for_host(has_no_request, file))
        tell_all_kept(o, false, &c);
    leave_host();
}

/* Before CLOSE: what is left of the file's requests is cancelled, as that of a thread that ends, and waited for. Returns
   whether none is left: else CLOSE never comes. */
bool before_close(PFILE_OBJECT file, WDM_SITE at)
{
    Call c;
    Packet *p;
    int from = 0;
    enter_host(&c, "IRP_MJ_CLOSE", at);
    const Opened *o = opened(file);
    const bool waits = o && o->is_open;
    while (waits && (p = request_of(file, &from))) {
        const uint64_t use = p->use;
        leave_host();
        cancel_if_alive(p, use, at);
        enter_host(&c, "IRP_MJ_CLOSE", at);
    }
    const bool is_free = !waits || wait_for_host(has_no_request, file);
    if (!is_free)
        note("never closed", "the file opened at %s isn't closed: a request of it never ends", place(opened(file)->opened));
    leave_host();
    return is_free;
}

/* A device ends a packet. In its CLEANUP it cancels only what is of that file. */
void check_cleanup(const Packet *p, int by, ULONG status)
{
    if (by < 0 || status != (ULONG)STATUS_CANCELLED || p->cancel || !p->file)
        return;
    const Frame *f = self.frames;
    while (f && (f->kind != DISPATCH || f->major != IRP_MJ_CLEANUP || f->device != by))
        f = f->up;
    const Opened *mine = f && f->p != p && f->p->file != p->file ? opened(f->p->file) : NULL, *its = opened(p->file);
    if (mine && its && its->is_open)
        broken("CleanupOfAnother", p, "IRP_MJ_CLEANUP of the file opened at %s cancels a request of the one opened at %s",
               place(mine->opened), place(its->opened));
}

VOID WdmUseFile(PFILE_OBJECT File) { self.file = File; }

/* What a program asks for that opens a device to read and write it. */
static IO_SECURITY_CONTEXT usual_context = { .DesiredAccess = FILE_GENERIC_READ | FILE_GENERIC_WRITE,
                                             .FullCreateOptions = FILE_SYNCHRONOUS_IO_NONALERT | FILE_NON_DIRECTORY_FILE };

void ask_to_open(PIO_STACK_LOCATION next)
{
    next->Parameters.Create.SecurityContext = &usual_context;
    next->Parameters.Create.Options = FILE_OPEN << 24 | usual_context.FullCreateOptions;
    next->Parameters.Create.FileAttributes = FILE_ATTRIBUTE_NORMAL;
    next->Parameters.Create.ShareAccess = FILE_SHARE_READ | FILE_SHARE_WRITE;
}

/* Whether a location asks for that, as nearly all do: it has no word of its own then. */
bool is_usual_open(const IO_STACK_LOCATION *l)
{
    IO_STACK_LOCATION usual = { 0 };
    ask_to_open(&usual);
    return l->MajorFunction == IRP_MJ_CREATE && !l->Flags &&
        !memcmp(&l->Parameters, &usual.Parameters, sizeof usual.Parameters);
}

/* An exclusive device is opened once. */
static bool may_be_opened(PDEVICE_OBJECT top)
{
    hold_files();
    PDEVICE_OBJECT bottom = bottom_of(top);
    const bool may = !(bottom->Flags & DO_EXCLUSIVE) || !is_opened(bottom);
    pthread_mutex_unlock(&host_lock);
    return may;
}

static NTSTATUS open_named(PDEVICE_OBJECT top, PCWSTR name, PFILE_OBJECT *file, WDM_SITE at)
{
    IO_STATUS_BLOCK iosb = { 0 };
    KEVENT ended;
    *file = NULL;
    if (!may_be_opened(top))
        return STATUS_ACCESS_DENIED;
    WdmKeInitializeEvent(&ended, NotificationEvent, FALSE);
    PIRP irp = WdmBuild(top, IRP_MJ_CREATE, 0, 0, &iosb, &ended, at);
    if (!irp)
        return STATUS_INSUFFICIENT_RESOURCES;
    *file = irp->Tail.Overlay.OriginalFileObject;
    if (*file)
        RtlInitUnicodeString(&(*file)->FileName, name);
    WdmIoCallDriver(top, irp, at);
    WdmKeWaitForSingleObject(&ended, NULL, at);
    if (!NT_SUCCESS(iosb.Status))
        *file = NULL;
    return iosb.Status;
}

NTSTATUS open_device(PDEVICE_OBJECT top, PFILE_OBJECT *file, WDM_SITE at) { return open_named(top, NULL, file, at); }

PFILE_OBJECT WdmOpenBehind(PDEVICE_OBJECT Top, PCWSTR Name, WDM_SITE at)
{
    PFILE_OBJECT file;
    open_named(Top, Name, &file, at);
    return file;
}

PFILE_OBJECT WdmOpen(PDEVICE_OBJECT Top, WDM_SITE at)
{
    PFILE_OBJECT file;
    open_device(Top, &file, at);
    return file;
}

PDEVICE_OBJECT IoGetRelatedDeviceObject(PFILE_OBJECT File) { return IoGetAttachedDevice(File->DeviceObject); }

static void send_of(PFILE_OBJECT file, UCHAR major, WDM_SITE at)
{
    PFILE_OBJECT const before = self.file;
    self.file = file;
    WdmSendAndWait(IoGetRelatedDeviceObject(file), major, 0, 0, 0, at);
    self.file = before == file && major == IRP_MJ_CLOSE ? NULL : before;
}

/* The last handle of a file is closed. */
void clean_up(PFILE_OBJECT file, WDM_SITE at)
{
    if (!(file->Flags & FO_CLEANUP_COMPLETE))
        send_of(file, IRP_MJ_CLEANUP, at);
}

VOID WdmClose(PFILE_OBJECT File, WDM_SITE at)
{
    if (!File->DeviceObject)
        return; /* one that the test made (sections.c) */
    clean_up(File, at);
    hold_files();
    File->HostCloses = is_referenced(File); /* then with its last reference */
    pthread_mutex_unlock(&host_lock);
    if (!File->HostCloses)
        send_of(File, IRP_MJ_CLOSE, at);
}

/* The last reference of a file whose handle is closed is given back: it is closed. */
void tell_files_dereferenced(PVOID object)
{
    hold_files();
    const Opened *o = opened(object);
    const bool closes = o && (o->file->Flags & FO_FILE_OPEN) && o->file->HostCloses;
    pthread_mutex_unlock(&host_lock);
    if (closes)
        send_of(object, IRP_MJ_CLOSE, nowhere);
}

/* An open file on the device's stack: of this thread, or of any. */
static PFILE_OBJECT open_on(PDEVICE_OBJECT pdo, bool only_mine)
{
    PFILE_OBJECT found = NULL;
    hold_files();
    for (int i = 0; i < n_files && !found; i++)
        if (files[i].is_open && !files[i].is_closing && files[i].file->DeviceObject == bottom_of(pdo) &&
            !is_referenced(files[i].file) && (!only_mine || files[i].seat == self.seat))
            found = files[i].file;
    pthread_mutex_unlock(&host_lock);
    return found;
}

static bool is_closed(const void *pdo) { return !has_open_file(bottom_of((PDEVICE_OBJECT)pdo)); }

/* A device that is open isn't removed. This thread closes its own files, since it waits for the removal; those of others are
   waited for. What nobody closes the host closes, as Windows does with those of a program that ends. */
void await_closed(PDEVICE_OBJECT pdo, bool only_mine)
{
    PFILE_OBJECT file, last = NULL;
    if (!only_mine) {
        Call c;
        enter_host(&c, "IRP_MN_REMOVE_DEVICE", nowhere);
        touch(&host_lock, SYNCS);
        if (!is_closed(pdo))
            wait_for_host(is_closed, pdo);
        touch(bottom_of(pdo), READS);
        leave_host();
    }
    while ((file = open_on(pdo, only_mine)) && file != last) {
        last = file;
        WdmClose(file, nowhere);
    }
}
