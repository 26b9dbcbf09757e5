/* registry.c: a registry in memory, of keys by their whole paths. It is empty but for what the test and drivers set. */
#include "ob/ob.h"
#include "explore/explore.h"
#include "rtl/rtl.h"

typedef struct Value {
    struct Value *next;
    UNICODE_STRING name;
    ULONG type, size;
    PVOID data;
} Value;
struct Key {
    struct Key *next;
    UNICODE_STRING path;
    Value *values;
    bool is_gone;
};
typedef struct Key Key;
static Key *keys;
static struct _OBJECT_TYPE { const char *name; } key_type = { "key" };
static pthread_mutex_t registry_lock = PTHREAD_MUTEX_INITIALIZER; /* nothing is called under it */

static Key *find_key(PCUNICODE_STRING path)
{
    for (Key *k = keys; k; k = k->next)
        if (!k->is_gone && RtlEqualUnicodeString(&k->path, path, TRUE))
            return k;
    return NULL;
}

/* Finds a key, or makes it, with those above it. */
static Key *make_key(PCUNICODE_STRING path, bool *is_new)
{
    Key *k = find_key(path);
    *is_new = !k;
    if (k || !(k = calloc(1, sizeof *k)))
        return k;
    copy_text(&k->path, path);
    k->next = keys;
    keys = k;
    UNICODE_STRING above = *path;
    while (above.Length && above.Buffer[above.Length / sizeof(WCHAR) - 1] != '\\')
        above.Length -= sizeof(WCHAR);
    if (above.Length > sizeof(WCHAR)) {
        bool ignored;
        above.Length -= sizeof(WCHAR);
        make_key(&above, &ignored);
    }
    return k;
}

static Value **find_value(Key *k, PCUNICODE_STRING name)
{
    Value **v = &k->values;
    while (*v && !RtlEqualUnicodeString(&(*v)->name, name, TRUE))
        v = &(*v)->next;
    return v;
}

static NTSTATUS set_value(Key *k, PCUNICODE_STRING name, ULONG type, const void *data, ULONG size)
{
    Value **v = find_value(k, name);
    PVOID copy = malloc(size ? size : 1);
    if (!copy || (!*v && !(*v = calloc(1, sizeof **v))))
        return STATUS_INSUFFICIENT_RESOURCES;
    memcpy(copy, data, size);
    if (!(*v)->name.Buffer)
        copy_text(&(*v)->name, name);
    (*v)->type = type;
    (*v)->size = size;
    (*v)->data = copy;
    return STATUS_SUCCESS;
}

/* The whole path that attributes name: below their root, where they have one. Returns FALSE where the root is none. */
static BOOLEAN path_of(POBJECT_ATTRIBUTES a, PUNICODE_STRING path, PWSTR room, size_t count)
{
    const Key *root = a->RootDirectory ? handle_object(a->RootDirectory, (POBJECT_TYPE)&key_type) : NULL;
    *path = (UNICODE_STRING){ 0, (USHORT)(count * sizeof(WCHAR)), room };
    if (a->RootDirectory && !root)
        return FALSE;
    if (root) {
        RtlCopyUnicodeString(path, &root->path);
        if (a->ObjectName && a->ObjectName->Length)
            RtlAppendUnicodeToString(path, L"\\");
    }
    return !a->ObjectName || NT_SUCCESS(RtlAppendUnicodeStringToString(path, a->ObjectName));
}

static NTSTATUS open_key(PHANDLE handle, POBJECT_ATTRIBUTES attributes, bool makes, PULONG disposition)
{
    WCHAR room[512];
    UNICODE_STRING path;
    bool is_new = false;
    *handle = NULL;
    if (!path_of(attributes, &path, room, ARRAYSIZE(room)))
        return STATUS_INVALID_HANDLE;
    pthread_mutex_lock(&registry_lock);
    touch(&registry_lock, SYNCS);
    Key *k = makes ? make_key(&path, &is_new) : find_key(&path);
    pthread_mutex_unlock(&registry_lock);
    if (!k)
        return makes ? STATUS_INSUFFICIENT_RESOURCES : STATUS_OBJECT_NAME_NOT_FOUND;
    if (disposition)
        *disposition = is_new ? REG_CREATED_NEW_KEY : REG_OPENED_EXISTING_KEY;
    *handle = new_handle((POBJECT_TYPE)&key_type, k);
    return *handle ? STATUS_SUCCESS : STATUS_INSUFFICIENT_RESOURCES;
}

NTSTATUS ZwOpenKey(PHANDLE Handle, ACCESS_MASK Access, POBJECT_ATTRIBUTES Attributes)
{
    (void)Access;
    return open_key(Handle, Attributes, false, NULL);
}

NTSTATUS ZwCreateKey(PHANDLE Handle, ACCESS_MASK Access, POBJECT_ATTRIBUTES Attributes, ULONG Index,
                     PUNICODE_STRING Class, ULONG Options, PULONG Disposition)
{
    (void)Access, (void)Index, (void)Class, (void)Options;
    return open_key(Handle, Attributes, true, Disposition);
}

/* Writes a value in the layout of a class. */
static NTSTATUS tell_value(const Value *v, KEY_VALUE_INFORMATION_CLASS class, PVOID to, ULONG room, PULONG needed)
{
    const ULONG name = v->name.Length, full = (ULONG)((offsetof(KEY_VALUE_FULL_INFORMATION, Name) + name + 7) & ~7u);
    const ULONG fixed = class == KeyValueBasicInformation ? offsetof(KEY_VALUE_BASIC_INFORMATION, Name)
        : class == KeyValueFullInformation ? offsetof(KEY_VALUE_FULL_INFORMATION, Name)
                                           : offsetof(KEY_VALUE_PARTIAL_INFORMATION, Data);
    const ULONG bytes = class == KeyValueBasicInformation ? fixed + name
        : class == KeyValueFullInformation                ? full + v->size
                                                          : fixed + v->size;
    *needed = bytes;
    if (room < fixed)
        return STATUS_BUFFER_TOO_SMALL;
    if (class == KeyValueBasicInformation) {
        KEY_VALUE_BASIC_INFORMATION *b = to;
        b->TitleIndex = 0, b->Type = v->type, b->NameLength = name;
        memcpy(b->Name, v->name.Buffer, room - fixed < name ? room - fixed : name);
    } else if (class == KeyValueFullInformation) {
        KEY_VALUE_FULL_INFORMATION *f = to;
        f->TitleIndex = 0, f->Type = v->type, f->DataOffset = full, f->DataLength = v->size, f->NameLength = name;
        if (room >= bytes) {
            memcpy(f->Name, v->name.Buffer, name);
            memcpy((char *)to + full, v->data, v->size);
        }
    } else {
        KEY_VALUE_PARTIAL_INFORMATION *p = to;
        p->TitleIndex = 0, p->Type = v->type, p->DataLength = v->size;
        memcpy(p->Data, v->data, room - fixed < v->size ? room - fixed : v->size);
    }
    return room < bytes ? STATUS_BUFFER_OVERFLOW : STATUS_SUCCESS;
}

static Key *key_of(HANDLE handle)
{
    Key *k = handle_object(handle, (POBJECT_TYPE)&key_type);
    return k && !k->is_gone ? k : NULL;
}

NTSTATUS ZwQueryValueKey(HANDLE Key_, PUNICODE_STRING Name, KEY_VALUE_INFORMATION_CLASS Class, PVOID Information,
                         ULONG Length, PULONG Needed)
{
    Key *k = key_of(Key_);
    NTSTATUS status = k ? STATUS_OBJECT_NAME_NOT_FOUND : STATUS_INVALID_HANDLE;
    pthread_mutex_lock(&registry_lock);
    touch(&registry_lock, SYNCS);
    Value *v = k ? *find_value(k, Name) : NULL;
    if (v)
        status = tell_value(v, Class, Information, Length, Needed);
    pthread_mutex_unlock(&registry_lock);
    return status;
}

NTSTATUS ZwSetValueKey(HANDLE Key_, PUNICODE_STRING Name, ULONG Index, ULONG Type, PVOID Data, ULONG Size)
{
    Key *k = key_of(Key_);
    (void)Index;
    if (!k)
        return STATUS_INVALID_HANDLE;
    pthread_mutex_lock(&registry_lock);
    touch(&registry_lock, SYNCS);
    const NTSTATUS status = set_value(k, Name, Type, Data, Size);
    pthread_mutex_unlock(&registry_lock);
    return status;
}

NTSTATUS ZwDeleteValueKey(HANDLE Key_, PUNICODE_STRING Name)
{
    Key *k = key_of(Key_);
    if (!k)
        return STATUS_INVALID_HANDLE;
    pthread_mutex_lock(&registry_lock);
    touch(&registry_lock, SYNCS);
    Value **v = find_value(k, Name);
    const bool is_there = *v != NULL;
    if (is_there)
        *v = (*v)->next;
    pthread_mutex_unlock(&registry_lock);
    return is_there ? STATUS_SUCCESS : STATUS_OBJECT_NAME_NOT_FOUND;
}

NTSTATUS ZwDeleteKey(HANDLE Key_)
{
    Key *k = key_of(Key_);
    if (k)
        k->is_gone = true;
    return k ? STATUS_SUCCESS : STATUS_INVALID_HANDLE;
}

/* The key of a number among those right below this one, or NULL. */
static Key *child(const Key *above, ULONG number)
{
    for (Key *k = keys; k; k = k->next) {
        const USHORT n = above->path.Length;
        if (k->is_gone || k->path.Length <= n + sizeof(WCHAR) || k->path.Buffer[n / sizeof(WCHAR)] != '\\' ||
            !RtlPrefixUnicodeString(&above->path, &k->path, TRUE) ||
            WdmWcschr(k->path.Buffer + n / sizeof(WCHAR) + 1, '\\'))
            continue;
        if (!number--)
            return k;
    }
    return NULL;
}

static NTSTATUS tell_name(PCUNICODE_STRING name, KEY_INFORMATION_CLASS class, PVOID to, ULONG room, PULONG needed)
{
    const ULONG fixed = class == KeyNameInformation ? offsetof(KEY_NAME_INFORMATION, Name)
                                                    : offsetof(KEY_BASIC_INFORMATION, Name);
    *needed = fixed + name->Length;
    if (class != KeyNameInformation && class != KeyBasicInformation)
        return STATUS_NOT_SUPPORTED;
    if (room < fixed)
        return STATUS_BUFFER_TOO_SMALL;
    memset(to, 0, fixed);
    ((PULONG)to)[fixed / 4 - 1] = name->Length;
    memcpy((char *)to + fixed, name->Buffer, room - fixed < name->Length ? room - fixed : name->Length);
    return room < *needed ? STATUS_BUFFER_OVERFLOW : STATUS_SUCCESS;
}

NTSTATUS ZwEnumerateKey(HANDLE Key_, ULONG Index, KEY_INFORMATION_CLASS Class, PVOID Information, ULONG Length,
                        PULONG Needed)
{
    const Key *k = key_of(Key_);
    if (!k)
        return STATUS_INVALID_HANDLE;
    pthread_mutex_lock(&registry_lock);
    touch(&registry_lock, SYNCS);
    const Key *found = child(k, Index);
    NTSTATUS status = STATUS_NO_MORE_ENTRIES;
    if (found) {
        const USHORT skipped = (USHORT)(k->path.Length + sizeof(WCHAR));
        const UNICODE_STRING name = { (USHORT)(found->path.Length - skipped), 0,
                                      found->path.Buffer + skipped / sizeof(WCHAR) };
        status = tell_name(&name, Class, Information, Length, Needed);
    }
    pthread_mutex_unlock(&registry_lock);
    return status;
}

NTSTATUS ZwEnumerateValueKey(HANDLE Key_, ULONG Index, KEY_VALUE_INFORMATION_CLASS Class, PVOID Information,
                             ULONG Length, PULONG Needed)
{
    const Key *k = key_of(Key_);
    if (!k)
        return STATUS_INVALID_HANDLE;
    pthread_mutex_lock(&registry_lock);
    touch(&registry_lock, SYNCS);
    const Value *v = k->values;
    while (v && Index--)
        v = v->next;
    const NTSTATUS status = v ? tell_value(v, Class, Information, Length, Needed) : STATUS_NO_MORE_ENTRIES;
    pthread_mutex_unlock(&registry_lock);
    return status;
}

NTSTATUS ZwQueryKey(HANDLE Key_, KEY_INFORMATION_CLASS Class, PVOID Information, ULONG Length, PULONG Needed)
{
    const Key *k = key_of(Key_);
    if (!k)
        return STATUS_INVALID_HANDLE;
    if (Class != KeyFullInformation)
        return tell_name(&k->path, Class, Information, Length, Needed);
    *Needed = sizeof(KEY_FULL_INFORMATION);
    if (Length < *Needed)
        return STATUS_BUFFER_TOO_SMALL;
    KEY_FULL_INFORMATION *f = Information;
    *f = (KEY_FULL_INFORMATION){ .ClassOffset = offsetof(KEY_FULL_INFORMATION, Class) };
    pthread_mutex_lock(&registry_lock);
    touch(&registry_lock, SYNCS);
    while (child(k, f->SubKeys))
        f->SubKeys++;
    for (const Value *v = k->values; v; v = v->next) {
        f->Values++;
        f->MaxValueNameLen = max(f->MaxValueNameLen, v->name.Length);
        f->MaxValueDataLen = max(f->MaxValueDataLen, v->size);
    }
    pthread_mutex_unlock(&registry_lock);
    return STATUS_SUCCESS;
}

NTSTATUS ZwFlushKey(HANDLE Key_) { return key_of(Key_) ? STATUS_SUCCESS : STATUS_INVALID_HANDLE; }

VOID WdmSetRegistry(PCWSTR Path, PCWSTR Name, ULONG Type, const VOID *Data, ULONG Size)
{
    UNICODE_STRING path, name;
    bool is_new;
    RtlInitUnicodeString(&path, Path);
    RtlInitUnicodeString(&name, Name);
    pthread_mutex_lock(&registry_lock);
    touch(&registry_lock, SYNCS);
    Key *k = make_key(&path, &is_new);
    if (k)
        set_value(k, &name, Type, Data, Size);
    pthread_mutex_unlock(&registry_lock);
}
