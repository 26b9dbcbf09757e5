/* text.c: counted strings. A string of bytes is UTF-8 here; letters are folded as far as Latin-1 goes. */
#include "rtl/rtl.h"

/* Makes 16-bit characters of UTF-8. Returns how many there are; at most `room` of them are in `to`. */
size_t to_wide(WCHAR *to, size_t room, const char *from, size_t count)
{
    size_t n = 0;
    for (size_t i = 0; i < count;) {
        const unsigned char c = (unsigned char)from[i];
        const int more = c < 0xc0 ? 0 : c < 0xe0 ? 1 : 2;
        unsigned value = !more ? c : c & (more == 1 ? 0x1f : 0x0f);
        for (int j = 1; j <= more && i + (size_t)j < count; j++)
            value = value << 6 | ((unsigned char)from[i + (size_t)j] & 0x3f);
        if (n < room)
            to[n] = (WCHAR)value;
        n++;
        i += (size_t)more + 1;
    }
    return n < room || !to ? n : room;
}

/* Makes UTF-8 of 16-bit characters, likewise. */
static size_t to_narrow(char *to, size_t room, const WCHAR *from, size_t count)
{
    size_t n = 0;
    for (size_t i = 0; i < count; i++) {
        char made[3];
        const unsigned c = from[i];
        const size_t bytes = c < 0x80 ? 1 : c < 0x800 ? 2 : 3;
        made[0] = (char)(bytes == 1 ? c : bytes == 2 ? 0xc0 | c >> 6 : 0xe0 | c >> 12);
        made[1] = (char)(0x80 | (bytes == 2 ? c & 0x3f : (c >> 6 & 0x3f)));
        made[2] = (char)(0x80 | (c & 0x3f));
        if (to && n + bytes > room)
            break;
        if (to)
            memcpy(to + n, made, bytes);
        n += bytes;
    }
    return n;
}

VOID RtlInitUnicodeString(PUNICODE_STRING Target, PCWSTR Source)
{
    const USHORT length = (USHORT)(Source ? WdmWcslen(Source) * sizeof(WCHAR) : 0);
    *Target = (UNICODE_STRING){ length, Source ? (USHORT)(length + sizeof(WCHAR)) : 0, (PWSTR)Source };
}

NTSTATUS RtlUnicodeStringInit(PUNICODE_STRING Target, PCWSTR Source)
{
    if (Source && WdmWcslen(Source) > UNICODE_STRING_MAX_CHARS)
        return STATUS_INVALID_PARAMETER;
    RtlInitUnicodeString(Target, Source);
    return STATUS_SUCCESS;
}

VOID RtlCopyUnicodeString(PUNICODE_STRING Target, PCUNICODE_STRING Source)
{
    Target->Length = 0;
    if (Source)
        RtlAppendUnicodeStringToString(Target, Source);
}

WCHAR RtlUpcaseUnicodeChar(WCHAR Character) { return (WCHAR)WdmTowupper(Character); }
WCHAR RtlDowncaseUnicodeChar(WCHAR Character) { return (WCHAR)WdmTowlower(Character); }

LONG RtlCompareUnicodeString(PCUNICODE_STRING A, PCUNICODE_STRING B, BOOLEAN IgnoreCase)
{
    for (USHORT i = 0; i < A->Length / sizeof(WCHAR) && i < B->Length / sizeof(WCHAR); i++) {
        const LONG a = IgnoreCase ? RtlUpcaseUnicodeChar(A->Buffer[i]) : A->Buffer[i];
        const LONG b = IgnoreCase ? RtlUpcaseUnicodeChar(B->Buffer[i]) : B->Buffer[i];
        if (a != b)
            return a - b;
    }
    return (LONG)A->Length - (LONG)B->Length;
}

BOOLEAN RtlEqualUnicodeString(PCUNICODE_STRING A, PCUNICODE_STRING B, BOOLEAN IgnoreCase)
{
    return A->Length == B->Length && RtlCompareUnicodeString(A, B, IgnoreCase) == 0;
}

BOOLEAN RtlPrefixUnicodeString(PCUNICODE_STRING Prefix, PCUNICODE_STRING Text, BOOLEAN IgnoreCase)
{
    UNICODE_STRING start = { Prefix->Length, Prefix->Length, Text->Buffer };
    return Prefix->Length <= Text->Length && RtlEqualUnicodeString(Prefix, &start, IgnoreCase);
}

NTSTATUS RtlAppendUnicodeStringToString(PUNICODE_STRING Target, PCUNICODE_STRING Source)
{
    const USHORT room = (USHORT)(Target->MaximumLength - Target->Length);
    const USHORT n = Source->Length < room ? Source->Length : room;
    if (n)
        memcpy((char *)Target->Buffer + Target->Length, Source->Buffer, n);
    Target->Length = (USHORT)(Target->Length + n);
    if (Target->Length + sizeof(WCHAR) <= Target->MaximumLength)
        Target->Buffer[Target->Length / sizeof(WCHAR)] = 0;
    return n < Source->Length ? STATUS_BUFFER_TOO_SMALL : STATUS_SUCCESS;
}

NTSTATUS RtlAppendUnicodeToString(PUNICODE_STRING Target, PCWSTR Source)
{
    UNICODE_STRING text;
    RtlInitUnicodeString(&text, Source);
    return RtlAppendUnicodeStringToString(Target, &text);
}

/* A copy that is the host's own. Returns whether there was memory for it. */
bool copy_text(PUNICODE_STRING to, PCUNICODE_STRING from)
{
    *to = (UNICODE_STRING){ from->Length, (USHORT)(from->Length + sizeof(WCHAR)), calloc(1, from->Length + sizeof(WCHAR)) };
    if (to->Buffer && from->Length)
        memcpy(to->Buffer, from->Buffer, from->Length);
    return to->Buffer != NULL;
}

/* Gives the string memory for so many bytes and an end, where it is to be allocated. Returns whether it has room. */
static BOOLEAN make_room(PUNICODE_STRING text, size_t bytes, BOOLEAN allocate, WDM_SITE at)
{
    if (allocate) {
        text->Buffer = WdmAllocatePool(WDM_POOL_ZERO, bytes + sizeof(WCHAR), 0, at);
        text->MaximumLength = (USHORT)(bytes + sizeof(WCHAR));
    }
    text->Length = (USHORT)bytes;
    return text->Buffer && bytes <= text->MaximumLength && bytes <= UNICODE_STRING_MAX_BYTES;
}

NTSTATUS WdmRtlFold(PUNICODE_STRING Target, PCUNICODE_STRING Source, BOOLEAN Allocate, BOOLEAN Up, WDM_SITE at)
{
    if (!make_room(Target, Source->Length, Allocate, at))
        return Allocate ? STATUS_NO_MEMORY : STATUS_BUFFER_OVERFLOW;
    for (size_t i = 0; i < Source->Length / sizeof(WCHAR); i++)
        Target->Buffer[i] = (WCHAR)(Up ? WdmTowupper(Source->Buffer[i]) : WdmTowlower(Source->Buffer[i]));
    return STATUS_SUCCESS;
}

NTSTATUS WdmRtlDuplicate(PCUNICODE_STRING Source, PUNICODE_STRING Target, WDM_SITE at)
{
    if (!make_room(Target, Source->Length, TRUE, at))
        return STATUS_NO_MEMORY;
    memcpy(Target->Buffer, Source->Buffer, Source->Length);
    return STATUS_SUCCESS;
}

VOID WdmRtlFreeUnicodeString(PUNICODE_STRING Text, WDM_SITE at)
{
    if (Text->Buffer)
        WdmFreePool(Text->Buffer, 0, FALSE, at);
    *Text = (UNICODE_STRING){ 0 };
}

NTSTATUS RtlInt64ToUnicodeString(ULONGLONG Value, ULONG Base, PUNICODE_STRING Target)
{
    WCHAR digits[65];
    size_t n = 64;
    const ULONG base = Base ? Base : 10;
    if (base != 2 && base != 8 && base != 10 && base != 16)
        return STATUS_INVALID_PARAMETER;
    digits[64] = 0;
    do {
        digits[--n] = (WCHAR)"0123456789ABCDEF"[Value % base];
        Value /= base;
    } while (Value);
    if ((64 - n) * sizeof(WCHAR) > Target->MaximumLength)
        return STATUS_BUFFER_OVERFLOW;
    Target->Length = 0;
    return RtlAppendUnicodeToString(Target, digits + n);
}

NTSTATUS RtlIntegerToUnicodeString(ULONG Value, ULONG Base, PUNICODE_STRING Target)
{
    return RtlInt64ToUnicodeString(Value, Base, Target);
}

/* The number that a text begins with: by its own prefix (0x, 0o, 0b) where no base is given. */
static NTSTATUS read_number(const char *text, ULONG base, PULONG value)
{
    while (*text == ' ')
        text++;
    const bool is_negative = *text == '-';
    text += *text == '-' || *text == '+';
    if (!base && text[0] == '0' && strchr("xob", text[1] ? text[1] : ' ')) {
        base = text[1] == 'x' ? 16 : text[1] == 'o' ? 8 : 2;
        text += 2;
    }
    if (base && base != 2 && base != 8 && base != 10 && base != 16)
        return STATUS_INVALID_PARAMETER;
    const ULONG found = (ULONG)strtoull(text, NULL, base ? (int)base : 10);
    *value = is_negative ? 0u - found : found;
    return STATUS_SUCCESS;
}

NTSTATUS RtlCharToInteger(PCSZ Text, ULONG Base, PULONG Value) { return read_number(Text, Base, Value); }

NTSTATUS RtlUnicodeStringToInteger(PCUNICODE_STRING Source, ULONG Base, PULONG Value)
{
    char text[80];
    const size_t n = to_narrow(text, sizeof text - 1, Source->Buffer, Source->Length / sizeof(WCHAR));
    text[n] = 0;
    return read_number(text, Base, Value);
}

NTSTATUS WdmRtlStringFromGuid(const GUID *Guid, PUNICODE_STRING Text, WDM_SITE at)
{
    WCHAR made[40];
    const UCHAR *d = Guid->Data4;
    if (!make_room(Text, 38 * sizeof(WCHAR), TRUE, at))
        return STATUS_NO_MEMORY;
    WdmSwprintf(made, ARRAYSIZE(made), L"{%08X-%04X-%04X-%02X%02X-%02X%02X%02X%02X%02X%02X}", Guid->Data1, Guid->Data2,
                Guid->Data3, d[0], d[1], d[2], d[3], d[4], d[5], d[6], d[7]);
    memcpy(Text->Buffer, made, 38 * sizeof(WCHAR));
    return STATUS_SUCCESS;
}

NTSTATUS RtlGUIDFromString(PCUNICODE_STRING Text, GUID *Guid)
{
    char t[40] = { 0 };
    unsigned long one;
    unsigned two, three, d[8];
    const size_t n = to_narrow(t, sizeof t - 1, Text->Buffer, Text->Length / sizeof(WCHAR));
    if (n != 38 || sscanf(t, "{%8lx-%4x-%4x-%2x%2x-%2x%2x%2x%2x%2x%2x}", &one, &two, &three, &d[0], &d[1], &d[2], &d[3],
                          &d[4], &d[5], &d[6], &d[7]) != 11)
        return STATUS_INVALID_PARAMETER;
    *Guid = (GUID){ (ULONG)one, (USHORT)two, (USHORT)three, { 0 } };
    for (int i = 0; i < 8; i++)
        Guid->Data4[i] = (UCHAR)d[i];
    return STATUS_SUCCESS;
}

VOID RtlInitAnsiString(PANSI_STRING Target, PCSZ Source)
{
    const USHORT length = (USHORT)(Source ? strlen(Source) : 0);
    *Target = (ANSI_STRING){ length, Source ? (USHORT)(length + 1) : 0, (PCHAR)Source };
}

VOID RtlCopyString(PSTRING Target, const STRING *Source)
{
    const USHORT length = Source ? Source->Length : 0;
    Target->Length = length < Target->MaximumLength ? length : Target->MaximumLength;
    if (Target->Length)
        memcpy(Target->Buffer, Source->Buffer, Target->Length);
}

CHAR RtlUpperChar(CHAR Character) { return Character >= 'a' && Character <= 'z' ? (CHAR)(Character - 32) : Character; }

LONG RtlCompareString(const STRING *A, const STRING *B, BOOLEAN IgnoreCase)
{
    for (USHORT i = 0; i < A->Length && i < B->Length; i++) {
        const LONG a = IgnoreCase ? RtlUpperChar(A->Buffer[i]) : A->Buffer[i];
        const LONG b = IgnoreCase ? RtlUpperChar(B->Buffer[i]) : B->Buffer[i];
        if (a != b)
            return a - b;
    }
    return (LONG)A->Length - (LONG)B->Length;
}

BOOLEAN RtlEqualString(const STRING *A, const STRING *B, BOOLEAN IgnoreCase)
{
    return A->Length == B->Length && RtlCompareString(A, B, IgnoreCase) == 0;
}

VOID WdmRtlFreeAnsiString(PANSI_STRING Text, WDM_SITE at)
{
    if (Text->Buffer)
        WdmFreePool(Text->Buffer, 0, FALSE, at);
    *Text = (ANSI_STRING){ 0 };
}

ULONG RtlAnsiStringToUnicodeSize(PCANSI_STRING Text)
{
    return (ULONG)((to_wide(NULL, 0, Text->Buffer, Text->Length) + 1) * sizeof(WCHAR));
}

ULONG RtlUnicodeStringToAnsiSize(PCUNICODE_STRING Text)
{
    return (ULONG)to_narrow(NULL, 0, Text->Buffer, Text->Length / sizeof(WCHAR)) + 1;
}

NTSTATUS WdmRtlAnsiToUnicode(PUNICODE_STRING Target, PCANSI_STRING Source, BOOLEAN Allocate, WDM_SITE at)
{
    const size_t bytes = RtlAnsiStringToUnicodeSize(Source) - sizeof(WCHAR);
    if (!make_room(Target, bytes, Allocate, at))
        return Allocate ? STATUS_NO_MEMORY : STATUS_BUFFER_OVERFLOW;
    to_wide(Target->Buffer, bytes / sizeof(WCHAR), Source->Buffer, Source->Length);
    return STATUS_SUCCESS;
}

NTSTATUS WdmRtlUnicodeToAnsi(PANSI_STRING Target, PCUNICODE_STRING Source, BOOLEAN Allocate, WDM_SITE at)
{
    const size_t bytes = RtlUnicodeStringToAnsiSize(Source) - 1;
    if (Allocate) {
        Target->Buffer = WdmAllocatePool(WDM_POOL_ZERO, bytes + 1, 0, at);
        Target->MaximumLength = (USHORT)(bytes + 1);
    }
    if (!Target->Buffer || bytes > Target->MaximumLength)
        return Allocate ? STATUS_NO_MEMORY : STATUS_BUFFER_OVERFLOW;
    Target->Length = (USHORT)to_narrow(Target->Buffer, bytes, Source->Buffer, Source->Length / sizeof(WCHAR));
    return STATUS_SUCCESS;
}

NTSTATUS RtlUnicodeToMultiByteN(PCHAR To, ULONG Room, PULONG Written, PCWCH From, ULONG Bytes)
{
    const size_t n = to_narrow(To, Room, From, Bytes / sizeof(WCHAR));
    if (Written)
        *Written = (ULONG)n;
    return STATUS_SUCCESS;
}

NTSTATUS RtlMultiByteToUnicodeN(PWCH To, ULONG Room, PULONG Written, const CHAR *From, ULONG Bytes)
{
    const size_t n = to_wide(To, Room / sizeof(WCHAR), From, Bytes);
    if (Written)
        *Written = (ULONG)(n * sizeof(WCHAR));
    return STATUS_SUCCESS;
}
