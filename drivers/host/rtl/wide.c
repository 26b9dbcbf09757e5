/* wide.c: text of 16-bit characters with a 0 at its end. Letters are folded as far as Latin-1 goes. */
#include "rtl/own.h"

unsigned WdmTowupper(unsigned c)
{
    const bool is_small = (c >= 'a' && c <= 'z') || (c >= 0xe0 && c <= 0xfe && c != 0xf7);
    return is_small ? c - 32 : c;
}

unsigned WdmTowlower(unsigned c)
{
    const bool is_large = (c >= 'A' && c <= 'Z') || (c >= 0xc0 && c <= 0xde && c != 0xd7);
    return is_large ? c + 32 : c;
}

size_t WdmWcsnlen(const WCHAR *s, size_t most)
{
    size_t n = 0;
    while (n < most && s[n])
        n++;
    return n;
}

size_t WdmWcslen(const WCHAR *s) { return WdmWcsnlen(s, SIZE_MAX); }

WCHAR *WdmWcscpy(WCHAR *to, const WCHAR *s) { return memmove(to, s, (WdmWcslen(s) + 1) * sizeof *s); }

WCHAR *WdmWcsncpy(WCHAR *to, const WCHAR *s, size_t n)
{
    const size_t count = WdmWcsnlen(s, n);
    memmove(to, s, count * sizeof *s);
    memset(to + count, 0, (n - count) * sizeof *s);
    return to;
}

WCHAR *WdmWcscat(WCHAR *to, const WCHAR *s) { return WdmWcscpy(to + WdmWcslen(to), s), to; }

WCHAR *WdmWcsncat(WCHAR *to, const WCHAR *s, size_t n)
{
    const size_t at = WdmWcslen(to), count = WdmWcsnlen(s, n);
    memmove(to + at, s, count * sizeof *s);
    to[at + count] = 0;
    return to;
}

static int compare(const WCHAR *a, const WCHAR *b, size_t n, bool folds)
{
    for (size_t i = 0; i < n; i++) {
        const unsigned x = folds ? WdmTowlower(a[i]) : a[i], y = folds ? WdmTowlower(b[i]) : b[i];
        if (x != y || !x)
            return (int)x - (int)y;
    }
    return 0;
}

int WdmWcscmp(const WCHAR *a, const WCHAR *b) { return compare(a, b, SIZE_MAX, false); }
int WdmWcsncmp(const WCHAR *a, const WCHAR *b, size_t n) { return compare(a, b, n, false); }
int WdmWcsicmp(const WCHAR *a, const WCHAR *b) { return compare(a, b, SIZE_MAX, true); }
int WdmWcsnicmp(const WCHAR *a, const WCHAR *b, size_t n) { return compare(a, b, n, true); }

WCHAR *WdmWcschr(const WCHAR *s, WCHAR c)
{
    for (;; s++) {
        if (*s == c)
            return (WCHAR *)s;
        if (!*s)
            return NULL;
    }
}

WCHAR *WdmWcsrchr(const WCHAR *s, WCHAR c)
{
    for (size_t i = WdmWcslen(s) + 1; i > 0; i--)
        if (s[i - 1] == c)
            return (WCHAR *)s + i - 1;
    return NULL;
}

WCHAR *WdmWcsstr(const WCHAR *s, const WCHAR *part)
{
    const size_t n = WdmWcslen(part);
    for (;; s++) {
        if (!compare(s, part, n, false))
            return (WCHAR *)s;
        if (!*s)
            return NULL;
    }
}

static size_t span(const WCHAR *s, const WCHAR *set, bool inside)
{
    size_t n = 0;
    while (s[n] && (WdmWcschr(set, s[n]) != NULL) == inside)
        n++;
    return n;
}

size_t WdmWcsspn(const WCHAR *s, const WCHAR *set) { return span(s, set, true); }
size_t WdmWcscspn(const WCHAR *s, const WCHAR *set) { return span(s, set, false); }

/* The first characters of a text, as the C library reads numbers. */
static size_t number_text(char *to, size_t room, const WCHAR *s)
{
    size_t n = 0;
    while (n + 1 < room && s[n] && s[n] < 0x80) {
        to[n] = (char)s[n];
        n++;
    }
    to[n] = 0;
    return n;
}

long WdmWcstol(const WCHAR *s, WCHAR **end, int base)
{
    char text[80], *last;
    number_text(text, sizeof text, s);
    const long long value = strtoll(text, &last, base);
    if (end)
        *end = (WCHAR *)s + (last - text);
    return value > MAXLONG ? MAXLONG : value < MINLONG ? MINLONG : (long)value;
}

unsigned long WdmWcstoul(const WCHAR *s, WCHAR **end, int base)
{
    char text[80], *last;
    number_text(text, sizeof text, s);
    const unsigned long long value = strtoull(text, &last, base);
    if (end)
        *end = (WCHAR *)s + (last - text);
    return value > MAXULONG ? MAXULONG : (unsigned long)value;
}

int WdmWtoi(const WCHAR *s) { return (int)WdmWcstol(s, NULL, 10); }

/* Without a buffer it returns how many it would write. As on Windows, the caller may use its list again. */
int WdmVswprintf(WCHAR *to, size_t room, const WCHAR *format, va_list list)
{
    char bytes[4096];
    va_list its;
    va_copy(its, list);
    const size_t n = print_wide(bytes, sizeof bytes, format, its);
    const size_t count = to_wide(NULL, 0, bytes, n);
    va_end(its);
    if (!to)
        return (int)count;
    if (!room)
        return -1;
    const size_t written = to_wide(to, room - 1, bytes, n);
    to[written] = 0;
    return written < count ? -1 : (int)count;
}

int WdmSwprintf(WCHAR *to, size_t room, const WCHAR *format, ...)
{
    va_list list;
    va_start(list, format);
    const int count = WdmVswprintf(to, room, format, list);
    va_end(list);
    return count;
}

/* ntstrsafe.h: what doesn't fit is cut off. */
static NTSTATUS copy_wide(PWSTR to, size_t room, PCWSTR from, size_t most)
{
    if (!room || room > NTSTRSAFE_MAX_CCH)
        return STATUS_INVALID_PARAMETER;
    const size_t count = WdmWcsnlen(from, most < room ? most : room), fits = count < room ? count : room - 1;
    memmove(to, from, fits * sizeof *to);
    to[fits] = 0;
    return fits < count ? STATUS_BUFFER_OVERFLOW : STATUS_SUCCESS;
}

static NTSTATUS copy_narrow(PSTR to, size_t room, PCSTR from, size_t most)
{
    if (!room || room > NTSTRSAFE_MAX_CCH)
        return STATUS_INVALID_PARAMETER;
    const size_t count = strnlen(from, most < room ? most : room), fits = count < room ? count : room - 1;
    memmove(to, from, fits);
    to[fits] = 0;
    return fits < count ? STATUS_BUFFER_OVERFLOW : STATUS_SUCCESS;
}

NTSTATUS RtlStringCchCopyNW(PWSTR To, size_t Room, PCWSTR From, size_t Most) { return copy_wide(To, Room, From, Most); }
NTSTATUS RtlStringCchCopyNA(PSTR To, size_t Room, PCSTR From, size_t Most) { return copy_narrow(To, Room, From, Most); }

NTSTATUS RtlStringCchCatNW(PWSTR To, size_t Room, PCWSTR From, size_t Most)
{
    const size_t at = WdmWcsnlen(To, Room);
    return at == Room ? STATUS_INVALID_PARAMETER : copy_wide(To + at, Room - at, From, Most);
}

NTSTATUS RtlStringCchCatNA(PSTR To, size_t Room, PCSTR From, size_t Most)
{
    const size_t at = strnlen(To, Room);
    return at == Room ? STATUS_INVALID_PARAMETER : copy_narrow(To + at, Room - at, From, Most);
}

static NTSTATUS tell_length(size_t count, size_t room, size_t *length)
{
    if (length)
        *length = count < room ? count : 0;
    return count < room ? STATUS_SUCCESS : STATUS_INVALID_PARAMETER;
}

NTSTATUS RtlStringCchLengthW(PCWSTR Text, size_t Room, size_t *Length)
{
    return tell_length(Text ? WdmWcsnlen(Text, Room) : Room, Room, Length);
}

NTSTATUS RtlStringCchLengthA(PCSTR Text, size_t Room, size_t *Length)
{
    return tell_length(Text ? strnlen(Text, Room) : Room, Room, Length);
}

NTSTATUS RtlStringCbLengthW(PCWSTR Text, size_t Room, size_t *Length)
{
    const NTSTATUS status = RtlStringCchLengthW(Text, Room / sizeof(WCHAR), Length);
    if (Length)
        *Length *= sizeof(WCHAR);
    return status;
}

NTSTATUS RtlStringCchVPrintfW(PWSTR To, size_t Room, PCWSTR Format, va_list List)
{
    if (!Room)
        return STATUS_INVALID_PARAMETER;
    return WdmVswprintf(To, Room, Format, List) < 0 ? STATUS_BUFFER_OVERFLOW : STATUS_SUCCESS;
}

NTSTATUS RtlStringCchVPrintfA(PSTR To, size_t Room, PCSTR Format, va_list List)
{
    if (!Room)
        return STATUS_INVALID_PARAMETER;
    const int count = vsnprintf(To, Room, Format, List);
    return count < 0 || (size_t)count >= Room ? STATUS_BUFFER_OVERFLOW : STATUS_SUCCESS;
}

NTSTATUS RtlStringCchPrintfW(PWSTR To, size_t Room, PCWSTR Format, ...)
{
    va_list list;
    va_start(list, Format);
    const NTSTATUS status = RtlStringCchVPrintfW(To, Room, Format, list);
    va_end(list);
    return status;
}

NTSTATUS RtlStringCchPrintfA(PSTR To, size_t Room, PCSTR Format, ...)
{
    va_list list;
    va_start(list, Format);
    const NTSTATUS status = RtlStringCchVPrintfA(To, Room, Format, list);
    va_end(list);
    return status;
}
