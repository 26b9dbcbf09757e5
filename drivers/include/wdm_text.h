/* wdm_text.h: counted strings, and text of 16-bit characters: wcslen and the like count those, whatever <wchar.h> of this
   machine says. */
#ifndef WDM_TEXT_H
#define WDM_TEXT_H

#include "wdm_base.h"
#include <stdio.h>

#define RTL_CONSTANT_STRING(s) { sizeof(s) - sizeof((s)[0]), sizeof(s), (PVOID)(s) }
#define DECLARE_CONST_UNICODE_STRING(name, s) const UNICODE_STRING name = RTL_CONSTANT_STRING(s)
#define DECLARE_UNICODE_STRING_SIZE(name, count) \
    WCHAR name##_buffer[count]; UNICODE_STRING name = { 0, (count) * sizeof(WCHAR), name##_buffer }
#define DECLARE_GLOBAL_CONST_UNICODE_STRING(name, s) const UNICODE_STRING name = RTL_CONSTANT_STRING(s)
#define RtlInitEmptyUnicodeString(t, buffer, n) \
    ((t)->Length = 0, (t)->MaximumLength = (USHORT)(n), (void)((t)->Buffer = (buffer)))
#define RtlInitEmptyAnsiString(t, buffer, n) \
    ((t)->Length = 0, (t)->MaximumLength = (USHORT)(n), (void)((t)->Buffer = (buffer)))
#define UNICODE_STRING_MAX_BYTES 65534
#define UNICODE_STRING_MAX_CHARS 32767
VOID RtlInitUnicodeString(PUNICODE_STRING Target, PCWSTR Source);
NTSTATUS RtlUnicodeStringInit(PUNICODE_STRING Target, PCWSTR Source);
VOID RtlCopyUnicodeString(PUNICODE_STRING Target, PCUNICODE_STRING Source);
BOOLEAN RtlEqualUnicodeString(PCUNICODE_STRING A, PCUNICODE_STRING B, BOOLEAN IgnoreCase);
LONG RtlCompareUnicodeString(PCUNICODE_STRING A, PCUNICODE_STRING B, BOOLEAN IgnoreCase);
BOOLEAN RtlPrefixUnicodeString(PCUNICODE_STRING Prefix, PCUNICODE_STRING Text, BOOLEAN IgnoreCase);
NTSTATUS RtlAppendUnicodeToString(PUNICODE_STRING Target, PCWSTR Source);
NTSTATUS RtlAppendUnicodeStringToString(PUNICODE_STRING Target, PCUNICODE_STRING Source);
WCHAR RtlUpcaseUnicodeChar(WCHAR Character);
WCHAR RtlDowncaseUnicodeChar(WCHAR Character);
NTSTATUS RtlIntegerToUnicodeString(ULONG Value, ULONG Base, PUNICODE_STRING Target);
NTSTATUS RtlInt64ToUnicodeString(ULONGLONG Value, ULONG Base, PUNICODE_STRING Target);
NTSTATUS RtlUnicodeStringToInteger(PCUNICODE_STRING Source, ULONG Base, PULONG Value);
NTSTATUS RtlGUIDFromString(PCUNICODE_STRING Text, GUID *Guid);

VOID RtlInitAnsiString(PANSI_STRING Target, PCSZ Source);
#define RtlInitString RtlInitAnsiString
VOID RtlCopyString(PSTRING Target, const STRING *Source);
BOOLEAN RtlEqualString(const STRING *A, const STRING *B, BOOLEAN IgnoreCase);
LONG RtlCompareString(const STRING *A, const STRING *B, BOOLEAN IgnoreCase);
CHAR RtlUpperChar(CHAR Character);
NTSTATUS RtlUnicodeToMultiByteN(PCHAR To, ULONG Room, PULONG Written, PCWCH From, ULONG Bytes);
NTSTATUS RtlMultiByteToUnicodeN(PWCH To, ULONG Room, PULONG Written, const CHAR *From, ULONG Bytes);
ULONG RtlAnsiStringToUnicodeSize(PCANSI_STRING Text);
ULONG RtlUnicodeStringToAnsiSize(PCUNICODE_STRING Text);
NTSTATUS RtlCharToInteger(PCSZ Text, ULONG Base, PULONG Value);

/* Strings that are allocated come from pool. */
NTSTATUS WdmRtlFold(PUNICODE_STRING Target, PCUNICODE_STRING Source, BOOLEAN Allocate, BOOLEAN Up, WDM_SITE at);
NTSTATUS WdmRtlStringFromGuid(const GUID *Guid, PUNICODE_STRING Text, WDM_SITE at);
NTSTATUS WdmRtlDuplicate(PCUNICODE_STRING Source, PUNICODE_STRING Target, WDM_SITE at);
NTSTATUS WdmRtlAnsiToUnicode(PUNICODE_STRING Target, PCANSI_STRING Source, BOOLEAN Allocate, WDM_SITE at);
NTSTATUS WdmRtlUnicodeToAnsi(PANSI_STRING Target, PCUNICODE_STRING Source, BOOLEAN Allocate, WDM_SITE at);
VOID WdmRtlFreeUnicodeString(PUNICODE_STRING Text, WDM_SITE at);
VOID WdmRtlFreeAnsiString(PANSI_STRING Text, WDM_SITE at);
#define RtlUpcaseUnicodeString(to, from, allocate) WdmRtlFold((to), (from), (BOOLEAN)(allocate), TRUE, WDM_HERE)
#define RtlDowncaseUnicodeString(to, from, allocate) WdmRtlFold((to), (from), (BOOLEAN)(allocate), FALSE, WDM_HERE)
#define RtlStringFromGUID(guid, text) WdmRtlStringFromGuid((guid), (text), WDM_HERE)
#define RtlDuplicateUnicodeString(flags, from, to) ((void)(flags), WdmRtlDuplicate((from), (to), WDM_HERE))
#define RtlAnsiStringToUnicodeString(to, from, allocate) \
    WdmRtlAnsiToUnicode((to), (from), (BOOLEAN)(allocate), WDM_HERE)
#define RtlUnicodeStringToAnsiString(to, from, allocate) \
    WdmRtlUnicodeToAnsi((to), (from), (BOOLEAN)(allocate), WDM_HERE)
#define RtlFreeUnicodeString(text) WdmRtlFreeUnicodeString((text), WDM_HERE)
#define RtlFreeAnsiString(text) WdmRtlFreeAnsiString((text), WDM_HERE)
#define RtlFreeOemString RtlFreeAnsiString

/* Text of 16-bit characters with a 0 at its end. The formats are those of DbgPrint. */
#define wcslen WdmWcslen
#define wcsnlen WdmWcsnlen
#define wcscpy WdmWcscpy
#define wcsncpy WdmWcsncpy
#define wcscat WdmWcscat
#define wcsncat WdmWcsncat
#define wcscmp WdmWcscmp
#define wcsncmp WdmWcsncmp
#define wcsicmp WdmWcsicmp
#define _wcsicmp WdmWcsicmp
#define wcsnicmp WdmWcsnicmp
#define _wcsnicmp WdmWcsnicmp
#define wcschr WdmWcschr
#define wcsrchr WdmWcsrchr
#define wcsstr WdmWcsstr
#define wcsspn WdmWcsspn
#define wcscspn WdmWcscspn
#define wcstol WdmWcstol
#define wcstoul WdmWcstoul
#define _wtoi WdmWtoi
#define _wtol WdmWtoi
#define towupper WdmTowupper
#define towlower WdmTowlower
#define swprintf WdmSwprintf
#define _snwprintf WdmSwprintf
#define vswprintf WdmVswprintf
#define _vsnwprintf WdmVswprintf
size_t WdmWcslen(const WCHAR *s);
size_t WdmWcsnlen(const WCHAR *s, size_t most);
WCHAR *WdmWcscpy(WCHAR *to, const WCHAR *s);
WCHAR *WdmWcsncpy(WCHAR *to, const WCHAR *s, size_t n);
WCHAR *WdmWcscat(WCHAR *to, const WCHAR *s);
WCHAR *WdmWcsncat(WCHAR *to, const WCHAR *s, size_t n);
int WdmWcscmp(const WCHAR *a, const WCHAR *b);
int WdmWcsncmp(const WCHAR *a, const WCHAR *b, size_t n);
int WdmWcsicmp(const WCHAR *a, const WCHAR *b);
int WdmWcsnicmp(const WCHAR *a, const WCHAR *b, size_t n);
WCHAR *WdmWcschr(const WCHAR *s, WCHAR c);
WCHAR *WdmWcsrchr(const WCHAR *s, WCHAR c);
WCHAR *WdmWcsstr(const WCHAR *s, const WCHAR *part);
size_t WdmWcsspn(const WCHAR *s, const WCHAR *set);
size_t WdmWcscspn(const WCHAR *s, const WCHAR *set);
long WdmWcstol(const WCHAR *s, WCHAR **end, int base);
unsigned long WdmWcstoul(const WCHAR *s, WCHAR **end, int base);
int WdmWtoi(const WCHAR *s);
unsigned WdmTowupper(unsigned c);
unsigned WdmTowlower(unsigned c);
int WdmSwprintf(WCHAR *to, size_t room, const WCHAR *format, ...);
int WdmVswprintf(WCHAR *to, size_t room, const WCHAR *format, va_list list);
#define _stricmp strcasecmp
#define _strnicmp strncasecmp
#define stricmp strcasecmp
#define strnicmp strncasecmp
int strcasecmp(const char *a, const char *b);
int strncasecmp(const char *a, const char *b, size_t n);
#define _snprintf snprintf
#define _vsnprintf vsnprintf

/* ntstrsafe.h: sizes in bytes (Cb) or characters (Cch). A text that doesn't fit is cut off, with an end. */
#define NTSTRSAFE_MAX_CCH 2147483647
#define NTSTRSAFE_MAX_LENGTH (NTSTRSAFE_MAX_CCH - 1)
NTSTATUS RtlStringCchCopyNW(PWSTR To, size_t Room, PCWSTR From, size_t Most);
NTSTATUS RtlStringCchCopyNA(PSTR To, size_t Room, PCSTR From, size_t Most);
NTSTATUS RtlStringCchCatNW(PWSTR To, size_t Room, PCWSTR From, size_t Most);
NTSTATUS RtlStringCchCatNA(PSTR To, size_t Room, PCSTR From, size_t Most);
NTSTATUS RtlStringCchLengthW(PCWSTR Text, size_t Room, size_t *Length);
NTSTATUS RtlStringCchLengthA(PCSTR Text, size_t Room, size_t *Length);
NTSTATUS RtlStringCbLengthW(PCWSTR Text, size_t Room, size_t *Length);
NTSTATUS RtlStringCchPrintfW(PWSTR To, size_t Room, PCWSTR Format, ...);
NTSTATUS RtlStringCchPrintfA(PSTR To, size_t Room, PCSTR Format, ...);
NTSTATUS RtlStringCchVPrintfW(PWSTR To, size_t Room, PCWSTR Format, va_list List);
NTSTATUS RtlStringCchVPrintfA(PSTR To, size_t Room, PCSTR Format, va_list List);
#define RtlStringCchCopyW(to, room, from) RtlStringCchCopyNW((to), (room), (from), NTSTRSAFE_MAX_CCH)
#define RtlStringCchCopyA(to, room, from) RtlStringCchCopyNA((to), (room), (from), NTSTRSAFE_MAX_CCH)
#define RtlStringCchCatW(to, room, from) RtlStringCchCatNW((to), (room), (from), NTSTRSAFE_MAX_CCH)
#define RtlStringCchCatA(to, room, from) RtlStringCchCatNA((to), (room), (from), NTSTRSAFE_MAX_CCH)
#define RtlStringCbCopyW(to, room, from) RtlStringCchCopyW((to), (room) / sizeof(WCHAR), (from))
#define RtlStringCbCopyA RtlStringCchCopyA
#define RtlStringCbCopyNW(to, room, from, n) RtlStringCchCopyNW((to), (room) / sizeof(WCHAR), (from), (n) / sizeof(WCHAR))
#define RtlStringCbCopyNA RtlStringCchCopyNA
#define RtlStringCbCatW(to, room, from) RtlStringCchCatW((to), (room) / sizeof(WCHAR), (from))
#define RtlStringCbCatA RtlStringCchCatA
#define RtlStringCbCatNW(to, room, from, n) RtlStringCchCatNW((to), (room) / sizeof(WCHAR), (from), (n) / sizeof(WCHAR))
#define RtlStringCbCatNA RtlStringCchCatNA
#define RtlStringCbLengthA RtlStringCchLengthA
#define RtlStringCbPrintfW(to, room, ...) RtlStringCchPrintfW((to), (room) / sizeof(WCHAR), __VA_ARGS__)
#define RtlStringCbPrintfA RtlStringCchPrintfA
#define RtlStringCbVPrintfW(to, room, f, list) RtlStringCchVPrintfW((to), (room) / sizeof(WCHAR), (f), (list))
#define RtlStringCbVPrintfA RtlStringCchVPrintfA

#endif
