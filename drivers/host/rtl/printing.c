/* printing.c: what drivers print for their debugger goes to standard error. Formats are those of the WDK: L"" strings
   and counted strings, %I64, and an `l` that stands for 32 bits. */
#include "record/record.h"

#include <stdio.h>

/* One print has at most so many bytes, as in Windows; what is printed to memory may have more. */
enum { MOST_PRINTED = 512, MOST_BYTES = 4096 };

typedef struct { char bytes[MOST_BYTES]; size_t count; bool is_wide; } Line;

/* One conversion: what stands between % and its letter. */
typedef struct { char flags[8]; int width, precision; bool is_wide, is_long, is_short; } Conversion;

static void put(Line *line, char c)
{
    if (line->count < MOST_BYTES) line->bytes[line->count++] = c;
}

/* Puts text with its width: to the left of the blanks where the flags have a minus. */
static void put_text(Line *line, const Conversion *how, const char *text, size_t count)
{
    size_t blanks = how->width > 0 && (size_t)how->width > count ? (size_t)how->width - count : 0;
    bool is_left = strchr(how->flags, '-') != NULL;
    for (size_t i = 0; !is_left && i < blanks; i++) put(line, ' ');
    for (size_t i = 0; i < count; i++) put(line, text[i]);
    for (size_t i = 0; is_left && i < blanks; i++) put(line, ' ');
}

/* Puts 16-bit characters as UTF-8; what stands for no character alone is a question mark. */
static void put_wide(Line *line, const Conversion *how, const WCHAR *text, size_t count)
{
    char made[MOST_BYTES];
    size_t used = 0;
    for (size_t i = 0; i < count && used + 4 <= sizeof made; i++) {
        uint32_t c = (uint16_t)text[i];
        if (c < 0x80) {
            made[used++] = (char)c;
        } else if (c < 0x800) {
            made[used++] = (char)(0xC0 | c >> 6);
            made[used++] = (char)(0x80 | (c & 0x3F));
        } else if (c < 0xD800 || c > 0xDFFF) {
            made[used++] = (char)(0xE0 | c >> 12);
            made[used++] = (char)(0x80 | (c >> 6 & 0x3F));
            made[used++] = (char)(0x80 | (c & 0x3F));
        } else {
            made[used++] = '?';
        }
    }
    put_text(line, how, made, used);
}

/* How many characters of a string with an end are printed. */
static size_t narrow_count(const char *text, int precision)
{
    size_t most = precision < 0 ? MOST_BYTES : (size_t)precision, count = 0;
    while (count < most && text[count]) count++;
    return count;
}

static size_t wide_count(const WCHAR *text, int precision)
{
    size_t most = precision < 0 ? MOST_BYTES : (size_t)precision, count = 0;
    while (count < most && text[count]) count++;
    return count;
}

static void put_string(Line *line, const Conversion *how, char letter, const void *text)
{
    if (!text) {
        put_text(line, how, "(null)", 6);
    } else if (letter == 'Z') {
        const UNICODE_STRING *counted = text;
        put_wide(line, how, counted->Buffer, counted->Buffer ? counted->Length / sizeof(WCHAR) : 0);
    } else if (!how->is_short && (how->is_wide || line->is_wide != (letter == 'S'))) {
        put_wide(line, how, text, wide_count(text, how->precision));
    } else {
        put_text(line, how, text, narrow_count(text, how->precision));
    }
}

static void put_number(Line *line, const Conversion *how, char letter, uint64_t value)
{
    char format[32], made[96];
    bool is_signed = letter == 'd' || letter == 'i';
    if (!how->is_long) value = is_signed ? (uint64_t)(int64_t)(int32_t)value : (uint32_t)value;
    if (how->is_short) value = is_signed ? (uint64_t)(int64_t)(int16_t)value : (uint16_t)value;
    snprintf(format, sizeof format, "%%%s*.*ll%c", how->flags, letter);
    int width = how->width < 0 ? 0 : how->width > 64 ? 64 : how->width;
    int precision = how->precision > 64 ? 64 : how->precision;
    int count = snprintf(made, sizeof made, format, width, precision, (unsigned long long)value);
    for (int i = 0; i < count && i < (int)sizeof made - 1; i++) put(line, made[i]);
}

/* Reads digits, or a star, which stands for the next argument; -1 where there is neither. */
static int read_count(const char **at, va_list *list)
{
    if (**at == '*') {
        ++*at;
        return va_arg(*list, int);
    }
    int value = -1;
    for (; **at >= '0' && **at <= '9' && value < 10000; ++*at) value = (value < 0 ? 0 : value) * 10 + (**at - '0');
    return value;
}

static void read_length(const char **at, Conversion *how)
{
    for (;; ++*at) {
        if (!strncmp(*at, "I64", 3) || !strncmp(*at, "I32", 3)) {
            how->is_long = (*at)[1] == '6';
            *at += 2;
        } else if (!strncmp(*at, "ll", 2)) {
            how->is_long = true;
            ++*at;
        } else if (**at == 'I' || **at == 'z' || **at == 'j' || **at == 't') {
            how->is_long = true;
        } else if (**at == 'w' || **at == 'l') {
            how->is_wide = true;
        } else if (**at == 'h') {
            how->is_short = true;
        } else {
            return;
        }
    }
}

static Conversion read_conversion(const char **at, va_list *list)
{
    Conversion how = { .width = -1, .precision = -1 };
    for (size_t i = 0; **at && strchr("-+ #0", **at); ++*at)
        if (i + 1 < sizeof how.flags) how.flags[i++] = **at;
    how.width = read_count(at, list);
    if (**at == '.') {
        ++*at;
        how.precision = read_count(at, list);
        if (how.precision < 0) how.precision = 0;
    }
    read_length(at, &how);
    return how;
}

/* Puts one argument, by the letter of its conversion. */
static void put_argument(Line *line, Conversion *how, char letter, va_list *list)
{
    if (strchr("sSZ", letter)) {
        put_string(line, how, letter, va_arg(*list, const void *));
    } else if (letter == 'c' || letter == 'C') {
        WCHAR wide = (WCHAR)va_arg(*list, int);
        put_wide(line, how, &wide, 1);
    } else if (letter == 'p') {
        how->is_long = true;
        how->precision = 16;
        put_number(line, how, 'X', (uint64_t)(uintptr_t)va_arg(*list, void *));
    } else if (strchr("diouxX", letter)) {
        put_number(line, how, letter, how->is_long ? va_arg(*list, uint64_t) : va_arg(*list, unsigned));
    } else {
        put(line, letter);
    }
}

static void print(Line *line, PCSTR format, va_list given)
{
    va_list list;
    va_copy(list, given);
    for (const char *at = format; *at; at++) {
        if (*at != '%') {
            put(line, *at);
            continue;
        }
        at++;
        Conversion how = read_conversion(&at, &list);
        if (!*at) break;
        put_argument(line, &how, *at, &list);
    }
    va_end(list);
}

/* Prints by a format of 16-bit characters, in which %s stands for text of such characters. Returns how many bytes of
   UTF-8 were made; at most `room` of them are in `to`. */
size_t print_wide(char *to, size_t room, const WCHAR *format, va_list list)
{
    static const Conversion plainly = { .width = -1, .precision = -1 };
    Line made = { .count = 0 }, line = { .is_wide = true };
    put_wide(&made, &plainly, format, wide_count(format, -1));
    put(&made, 0);
    made.bytes[MOST_BYTES - 1] = 0;
    print(&line, made.bytes, list);
    memcpy(to, line.bytes, line.count < room ? line.count : room);
    return line.count;
}

ULONG vDbgPrintEx(ULONG Component, ULONG Level, PCSTR Format, va_list List)
{
    (void)Component, (void)Level;
    Line line = { .count = 0 };
    print(&line, Format, List);
    const size_t count = line.count < MOST_PRINTED ? line.count : MOST_PRINTED;
    write_error(line.bytes, count);
    return STATUS_SUCCESS;
}

ULONG DbgPrint(PCSTR Format, ...)
{
    va_list list;
    va_start(list, Format);
    ULONG status = vDbgPrintEx(0, DPFLTR_INFO_LEVEL, Format, list);
    va_end(list);
    return status;
}

ULONG DbgPrintEx(ULONG Component, ULONG Level, PCSTR Format, ...)
{
    va_list list;
    va_start(list, Format);
    ULONG status = vDbgPrintEx(Component, Level, Format, list);
    va_end(list);
    return status;
}
