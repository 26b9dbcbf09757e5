/*
 * unwritten.c: bytes of a system buffer that go to a program, and that nobody wrote.
 *
 * The I/O manager doesn't clear what lies behind the input of a control: what was in the pool before is there, and as many
 * bytes as Information says come out. Here a pattern lies there in a program's control. Told is a dispatch that completes it
 * and has sent nothing: what came from another device may have come from a test's, which writes nothing. Fewer bytes in a row
 * than the layout of a structure may leave out aren't told.
 *
 * The same is told of bytes that a driver copies there from a block or a variable that it hasn't set: new blocks have a value
 * of their own, and so have variables where the compiler gives them one (WDM_FILLED). The test is the host's own then, in
 * whose input there is neither.
 */
#include "rules/rules.h"
#include "io/io.h"
#include "mm/mm.h"
#include "test/test.h"

enum { LEAST_ROW = 8 };

static UCHAR pattern_at(size_t i) { return (UCHAR)(0xA5 ^ (i * 29)); }

/* A packet is sent for the first time whose system buffer has this much input. */
void fill_behind_input(Packet *p, size_t input)
{
    if (p->buffer.has_pattern || !p->buffer.bytes || p->irp->AssociatedIrp.SystemBuffer != p->buffer.bytes->bytes)
        return;
    p->buffer.has_pattern = true;
    for (size_t i = input; i < p->buffer.bytes->size; i++)
        p->buffer.bytes->bytes[i] = (char)pattern_at(i);
}

/* The host's own device completes it, and says that it wrote all: zeros. */
static void clear_pattern(const Packet *p, size_t input)
{
    for (size_t i = input; i < p->buffer.bytes->size; i++)
        if ((UCHAR)p->buffer.bytes->bytes[i] == pattern_at(i))
            p->buffer.bytes->bytes[i] = 0;
}

static bool is_in_dispatch(const Packet *p, int by)
{
    const Frame *f = on_top(p);
    return f && f->kind == DISPATCH && f->device == by && !f->sent;
}

typedef struct { size_t first, length; } Row;
enum { AS_PATTERN = -1 };

/* The longest row of bytes of this value, or of the pattern. */
static Row longest_row(const Packet *p, size_t from, size_t to, int value)
{
    Row longest = { 0, 0 };
    for (size_t i = from, n = 0; i < to && i < p->buffer.bytes->size; i++) {
        n = (UCHAR)p->buffer.bytes->bytes[i] == (value == AS_PATTERN ? pattern_at(i) : (UCHAR)value) ? n + 1 : 0;
        if (n > longest.length)
            longest = (Row){ i + 1 - n, n };
    }
    return longest;
}

static void tell_row(const Packet *p, Row r, uint64_t information, const char *what)
{
    if (r.length >= LEAST_ROW)
        broken("Unwritten", p, "completed with Information %lu, and %s bytes %zu to %zu of the system buffer: what is in "
               "kernel memory goes to the program", (unsigned long)information, what, r.first, r.first + r.length - 1);
}

/* A device completes it with so many bytes, of which the first ones are input. */
void check_written(const Packet *p, int by, size_t input, uint64_t information)
{
    if (!p->buffer.has_pattern || p->irp->AssociatedIrp.SystemBuffer != p->buffer.bytes->bytes)
        return;
    if (is_bottom(devices[by].raw))
        clear_pattern(p, input);
    if (!is_in_dispatch(p, by))
        return;
    tell_row(p, longest_row(p, input, information, AS_PATTERN), information, "nobody wrote");
    if (options.filled < 0)
        return;
    tell_row(p, longest_row(p, 0, information, FRESH_BYTE), information, "a block that isn't set was copied to");
    tell_row(p, longest_row(p, 0, information, options.filled), information, "a variable that isn't set was copied to");
}
