/*
 * transcript_output.c: a transcript is put into a file; or into a hash that doesn't depend on which seats, slots and use
 * numbers it happened to get, and for which no text is made.
 *
 * In the hash seats, packets and tags count as what they are in the order in which they come first. Steps don't count. A
 * text of the lines counts by where it stands in the program, another word by its letters.
 */
#include "record/transcript.h"

enum { MOST = 1 << 12 };
typedef enum { SEATS, PACKETS, TAGS, NAMED } Named;
static uint64_t named[MOST][NAMED]; /* side by side, since each page that a run writes is put back */
static int n_named[NAMED];

static void add(Text *t, uint64_t n)
{
    t->hash = (t->hash ^ n) * 0x9E3779B97F4A7C15u;
    t->hash ^= t->hash >> 29;
}

static void add_string(Text *t, const char *s)
{
    for (; *s; s++)
        add(t, (unsigned char)*s);
    add(t, 0);
}

static void add_name(Text *t, Named kind, uint64_t name)
{
    int i = 0;
    while (i < n_named[kind] && named[i][kind] != name)
        i++;
    if (i == n_named[kind] && i < MOST)
        named[n_named[kind]++][kind] = name;
    add(t, (uint64_t)i);
}

static void hash_text(IrpxLines *to, const char *text) { add((Text *)to, (uintptr_t)text); }
static void hash_word(IrpxLines *to, const char *word) { add_string((Text *)to, word); }
static void hash_number(IrpxLines *to, uint64_t value) { add((Text *)to, value); }
static void hash_seat(IrpxLines *to, int seat) { add_name((Text *)to, SEATS, (uint64_t)seat); }

static void hash_irp(IrpxLines *to, unsigned slot, uint64_t use)
{
    add_name((Text *)to, PACKETS, (uint64_t)slot << 40 | use);
}

void begin_hash(Text *t)
{
    *t = (Text){ .lines = { hash_text, hash_word, hash_number, hash_seat, hash_irp }, .hash = 0xcbf29ce484222325u };
    memset(n_named, 0, sizeof n_named);
}

static void write_text(IrpxLines *to, const char *text)
{
    for (; *text; text++)
        putc(*text == '\'' ? '"' : *text, ((Text *)to)->out);
}

static void write_word(IrpxLines *to, const char *word) { fputs(word, ((Text *)to)->out); }

static void write_number(IrpxLines *to, uint64_t value) { fprintf(((Text *)to)->out, "%lu", (unsigned long)value); }

static void write_seat(IrpxLines *to, int seat) { fprintf(((Text *)to)->out, "%d", seat); }

static void write_irp(IrpxLines *to, unsigned slot, uint64_t use)
{
    fprintf(((Text *)to)->out, "%u,%lu", slot, (unsigned long)use);
}

void begin_file(Text *t, FILE *out)
{
    *t = (Text){ .lines = { write_text, write_word, write_number, write_seat, write_irp }, .out = out };
}

void put_tag(Text *t, uint64_t tag)
{
    if (t->out)
        fprintf(t->out, "%lu", (unsigned long)tag);
    else
        add_name(t, TAGS, tag);
}

void put_step(Text *t, unsigned step)
{
    if (t->out)
        fprintf(t->out, "%u", step);
}
