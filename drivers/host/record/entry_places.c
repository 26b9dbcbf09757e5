/* entry_places.c: FILE.places, beside the transcript FILE: whose code made each entry and in which line, and what else
   was recorded, in one order. docs/FORMATS.md has its form. Nobody judges it. */
#include "record/own.h"
#include "explore/explore.h"
#include "ke/ke.h"
#include <fcntl.h>
#include <sys/stat.h>
#include <unistd.h>

/* The entry begins in the call that runs. */
void begun_here(Entry *e)
{
    if (!self.calls || is_exploring)
        return;
    e->at = (CallSite){ self.calls->at, self.calls->name };
    e->driver = calling_driver();
    e->under = self.frames ? self.frames->fn : NULL;
}

/* Who was asked decides by the call that runs. */
void decided_here(Asked *a)
{
    if (self.calls)
        a->at = (CallSite){ self.calls->at, self.calls->name };
}

/* Who was asked decides by what it has done so far: the place is that of its last call. */
void decided_by(Asked *a, const Frame *f) { a->at = (CallSite){ f->last, f->last_call }; }

void put_json_text(FILE *o, const char *text)
{
    fputc('"', o);
    for (; *text; text++)
        if (*text == '"' || *text == '\\')
            fprintf(o, "\\%c", *text);
        else if ((unsigned char)*text < ' ')
            fprintf(o, "\\u%04x", *text);
        else
            fputc(*text, o);
    fputc('"', o);
}

/* A list of the functions at these addresses. */
static void put_functions(FILE *o, void *const *table, int n)
{
    fputc('[', o);
    for (int i = 0; i < n; i++) {
        fputs(i ? "," : "", o);
        put_json_text(o, function_name(table[i]));
    }
    fputc(']', o);
}

/* The call, its file, function and line; nothing where no driver or test made it. */
void put_call_site(FILE *o, const CallSite *at)
{
    if (!at->site.file || !at->call)
        return;
    const char *slash = strrchr(at->site.file, '/');
    fputs("\"call\":", o);
    put_json_text(o, at->call);
    fputs(",\"file\":", o);
    put_json_text(o, slash ? slash + 1 : at->site.file);
    fputs(",\"function\":", o);
    put_json_text(o, at->site.function);
    fprintf(o, ",\"line\":%d", at->site.line);
}

/* The function at an address, or "?": a name is looked up once, mostly. */
static const char *name_of(const void *address)
{
    static struct { const void *address; const char *name; } known[64];
    const size_t i = (uintptr_t)address / 16 % 64;
    if (known[i].address != address)
        known[i].address = address, known[i].name = function_name(address);
    return known[i].name;
}

static void put_caller(FILE *o, const Entry *e)
{
    put_call_site(o, &e->at);
    if (!e->at.site.file || !e->at.call)
        return;
    if (e->by_host)
        fputs(",\"by_host\":true", o);
    if (e->driver >= 0) {
        fputs(",\"driver\":", o);
        put_json_text(o, drivers[e->driver]->HostName);
    }
    if (e->under && strcmp(name_of(e->under), e->at.site.function) && *name_of(e->under) != '?') {
        fputs(",\"under\":", o);
        put_json_text(o, name_of(e->under));
    }
}

static void put_entry(FILE *o, size_t number)
{
    const Entry *e = history[number];
    fputs("{\"asked\":[", o);
    for (int i = 0; i < e->n; i++) {
        fputs(i ? ",{" : "{", o);
        put_call_site(o, &e->asked[i].at);
        fputs("}", o);
    }
    fprintf(o, "],\"began\":%lu,\"by\":{", e->began);
    put_caller(o, e);
    fprintf(o, "},\"n\":%zu,\"order\":%lu}\n", e->number, e->order);
}

typedef struct { unsigned long order; void (*put_one)(FILE *o, size_t i); size_t i; } Line;
static Line *lines;
static size_t n_lines, lines_room;

void add_line(unsigned long order, void (*put_one)(FILE *o, size_t i), size_t i)
{
    if (n_lines == lines_room) {
        lines_room = lines_room ? 2 * lines_room : 1024;
        lines = realloc(lines, lines_room * sizeof *lines);
        if (!lines)
            give_up("out of memory");
    }
    lines[n_lines++] = (Line){ order, put_one, i };
}

static int by_order(const void *a, const void *b)
{
    const Line *p = a, *q = b;
    return p->order < q->order ? -1 : p->order > q->order;
}

/* All that is recorded, in one order. */
static void put_lines(FILE *out, size_t n)
{
    n_lines = 0;
    for (size_t i = 0; i < n; i++)
        add_line(history[i]->order, put_entry, i);
    add_words();
    add_switches();
    add_told();
    qsort(lines, n_lines, sizeof *lines, by_order);
    for (size_t i = 0; i < n_lines; i++)
        lines[i].put_one(out, lines[i].i);
}

/* Which transcript it is, the devices' drivers, and the functions behind the numbers of its tables. */
static void put_head(FILE *o, size_t bytes, uint32_t crc, size_t n)
{
    fprintf(o, "{\"bytes\":%zu,\"cancels\":", bytes);
    put_functions(o, ids.cancels, ids.n_cancels);
    fputs(",\"completions\":[", o);
    for (int rule = 0; rule < 5; rule++) {
        fputs(rule ? "," : "", o);
        put_functions(o, ids.routines[rule], ids.n_routines[rule]);
    }
    fprintf(o, "],\"crc\":%u,\"devices\":[", crc);
    for (int i = 0; i < n_devices; i++) {
        fputs(i ? "," : "", o);
        put_json_text(o, devices[i].driver->HostName);
    }
    fputs("],\"dispatches\":", o);
    put_functions(o, ids.dispatches, ids.n_dispatches);
    fprintf(o, ",\"entries\":%zu}\n", n);
}

/* How many bytes the file has, and their CRC-32 as zlib counts it, so that a reader knows the transcript again. */
static size_t read_back(int file, uint32_t *crc)
{
    static unsigned char part[1 << 16];
    size_t size = 0;
    ssize_t n;
    *crc = ~0u;
    while ((n = read(file, part, sizeof part)) > 0) {
        size += (size_t)n;
        for (ssize_t i = 0; i < n; i++) {
            *crc ^= part[i];
            for (int k = 0; k < 8; k++)
                *crc = *crc >> 1 ^ (*crc & 1 ? 0xEDB88320u : 0);
        }
    }
    *crc = ~*crc;
    return size;
}

/* Writes what is known of the first n entries beside the transcript that stands in that file. */
void write_places(const char *path, size_t n)
{
    char name[4096];
    struct stat what;
    uint32_t crc;
    const int file = open(path, O_RDONLY | O_CLOEXEC);
    if (file < 0 || fstat(file, &what) || !S_ISREG(what.st_mode) ||
        snprintf(name, sizeof name, "%s.places", path) >= (int)sizeof name) {
        if (file >= 0)
            close(file);
        return;
    }
    const size_t bytes = read_back(file, &crc);
    close(file);
    FILE *out = open_high(name);
    if (!out)
        return;
    put_head(out, bytes, crc, n);
    put_lines(out, n);
    fclose(out);
}
