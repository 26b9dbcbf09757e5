/* oks.h: stands behind the heads of a driver of Wine's tests, and counts each of its checks: a line `FILE LINE[@CALLER]
   HELD` in the file that WINE_OKS names. Where a check stands in a function that has its caller's line, that is told
   too. */
#include <stdio.h>
#include <stdlib.h>
#include <string.h>

static inline void OksCount(const char *file, int line, int caller, int held)
{
    const char *slash = strrchr(file, '/'), *path = getenv("WINE_OKS");
    FILE *f = path ? fopen(path, "a") : NULL;
    if (!f)
        return;
    fprintf(f, "%s %d", slash ? slash + 1 : file, line);
    if (caller)
        fprintf(f, "@%d", caller);
    fprintf(f, " %d\n", held);
    fclose(f);
}

/* Whether this run has this part of the test: WINE_PART names one, or nothing for all. */
static inline int OksDoes(const char *part)
{
    const char *wanted = getenv("WINE_PART");
    return !wanted || !strcmp(wanted, part);
}

#undef ok
#undef ok_
#define ok(held, ...) OksCount(__FILE__, __LINE__, 0, (held) != 0)
#define ok_(file, caller) OKS_AT_##caller
#define OKS_AT_line(held, ...) OksCount(__FILE__, __LINE__, line, (held) != 0)
