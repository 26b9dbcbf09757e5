/* finishing.c: the end of a test of the host's, compiled with -DWdmFinish=RecorderFinish: it writes the record too. */
#include "wdm_test.h"
#undef WdmFinish
#include "recorder.h"
#include "ending.h"
#include <unistd.h>

int RecorderFinish(void);
int WdmFinish(void);

/* How many lines the record has: its header, and the entries up to the first that isn't settled. */
static size_t lines_of_record(void)
{
    const size_t n = IrpxTranscript(NULL, 0);
    char *text = malloc(n);
    size_t lines = 0;
    if (!text)
        exit(2);
    IrpxTranscript(text, n);
    for (size_t i = 0; i < n; i++)
        lines += text[i] == '\n';
    free(text);
    return lines;
}

/* The host knows that a send has returned a moment before the recorder does, which notes it in the thread that sent: this
   gives that thread a second. */
static void wait_for_senders(void)
{
    IRPX_COUNTS counts;
    IrpxCount(&counts);
    for (int tries = 0; tries < 1000 && lines_of_record() <= (size_t)counts.entries; tries++)
        usleep(1000);
}

int RecorderFinish(void)
{
    const int status = WdmFinish();
    wait_for_senders();
    write_transcript();
    return status;
}
