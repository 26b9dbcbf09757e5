/* answers.h: what the programs around the player share. Of each script they write an answer: the line `@ NUMBER HOW
   BYTES MADE PENDED OUTSIDE ADOPTED LOST WITHIN`, then as many bytes of transcript, then a line with the replies of the
   steps. HOW is how it ended, or `crash` or `hang`, where MADE is the place of the step that it comes from; then come the
   recorder's counts, and how many steps were made within a dispatch or routine. */
#include "player.h"
#include "recorder.h"
#include <signal.h>
#include <stdio.h>
#include <stdlib.h>
#include <string.h>

enum { CRASHED = 3 };
static volatile long playing = -1;
static uint64_t replies[PLAY_STEPS];

static void write_answer(const char *how, size_t made)
{
    const size_t n = IrpxTranscript(NULL, 0);
    IRPX_COUNTS counts;
    char *text = malloc(n + 1);
    if (!text)
        _Exit(2);
    IrpxTranscript(text, n);
    IrpxCount(&counts);
    printf("@ %ld %s %lu %lu %d %d %d %d %lu\n", playing, how, (unsigned long)n, (unsigned long)made, counts.pended,
           counts.outside, counts.adopted, counts.lost, (unsigned long)PlayCountWithin());
    fwrite(text, 1, n, stdout);
    for (size_t k = 0; k < made; k++)
        printf("%llu ", (unsigned long long)replies[k]);
    printf("\n");
    fflush(stdout);
    fprintf(stderr, "@ %ld\n", playing); /* what is said from here on comes from taking down */
    free(text);
}

/* What was recorded until then is written. */
static void end_early(const char *how)
{
    IrpxAbandon();
    write_answer(how, PlayPlace());
    _Exit(CRASHED);
}

static void crashed(int number)
{
    signal(number, SIG_DFL);
    end_early("crash");
}

static PLAY_THREADS threads_of(const char *word)
{
    return !strcmp(word, "at_once") ? PLAY_AT_ONCE : !strcmp(word, "by_turns") ? PLAY_BY_TURNS :
        !strcmp(word, "within") ? PLAY_WITHIN : PLAY_ONE_THREAD;
}

/* Calls `play` for each script of the file from number `first` on. Returns the exit status. */
static int play_file(const char *path, long first, PLAY_THREADS threads,
                     void (*play)(const uint64_t *words, size_t count, PLAY_THREADS threads))
{
    uint64_t count;
    FILE *f = fopen(path, "rb");
    if (!f)
        return 2;
    for (playing = 0; fread(&count, 8, 1, f) == 1; playing++) {
        uint64_t *words = malloc(count * 8 + 8);
        if (!words || fread(words, 8, count, f) != count)
            return 2;
        if (playing >= first)
            play(words, count, threads);
        free(words);
    }
    fclose(f);
    return 0;
}
