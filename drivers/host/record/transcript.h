/* transcript.h: what a transcript is put into: a file, or a hash. */
#ifndef DRIVERS_TRANSCRIPT_H
#define DRIVERS_TRANSCRIPT_H

#include "record/own.h"
#include "recorder/names.h"

typedef struct { IrpxLines lines; FILE *out; uint64_t hash; } Text; /* lines: first; out NULL: there is only the hash */

/* transcript_output.c */
void begin_hash(Text *t);
void begin_file(Text *t, FILE *out);
void put_tag(Text *t, uint64_t tag);
void put_step(Text *t, unsigned step);

#endif
