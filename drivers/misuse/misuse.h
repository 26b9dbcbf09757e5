/* misuse.h: the cases of misuse.c, for the test. */
#ifndef MISUSE_H
#define MISUSE_H

#include <wdm.h>

/* The name of the n-th case, or NULL. */
const char *MisuseName(ULONG n);
/* READ runs the n-th case from now on. */
VOID MisuseChoose(ULONG n);

#endif
