/* serving.h: what a driver and the device that serves it (serving.c) have of each other. */
#ifndef SERVING_H
#define SERVING_H

#include "player.h"

/* The driver's: does what a feed says. CODE is how the program asked (interface.h). Returns how it ended; Made becomes how
   many replies there are. */
const char *Perform(const uint64_t *Words, size_t Count, ULONG Code, uint64_t *Replies, size_t *Made);
/* The driver's: comes next, once the record has been read. */
VOID PerformEnded(VOID);

/* The device's, as PLAY_LOAD says. */
BOOLEAN LoadNumbered(unsigned Number, PDRIVER_INITIALIZE Entry);
/* The driver object of a number, which was loaded. */
PDRIVER_OBJECT NumberedDriver(unsigned Number);

#endif
