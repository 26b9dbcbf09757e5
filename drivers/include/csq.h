/* csq.h: cancel-safe queues. */
#ifndef CSQ_H
#define CSQ_H

#include "wdm.h"

#endif
