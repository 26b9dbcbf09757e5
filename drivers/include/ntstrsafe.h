/* ntstrsafe.h: text with bounds. */
#ifndef NTSTRSAFE_H
#define NTSTRSAFE_H

#include "wdm_text.h"

#endif
