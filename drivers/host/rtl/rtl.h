/* rtl.h: text, and what is started again. */
#ifndef DRIVERS_RTL_RTL_H
#define DRIVERS_RTL_RTL_H

#include "host.h"

/* text.c */
bool copy_text(PUNICODE_STRING to, PCUNICODE_STRING from);
size_t to_wide(WCHAR *to, size_t room, const char *from, size_t count);

/* tracing.c */
void reinitialize(PDRIVER_OBJECT driver);

#endif
