/* own.h: what only the files of this folder call. */
#ifndef DRIVERS_RTL_OWN_H
#define DRIVERS_RTL_OWN_H

#include "rtl/rtl.h"

/* printing.c */
size_t print_wide(char *to, size_t room, const WCHAR *format, va_list list);

#endif
