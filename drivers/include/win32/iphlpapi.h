/* iphlpapi.h: see winsock2.h; where Wine's source is named, the types of interfaces come from there. */
#include "winsock2.h"
#if __has_include(<ifdef.h>)
#include <ifdef.h>
#include <nldef.h>
#endif
