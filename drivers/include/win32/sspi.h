/* sspi.h: nothing of it is used here. */
#include "win32.h"
