/* evntrace.h: event tracing: stubs. */
#ifndef EVNTRACE_H
#define EVNTRACE_H

#include "wdm.h"

#endif
