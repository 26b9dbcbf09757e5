/* ntstatus.h: statuses. */
#ifndef NTSTATUS_H
#define NTSTATUS_H

#include "wdm_status.h"

#endif
