/* oks_driver.h: the head of driver.c where its checks are counted, and what it asks of the kernel by name. */
#include "ntstatus.h"
#include "windef.h"
#include "winioctl.h"
#include "ddk/wdm.h"
#include "ddk/ntifs.h"
#include "driver.h"
#include "utils.h"
#include "oks.h"

#ifndef FILE_DELETE_ON_CLOSE
#define FILE_DELETE_ON_CLOSE 0x1000
#endif
#ifndef IO_TYPE_DEVICE_QUEUE
#define IO_TYPE_DEVICE_QUEUE 0x14
#endif
#ifndef PROCESS_QUERY_INFORMATION
#define PROCESS_QUERY_INFORMATION 0x400
#endif
