/* dbt.h: see win32.h. */
#ifndef WDM_WIN32_DBT_H
#define WDM_WIN32_DBT_H

#include "win32.h"

#endif
