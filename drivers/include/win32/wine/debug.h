/* debug.h: Wine's debug channels. What drivers say as an error, a warning or a gap is printed where WDM_SAYS is set. */
#ifndef WDM_WIN32_WINE_DEBUG_H
#define WDM_WIN32_WINE_DEBUG_H

#include "../win32.h"

VOID WdmSay(const char *What, const char *Function, const char *Format, ...);
#define WINE_DEFAULT_DEBUG_CHANNEL(x) extern int wdm_unused
#define WINE_DECLARE_DEBUG_CHANNEL(x) extern int wdm_unused
#define TRACE(...) ((void)0)
#define TRACE_(channel) TRACE
#define TRACE_ON(x) 0
#define WARN(...) WdmSay("warning", __func__, __VA_ARGS__)
#define WARN_(channel) WARN
#define WARN_ON(x) 0
#define ERR(...) WdmSay("error", __func__, __VA_ARGS__)
#define ERR_(channel) ERR
#define ERR_ON(x) 0
#define FIXME(...) WdmSay("not done", __func__, __VA_ARGS__)
#define FIXME_(channel) FIXME
#define FIXME_ON(x) 0
#define MESSAGE(...) WdmSay("message", __func__, __VA_ARGS__)
#define wine_dbg_sprintf(...) "?"
#define debugstr_w(s) ((void)(s), "?")
#define debugstr_wn(s, n) ((void)(s), (void)(n), "?")
#define debugstr_a(s) ((void)(s), "?")
#define debugstr_an(s, n) ((void)(s), (void)(n), "?")
#define debugstr_us(s) ((void)(s), "?")
#define debugstr_guid(g) ((void)(g), "?")
#define wine_dbgstr_w(s) ((void)(s), "?")
#define wine_dbgstr_a(s) ((void)(s), "?")
#define wine_dbgstr_guid(g) ((void)(g), "?")
#define wine_dbgstr_point(p) ((void)(p), "?")
#define wine_dbgstr_longlong(n) ((void)(n), "?")

#endif
