/* test.h: what Wine's test drivers say and check. */
#ifndef WDM_WIN32_WINE_TEST_H
#define WDM_WIN32_WINE_TEST_H

#include "debug.h"
#include <stdio.h>

struct winetest_thread_data {
    int current_line;
    const char *current_file;
    int todo_do_loop, nocount;
    char *str_pos, strings[2000], context[8][128];
    unsigned context_count, todo_level;
};
extern LONG winetest_successes, winetest_failures, winetest_flaky_failures, winetest_skipped, winetest_todo_successes,
    winetest_todo_failures, winetest_muted_traces, winetest_muted_skipped, winetest_muted_todo_successes;
extern int winetest_debug, winetest_time, winetest_report_success, winetest_report_flaky, winetest_color,
    winetest_platform_is_wine, winetest_mute_threshold;
extern const char *winetest_platform;
VOID WdmCheck(int Holds, const char *File, int Line, const char *Format, ...);
#define ok(holds, ...) WdmCheck((holds) != 0, __FILE__, __LINE__, __VA_ARGS__)
#define ok_(file, line) ok
#define trace(...) WdmSay("trace", __func__, __VA_ARGS__)
#define skip(...) WdmSay("skipped", __func__, __VA_ARGS__)
#define win_skip skip
#define todo_wine
#define todo_wine_if(x) if (x) ; else
#define todo_if(x) if (x) ; else
#define flaky
#define flaky_wine
#define broken(x) ((x) && 0)
#define winetest_push_context(...) ((void)0)
#define winetest_pop_context() ((void)0)
#define winetest_printf(...) WdmSay("test", __func__, __VA_ARGS__)
#define winetest_start_todo(x) ((void)(x))
#define winetest_end_todo() ((void)0)
#define winetest_loop_todo() 0

#endif
