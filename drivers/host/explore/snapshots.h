/*
 * snapshots.h: how a process goes back to where it was, in place of a fork for each choice.
 *
 * A snapshot has what each page had in it that runs write (tracking.c), the pages of packets (packet_pages.c), and the
 * registers (snapshots.c). What the system keeps for a process besides isn't put back: forks are made where a program
 * changes that (orders.py), and again where it shows at the end (left_in_system.c).
 */
#ifndef DRIVERS_SNAPSHOTS_H
#define DRIVERS_SNAPSHOTS_H

#include "explore/exploration.h"

/* snapshots.c */
bool can_make_snapshots(void);           /* on this machine */
void begin_snapshots(void);              /* in the first process of a round, before anything is tracked */
int make_each(const ToMake *all, int n); /* returns, once for each, which of them this run goes on with */
bool may_share_out(void);
__attribute__((noreturn)) void take_eldest(void); /* in a process that was just forked: it makes one choice that is left there */
void leave_eldest(void);                 /* in the other one */

/* tracking.c */
typedef struct Version Version;          /* what a page had in it: of all snapshots that have the same */
typedef struct { Version **versions; int n, room; } Pages;
bool is_kept_apart(const void *address);
bool is_tracked(const void *address);
bool opens_page(void *address);          /* at a fault: whether it was a closed page, which is open now */
bool is_below_stack(const void *address);
void begin_tracking(void);
void save_pages(Pages *pages);
void put_pages_back(const Pages *pages);
void close_rare_pages(Pages *eldest);    /* where that is the only snapshot */
__attribute__((noreturn)) void lose_process(void); /* it can't do what it has to: all is made again by forks (explorer.c) */

/* left_in_system.c */
typedef struct { char *from, *to; uint8_t *is_hot; } Region;
int read_mappings(Region *regions, int most); /* writable private ones, but for what is kept apart. Returns how many there are */
void note_system(void);
bool is_clean_end(void);                 /* whether all is as a fork had left it */
#endif
