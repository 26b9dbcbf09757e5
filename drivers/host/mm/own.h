/* own.h: what only the files of this folder call. */
#ifndef DRIVERS_MM_OWN_H
#define DRIVERS_MM_OWN_H

#include "mm/mm.h"

/* allocated.c */
void remember_allocation(int number, const char *what, WDM_SITE at);

/* packet_pages.c */
void track_packets(char *arena);
bool is_packet_page_open(size_t page);
void packet_page_opens(size_t page); /* it is open by now */
void packet_page_closes(size_t page); /* before it closes */

/* pages.c */
bool get_pages(Block *b);
void close_pages(Block *b);
void close_until_probed(Block *b, bool is_programs);
void probed(const void *address);
bool is_unprobed(const void *address);
bool touched_block(void *address);
Block *block_in_pages(const void *address);

#endif
