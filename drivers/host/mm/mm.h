/* mm.h: blocks of memory, MDLs, pages of packets, memory that is refused. All of it is under G, unless it says otherwise. */
#ifndef DRIVERS_MM_MM_H
#define DRIVERS_MM_MM_H

#include "host.h"

typedef struct { char *bytes; uint8_t *states; uint64_t *stamps; int n, room; } PacketPages;
enum { FRESH_BYTE = 0xCD }; /* what a new block of pool is full of */
typedef struct Block {
    struct Block *next, *younger;
    char *bytes;
    size_t size, room; /* room: how many bytes lie behind it, as a fence */
    ULONG tag;
    int driver;
    bool paged, freed, in_pages, is_buffer, unprobed, is_programs, is_open;
    int locked; /* by how many MDLs */
    struct Block *next_open;
    WDM_SITE allocated, released;
    Packet *lent_by;      /* whose system buffer it is, where its builder frees that */
    const Packet *packet; /* for which it was allocated, where a routine of one runs, and that packet's use */
    uint64_t use;
} Block;

/* allocated.c */
void write_allocations(FILE *out);

/* dma_memory.c */
void check_dma_gone(const void *from, size_t size, const char *what);
void check_dma_completed(PMDL mdl);

/* low_memory.c */
extern int n_allocations;
bool memory_is_refused(const char *what, WDM_SITE at);
bool memory_was_refused(void);
void tell_refused(void);
void end_without_driver(PDRIVER_OBJECT driver);

/* mdl.c */
const char *buffer_missing(const Packet *p);
void give_mdl(Packet *p);
void lend_buffers(Packet *p, PVOID buffer, ULONG length, bool is_read);
void end_lent_mdl(Packet *p);
void tell_locked_mdls(void);

/* packet_pages.c */
void begin_packet_pages(void);
bool is_packets_page(const char *address);
void save_packet_pages(PacketPages *pages);
void put_packet_pages_back(const PacketPages *pages);

/* pages.c */
void close_paged(void);
void lock_block(const void *address, int change);
void tell_block_touches(void);
void open_pages(Block *b);

/* pool.c */
Block *new_block(size_t size, ULONG tag, ULONG kind, WDM_SITE at);
void free_block(Block *b, WDM_SITE at);
const char *block_text(const Block *b);
void hand_over_block(const void *bytes);
bool is_pool_block(const void *bytes);
void check_pool(void);
void tell_pool_leaks(int driver, bool is_unloaded);
Block *freed_block_of(const void *address);
const Block *block_around(const void *address);
void free_checked(PVOID memory, ULONG tag, bool has_tag, WDM_SITE at);

/* traps.c */
const void *packet_page(const void *address);
uint64_t packet_name(const void *address);
Packet *find(PIRP irp);
void open_traps(void);
bool is_in_page(const void *address);
void protect(Packet *p);
void shut(Packet *p);
void unprotect(Packet *p);
void tell_all_touches(void);

#endif
