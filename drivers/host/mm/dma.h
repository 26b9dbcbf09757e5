/* dma.h: what the files for DMA share. All of it is under G, unless it says otherwise. */
#ifndef DRIVERS_DMA_H
#define DRIVERS_DMA_H

#include "mm/own.h"
#include "wdm_dma.h"

/* A list that is wanted, or out; or a channel that is wanted, or has it, or registers that are kept. */
typedef struct Wanted {
    struct Wanted *next;
    struct Adapter *adapter;
    PDEVICE_OBJECT device;
    void *routine;
    PVOID context;
    PMDL mdl;
    char *va;
    ULONG length, registers, used;
    bool to_device, is_out, is_list, has_channel;
    PSCATTER_GATHER_LIST list, room; /* room: the driver's own memory for it */
    const void *transfer; /* version 3's context, or NULL */
    int driver;
    WDM_SITE at;
} Wanted;

typedef struct Adapter {
    DMA_ADAPTER given; /* first */
    struct Adapter *next;
    int bottom, driver; /* bottom: of the stack of its device */
    DEVICE_DESCRIPTION description;
    ULONG registers, left;
    bool is_put, channel_is_busy;
    WDM_SITE made, put;
    Wanted *wanted; /* in order of their calls */
} Adapter;

/* dma.c */
Adapter *adapter_in(PDMA_ADAPTER given); /* one that may be used, or NULL, which is told */
WDM_SITE dma_site(void);                 /* where this thread's call is made; without G */
__attribute__((format(printf, 2, 3))) void dma_fault(const char *rule, const char *how, ...);
void dma_fault_at(const char *rule, const char *call, WDM_SITE at, const char *text);
void needs_dispatch_level(void);
/* Who tells what: version 3's calls say first that they want an adapter of it. */
Adapter *newer_adapter_in(PDMA_ADAPTER given);

/* dma_memory.c: addresses of devices, and the memory behind them. */
typedef struct Mapping {
    struct Mapping *next;
    Adapter *adapter;
    const void *of; /* what it goes with */
    uint64_t logical;
    char *memory, *original; /* memory: what the device sees; original: what it stands for, or NULL */
    ULONG length;
    bool to_device, is_both, is_over;
    const char *call, *over_call;
    WDM_SITE at, over;
} Mapping;
Mapping *map_memory(Adapter *a, const void *of, char *original, ULONG length, bool to_device);
void unmap_memory(Mapping *m, bool copies_back);
Mapping *mapping_of(const void *of, const Mapping *before);

/* dma_lists.c, dma_channels.c: these three take and give G themselves. Runs what is wanted and fits now. */
void serve_wanted(Adapter *a);
void run_channel(Wanted *w);
bool fits_at_once(Wanted *w); /* then it is out */
GET_SCATTER_GATHER_LIST get_list;
PUT_SCATTER_GATHER_LIST put_list;
BUILD_SCATTER_GATHER_LIST build_list;
CALCULATE_SCATTER_GATHER_LIST_SIZE list_size;
ALLOCATE_ADAPTER_CHANNEL allocate_channel;
FREE_ADAPTER_CHANNEL free_channel;
FREE_MAP_REGISTERS free_registers;
MAP_TRANSFER map_transfer;
FLUSH_ADAPTER_BUFFERS flush_buffers;
Wanted *new_wanted(Adapter *a, PDEVICE_OBJECT device, void *routine, PVOID context, WDM_SITE at);
void drop_wanted(Wanted *w);
void tell_wanted_kept(Adapter *a);
ULONG check_buffer(PMDL mdl, const char *va, ULONG length);
ULONG pieces(const Wanted *w, PSCATTER_GATHER_LIST list);
ULONG size_of_list(ULONG elements);
/* What a call that wants a list says. `now`: where it is to have it at once, or NULL. */
typedef struct {
    PDEVICE_OBJECT device;
    PMDL mdl;
    char *va;
    ULONG length, room_length;
    PDRIVER_LIST_CONTROL routine;
    PVOID context, room;
    bool to_device;
    const void *transfer;
    PSCATTER_GATHER_LIST *now;
} ListWanted;
NTSTATUS want_list(Adapter *a, const ListWanted *l, WDM_SITE at); /* under G, which it gives back */
/* Likewise of the channel; `base`: where it is to have it at once, or NULL. */
NTSTATUS want_channel(Adapter *a, Wanted *w, PVOID *base);
Wanted *registers_in(Adapter *a, PVOID base);
ULONG map_pieces(Wanted *w, PMDL mdl, char *va, ULONG length, bool to_device, PSCATTER_GATHER_LIST list, ULONG most);
void flush_mapped(Wanted *w, char *va, ULONG length, bool to_device);
void free_the_channel(Adapter *a, IO_ALLOCATION_ACTION action); /* under G */
PVOID new_common(Adapter *a, ULONG length, PPHYSICAL_ADDRESS logical, const char *call, WDM_SITE at);

/* dma_newer.c */
GET_DMA_ADAPTER_INFO adapter_info;
GET_DMA_TRANSFER_INFO transfer_info;
INITIALIZE_DMA_TRANSFER_CONTEXT initialize_transfer;
ALLOCATE_COMMON_BUFFER_EX allocate_common_below;
ALLOCATE_ADAPTER_CHANNEL_EX allocate_channel_ex;
CANCEL_ADAPTER_CHANNEL cancel_channel;
MAP_TRANSFER_EX map_transfer_ex;
GET_SCATTER_GATHER_LIST_EX get_list_ex;
FLUSH_ADAPTER_BUFFERS_EX flush_buffers_ex;
FREE_ADAPTER_OBJECT free_adapter_object;

#endif
