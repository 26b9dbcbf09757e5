/* io.h: packets on their way: sends, completions, cancels, remove locks; devices and files. */
#ifndef DRIVERS_IO_IO_H
#define DRIVERS_IO_IO_H

#include "host.h"

/* associated.c */
void take_own_location(Packet *p);

/* built_packets_end.c */
const char *never_set(void);

/* cancelling.c */
void tell_ghost(Packet *p);
const char *none_taken(const Packet *p);
BOOLEAN cancel_if_alive(Packet *p, uint64_t use, WDM_SITE at);

/* completion.c */
void finish(Packet *p, Entry *e, ULONG status, uint64_t information);
void complete(Packet *p, int by, ULONG status, uint64_t information);

/* device_handles.c */
bool open_by_name(PHANDLE handle, const OBJECT_ATTRIBUTES *attributes, NTSTATUS *status);
bool transfer_by_handle(HANDLE handle, UCHAR major, PIO_STATUS_BLOCK iosb, PVOID buffer, ULONG length, PLARGE_INTEGER offset);

/* devices.c */
void item_is_queued(int device);
void item_has_returned(int device);
void may_go(int device);

/* files.c */
void tell_files_dereferenced(PVOID object);
PFILE_OBJECT file_for(PDEVICE_OBJECT top, UCHAR major, WDM_SITE at);
void before_cleanup(PFILE_OBJECT file);
void after_cleanup(PFILE_OBJECT file, WDM_SITE at);
bool before_close(PFILE_OBJECT file, WDM_SITE at);
NTSTATUS open_device(PDEVICE_OBJECT top, PFILE_OBJECT *file, WDM_SITE at);
void ask_to_open(PIO_STACK_LOCATION next);
bool is_usual_open(const IO_STACK_LOCATION *l);
void clean_up(PFILE_OBJECT file, WDM_SITE at);
void await_closed(PDEVICE_OBJECT pdo, bool only_mine);

/* initialized.c */
Packet *initialized_at(const void *at);
const void *initialized_around(const void *address);
bool packets_go(const void *from, size_t size);
void stack_goes(const Frame *f);

/* packets.c */
PIO_STACK_LOCATION raw_at(Packet *p, int j);
bool lives(const Packet *p);
Frame *on_top(const Packet *p);
int party(const Packet *p);
int party_with_location(const Packet *p);

/* preparing.c */
bool is_skipped_by_hand(const Packet *p);

/* remove_locks.c */
const char *held_tags(int device);
void keep_lock_ways(const Frame *f);
void forget_remove_locks(const void *from, size_t size, const char *why);

/* unsent.c */
bool is_moved_by_hand(Packet *p);

#endif
