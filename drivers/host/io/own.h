/* own.h: what only the files of this folder call. */
#ifndef DRIVERS_IO_OWN_H
#define DRIVERS_IO_OWN_H

#include "io/io.h"

/* associated.c */
bool is_associated(const Packet *p);
void associated_ended(Packet *p);
PDEVICE_OBJECT own_device(Packet *p);

/* built_packets_end.c */
PKEVENT hand_back(Packet *p);
bool complete_kept(Packet *p);

/* devices.c */
void delete_after(int device);

/* files.c */
void file_request_ended(const Packet *p);
void let_closed_files_go(void);
bool is_opened(PDEVICE_OBJECT device);
void check_cleanup(const Packet *p, int by, ULONG status);

/* in_place.c */
NTSTATUS send_in_place(Packet *p, int by, int device);
void rider_came_up(Packet *rider, Entry *e);
bool dispatch_has_it_back(Packet *p, Frame *routine);
bool will_wait(const Packet *p, const Frame *dispatch);
NTSTATUS forward_in_place(Packet *p, int device);

/* initialized.c */
void free_initialized(Packet *p, WDM_SITE at);

/* packets.c */
Packet *new_packet(int size, PIRP irp);
void begin_use(Packet *p, NTSTATUS status);
void use_again(Packet *p, NTSTATUS status);
void free_now(Packet *p);
Frame *dispatching(const Packet *p);
void await(Packet *p);
void prepare_nothing(Packet *p);
void clear_location(Packet *p, int j);
void put_back(Packet *p);
void set_pending_bit(Packet *p, int j, bool real);
void free_ended(Packet *p);
void take_hand_mark(Packet *p);

/* preparing.c */
void flush_next(Packet *p, int by);
bool is_filled_by_hand(Packet *p);
void take_hand_skip(Packet *p);

/* remove_locks.c */
bool lock_knows_drained(int device);

/* sending.c */
NTSTATUS enter_device(Packet *p, int device, Entry *e);
void returned_from(Entry *e, NTSTATUS answer);

/* settling.c */
void settle(Packet *p, bool returned);
void take_kept_answer(Packet *p, Frame *f);
void routine_kept(Packet *p, Frame *f);
void pend_setter(Packet *p, int j, Location below, const char *why);

/* unsent.c */
bool exchange_own_cancel(Packet *p, PDRIVER_CANCEL routine, PDRIVER_CANCEL *old);
bool run_own_cancel(Packet *p, KIRQL irql);
void tell_own_cancel(Packet *p);
bool complete_unsent(Packet *p);

#endif
