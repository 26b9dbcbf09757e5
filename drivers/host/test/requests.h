/* requests.h: requests of the host's own test. */
#ifndef DRIVERS_REQUESTS_H
#define DRIVERS_REQUESTS_H

#include "wdm_test.h"
#include "options.h"
#include "test/situations.h"
#include "test/told_to_tests.h"

/* What is asked of a stack: a major function, a buffer's length, the code of a control, and each number of its input. */
typedef struct { UCHAR major; ULONG length, code, number; } What;
/* A control code, and the major that drivers take it by. */
typedef struct { ULONG code; UCHAR major; } Control;

/* How a request is sent. One that isn't kept is freed by the I/O manager at its end, as nearly all are on Windows. A driver
   elsewhere sends one without a file. */
typedef enum { PLAIN = 0, KEPT = 1, CANCELLED_BEFORE = 2, CANCELLED_AT_ONCE = 4, CANCELLED_AFTER = 8, WITHOUT_FILE = 16 } How;

typedef struct { PIRP irp; KEVENT done; IO_STATUS_BLOCK result; How how; UCHAR major; } Request;

enum { PATIENT = 50, SHORTLY = 10 }; /* milliseconds before a request is cancelled */
enum { MOST_READS = 8 }; /* until one waits for what isn't there */

/* The device of the host's below the stack that is tested, or NULL. */
extern PDEVICE_OBJECT bottom;
/* Whether it is on its way. */
BOOLEAN is_held(Request *r);

/* It was made with a request of this major, or why it wasn't: it can't be where the uppermost driver has no dispatch for it. */
void made_with(PDEVICE_OBJECT top, UCHAR major, Situation s, const char *why_not);

/* Sends a request. Returns FALSE where there is no memory for it. */
BOOLEAN start_request(Request *r, PDEVICE_OBJECT top, What what, How how);
/* Waits for a request, and cancels it where it isn't done after some milliseconds. Returns its status. */
NTSTATUS end_request(Request *r, int milliseconds);
/* Both. */
NTSTATUS make_request(PDEVICE_OBJECT top, What what, How how, int milliseconds);

/* The same of power, which isn't cancelled. */
NTSTATUS set_power(PDEVICE_OBJECT top, UCHAR minor, DEVICE_POWER_STATE state);
NTSTATUS set_system_power(PDEVICE_OBJECT top, UCHAR minor, SYSTEM_POWER_STATE state);

/* usages.c: a paging file comes and goes, and is refused below: IRP_MN_DEVICE_USAGE_NOTIFICATION. */
void use_for_paging(PDEVICE_OBJECT top);

/* own_packets.c: whether drivers have sent packets of their own, and one is on its way. between.c: it stays so for a while. */
typedef enum { NO_OWN, OWN_ENDED, OWN_IN_FLIGHT } OwnPackets;
OwnPackets own_packets(void);
void keep_own_packets(BOOLEAN keeps);

/* What is asked for, and what a control of the i-th code asks for. An internal one, of another driver, has room for whatever
   its code may need. */
What transfer(UCHAR major, ULONG length);
What control(int i, ULONG length);
BOOLEAN is_control(UCHAR major);

/* holding.c: requests that are on their way, or held, while something happens to their device. */
typedef struct { PDEVICE_OBJECT top; PFILE_OBJECT file; BOOLEAN has_context, is_cleaned; } Opened; /* file: NULL where none is */
Opened open_it(PDEVICE_OBJECT top);
void close_it(Opened o);
void let_bottom_finish(void);
void use_two_files(PDEVICE_OBJECT top, Opened first);
void use_crowd(PDEVICE_OBJECT top);
void sleep_and_wake(PDEVICE_OBJECT top);
void use_in_d3(PDEVICE_OBJECT top);
void stop_in_use(PDEVICE_OBJECT top);
void remove_by_surprise(PDEVICE_OBJECT top, Opened o);
void remove_in_order(PDEVICE_OBJECT top, Opened o, BOOLEAN is_read);

/* restored.c: before a device loses its power, or is asked to stop or to go; meanwhile; and after that is over, by the request
   whose name is given. */
void keep_answers(PDEVICE_OBJECT top);
void ask_meanwhile(PDEVICE_OBJECT top);
void compare_answers(PDEVICE_OBJECT top, const char *over);

/* The control codes that are sent: those of WDM_CONTROLS, and from `find_controls` on those of WDM_CANDIDATES, which
   stand in the drivers' source, and usual ones: all that aren't answered as a code is that nobody knows. */
extern Control controls[];
extern int n_controls;
extern BOOLEAN files_have_context; /* then another driver's request has a file too */
enum { EACH_FOUR = -1, EACH_EIGHT = -2 };
extern int number_at; /* of a request's number in its input: in each four bytes, in each eight, or at this one place as eight */
void read_controls(void);
void find_controls(PDEVICE_OBJECT top);

#endif
