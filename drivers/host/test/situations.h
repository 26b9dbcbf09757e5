/* situations.h: what the host's own tests do to drivers, as a table. Each row is made, or isn't, and then says why. */
#ifndef DRIVERS_SITUATIONS_H
#define DRIVERS_SITUATIONS_H

/* A name, the words for it, and what it needs. ANY: any driver. BELOW: a stack on a device of the host's. HELD: a request
   on its way, which such a device or a driver holds. BY_DRIVER: a driver that holds one. OF_STACK: both a stack and that. */
#define SITUATIONS(ROW) \
    ROW(OPENED, "a file is opened and closed", ANY) \
    ROW(NAMED, "a file opened with a name behind the device", ANY) \
    ROW(READ, "a read", ANY) \
    ROW(WRITTEN, "a write", ANY) \
    ROW(EMPTY, "a read of no bytes", ANY) \
    ROW(LENGTHS, "short, odd and large buffers", ANY) \
    ROW(CONTROLS, "each control code that the source names", ANY) \
    ROW(NUMBERS, "large numbers in the input of controls", ANY) \
    ROW(HANDLES, "handles of events and files in the input of controls", ANY) \
    ROW(INTERNAL, "an internal control", ANY) \
    ROW(INTERNALS, "each internal control that the source names", ANY) \
    ROW(FLUSHED, "a flush", ANY) \
    ROW(SHUT_DOWN, "a shutdown", ANY) \
    ROW(READ_MEETS, "a write while a read is on its way", HELD) \
    ROW(CONTROL_MEETS, "a control while another one is on its way", HELD) \
    ROW(CONTROL_ITSELF, "a control while the same one is on its way", HELD) \
    ROW(CANCELLED_EARLY, "a request cancelled before it is sent", ANY) \
    ROW(READ_CANCELLED, "a read cancelled on its way", HELD) \
    ROW(WRITE_CANCELLED, "a write cancelled on its way", HELD) \
    ROW(CONTROL_CANCELLED, "a control cancelled on its way", HELD) \
    ROW(HELD_CANCELLED, "a request cancelled while a driver holds it", BY_DRIVER) \
    ROW(CANCELLED_LATE, "a request cancelled after its end", ANY) \
    ROW(TWO_FILES, "two files open at once", ANY) \
    ROW(CLEANUP_HELD, "a file closed while a driver holds its request", BY_DRIVER) \
    ROW(CLEANUP_OTHER, "a file closed while a driver holds another one's request", BY_DRIVER) \
    ROW(CONTROL_CLEANUP, "a file closed while a driver holds its control", BY_DRIVER) \
    ROW(CROWD, "more and more of a request that a driver holds", BY_DRIVER) \
    ROW(AT_ONCE, "a device below that completes at once", BELOW) \
    ROW(LATER, "a device below that completes later", BELOW) \
    ROW(PENDS_ALL, "a device below that pends Plug and Play and power too", BELOW) \
    ROW(FAILS, "a device below that fails", BELOW) \
    ROW(NO_START, "a device below that doesn't start", BELOW) \
    ROW(UNKNOWN_PNP, "a Plug and Play request that nobody knows", BELOW) \
    ROW(WMI, "a request of WMI", BELOW) \
    ROW(PAGING, "a paging file that comes and goes", BELOW) \
    ROW(USAGE_REFUSED, "a paging file that the device below refuses", BELOW) \
    ROW(STOP_ASKED, "a stop asked for and called off", BELOW) \
    ROW(READ_STOPPING, "a read between QUERY_STOP and CANCEL_STOP", BELOW) \
    ROW(STOPPED_AGAIN, "a stop, and a start again", BELOW) \
    ROW(HELD_STOP, "a request on its way over a stop", OF_STACK) \
    ROW(REMOVE_ASKED, "a removal asked for and called off", BELOW) \
    ROW(READ_REMOVING, "a read between QUERY_REMOVE and CANCEL_REMOVE", BELOW) \
    ROW(REMOVED, "a removal", BELOW) \
    ROW(HELD_REMOVE, "a request held over a removal", OF_STACK) \
    ROW(OWN_REMOVED, "a driver's own packet on its way over a removal", BELOW) \
    ROW(READ_MEETS_REMOVE, "a read that comes while the removal is below", BELOW) \
    ROW(SURPRISED, "a removal by surprise", BELOW) \
    ROW(HELD_SURPRISE, "a request held over a removal by surprise", OF_STACK) \
    ROW(READ_GONE, "a read that comes when the device is gone", BELOW) \
    ROW(SLEPT, "the system falls asleep and wakes", BELOW) \
    ROW(READ_SLEEPS, "a read on its way while the system falls asleep", BELOW) \
    ROW(READ_IN_D3, "a read while the device is in D3", BELOW) \
    ROW(TIME_IN_D3, "time that passes while the device is in D3", BELOW) \
    ROW(CHILDREN, "the children that a bus reports", BELOW)

typedef enum { ANY, BELOW, HELD, BY_DRIVER, OF_STACK } Needs;
#define ROW_NAME(name, words, needs) SITUATION_##name,
typedef enum { SITUATIONS(ROW_NAME) N_SITUATIONS } Situation;
#undef ROW_NAME

/* The test of this run is the host's own: the rows count. */
void begin_situations(int has_stack, int may_hold);
void made(Situation s);
/* Why it isn't made: the last reason is told, unless it is made elsewhere. */
void not_made(Situation s, const char *why);
/* Why it can't be made with these drivers: such a row doesn't count, unless it is made elsewhere. */
void not_there(Situation s, const char *why);
/* Which it is. */
void made_if(Situation s, int is, const char *why);
/* The piece of every order that is played can't be, with these drivers. */
void piece_not_there(const char *why);
/* A control code of the source was sent: whether a driver takes it; whether one did so far. */
void control_sent(unsigned code, int is_taken);
int control_is_taken(unsigned code);

#endif
