/*
 * player.h: plays a script on the I/O manager that the program is linked with. The player makes the script's drivers,
 * devices and packets, and makes its calls. It is ordinary WDM source, written against <wdm.h> alone.
 *
 * A script comes as 64-bit words, its *feed*, which playable.py makes. Compile with `-include recorder.h`, so that the
 * recorder writes down what happens.
 */
#ifndef PLAYER_H
#define PLAYER_H

#include <wdm.h>
#include <stddef.h>
#include <stdint.h>

enum { PLAY_MANY = 256, PLAY_DRIVERS = 64, PLAY_DEVICES = 64, PLAY_LOCKS = 64, PLAY_SEATS = 64, PLAY_PACKETS = 512,
       PLAY_STEPS = 4096, PLAY_MAJORS = IRP_MJ_MAXIMUM_FUNCTION + 1 };

/* How a script ended. PARTED: a packet isn't where the model has it, because the manager differs, and the rest isn't
   played; so no difference becomes a crash. */
typedef enum { PLAY_DONE, PLAY_PARTED, PLAY_BAD_FEED, PLAY_NO_DEVICE, PLAY_NO_THREAD, PLAY_ENDS } PLAY_END;
extern const char *const PlayEnds[PLAY_ENDS];

/* All steps on the caller's thread; or each seat's on a thread of its own, in the script's order; or each seat's on a
   thread of its own, all at once behind the setup: a step whose packet isn't its party's at the moment is left out; or by
   turns, where a party's next steps on its packet are made within the dispatch or routine that has it (within.c). */
typedef enum { PLAY_ONE_THREAD, PLAY_BY_TURNS, PLAY_AT_ONCE, PLAY_WITHIN } PLAY_THREADS;

/* Has the manager call this DriverEntry for a driver of this number, whose object has only the manager's own
   dispatches. Returns whether it did. */
typedef BOOLEAN PLAY_LOAD(unsigned Number, PDRIVER_INITIALIZE Entry);

/* Plays one script. Replies[k] becomes what step k was answered, all bits set where it was left out; Made how many steps
   were made. */
PLAY_END PlayScript(const uint64_t *Words, size_t Count, PLAY_THREADS Threads, PLAY_LOAD *Load, uint64_t *Replies,
                    size_t *Made);

/* The place of the step that is made now, or was made last; how many steps were made within a dispatch or routine. */
size_t PlayPlace(VOID);
size_t PlayCountWithin(VOID);

/* Afterwards, once the transcript has been read: gives everything back, behind the recorder's back. */
VOID PlayTakeDown(VOID);

/* create.c: in a file of its own, as the recorder tells drivers by the file that creates their devices. */
PDEVICE_OBJECT PlayCreateDevice(PDRIVER_OBJECT Driver, ULONG ExtensionBytes);

/* behind.c: without the recorder. */
VOID PlayFreeBehind(PIRP Irp);
VOID PlayDetachBehind(PDEVICE_OBJECT Lower);
VOID PlayDeleteBehind(PDEVICE_OBJECT Device);

#endif
