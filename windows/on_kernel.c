/* on_kernel.c: the player as a driver, player.sys. A feed is a script. */
#include "serving.h"
#include "interface.h"

const char *Perform(const uint64_t *Words, size_t Count, ULONG Code, uint64_t *Replies, size_t *Made)
{
    const PLAY_THREADS threads = Code == IOCTL_PLAY_AT_ONCE ? PLAY_AT_ONCE :
        Code == IOCTL_PLAY_BY_TURNS ? PLAY_BY_TURNS : PLAY_ONE_THREAD;
    return PlayEnds[PlayScript(Words, Count, threads, LoadNumbered, Replies, Made)];
}

VOID PerformEnded(VOID)
{
    PlayTakeDown();
}
