/* interface.h: how a program speaks with the player as a driver. PLAY takes one script's feed; READ takes an offset, and
   gives the bytes of the answer from there on. An answer is what tests/player/answers.h says, without `@ NUMBER `. */
#ifndef PLAYER_INTERFACE_H
#define PLAYER_INTERFACE_H
#define PLAYER_CODE(n) CTL_CODE(FILE_DEVICE_UNKNOWN, 0x800 + (n), METHOD_BUFFERED, FILE_ANY_ACCESS)
#define IOCTL_PLAY PLAYER_CODE(0)
#define IOCTL_PLAY_BY_TURNS PLAYER_CODE(1)
#define IOCTL_PLAY_AT_ONCE PLAYER_CODE(2)
#define IOCTL_READ PLAYER_CODE(3)
#endif
