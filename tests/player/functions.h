/* functions.h: PLAY_256(f) writes f(n) for each of 256 names n, of four digits to the base 4: recorder and manager tell
   routines by their address, so each routine of a script is a function of its own. PLAY_NUMBER(n) is its number. */
#define PLAY_4(f, n) f(n##0) f(n##1) f(n##2) f(n##3)
#define PLAY_16(f, n) PLAY_4(f, n##0) PLAY_4(f, n##1) PLAY_4(f, n##2) PLAY_4(f, n##3)
#define PLAY_64(f, n) PLAY_16(f, n##0) PLAY_16(f, n##1) PLAY_16(f, n##2) PLAY_16(f, n##3)
#define PLAY_256(f) PLAY_64(f, 0) PLAY_64(f, 1) PLAY_64(f, 2) PLAY_64(f, 3)
#define PLAY_NUMBER(n) (((0x##n >> 12 & 3) * 64) + ((0x##n >> 8 & 3) * 16) + ((0x##n >> 4 & 3) * 4) + (0x##n & 3))
