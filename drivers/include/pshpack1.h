/* pshpack1.h: structures from here on are packed to 1 bytes. */
#pragma pack(push, 1)
