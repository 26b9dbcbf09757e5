/* pshpack8.h: structures from here on are packed to 8 bytes. */
#pragma pack(push, 8)
