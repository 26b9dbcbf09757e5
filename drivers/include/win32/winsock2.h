/* winsock2.h: sockets of this machine by their names of Win32. */
#ifndef WDM_WIN32_WINSOCK2_H
#define WDM_WIN32_WINSOCK2_H

#include "win32.h"
#include <arpa/inet.h>
#include <errno.h>
#include <netinet/in.h>
#include <strings.h>
#include <sys/ioctl.h>
#include <sys/socket.h>
#include <unistd.h>

typedef long SOCKET;
typedef struct sockaddr SOCKADDR, *PSOCKADDR, *LPSOCKADDR;
typedef struct sockaddr_storage SOCKADDR_STORAGE, *PSOCKADDR_STORAGE;
typedef OVERLAPPED WSAOVERLAPPED, *LPWSAOVERLAPPED;
typedef struct { int version; } WSADATA;
typedef struct _WSANETWORKEVENTS { long lNetworkEvents; int iErrorCode[10]; } WSANETWORKEVENTS;
#define INVALID_SOCKET (-1L)
#define SOCKET_ERROR (-1)
#define SD_RECEIVE 0
#define SD_SEND 1
#define SD_BOTH 2
#define FD_READ 1
#define FD_WRITE 2
#define FD_ACCEPT 8
#define FD_CLOSE 32
#define WSAEWOULDBLOCK EWOULDBLOCK
#define WSAEADDRINUSE EADDRINUSE
#define WSAEACCES EACCES
#define SO_EXCLUSIVEADDRUSE SO_REUSEADDR
#define closesocket(s) close((int)(s))
#define ioctlsocket(s, command, value) ioctl((int)(s), (command), (value))
#define WSAGetLastError() errno
#define WSAStartup(version, data) ((void)(data), 0)
#define WSACleanup() 0
#define WSAEnumNetworkEvents(s, event, events) ((void)(s), (events)->lNetworkEvents = 0, 0)
#define WSAEventSelect(s, event, mask) WdmSelect((s), (event))
int WdmSelect(long Socket, HANDLE Event);

/* An address as Win32 lays it out, which this machine does too, but for its names. */
#undef s_addr
struct wdm_in_addr { union { union { ULONG S_addr; UCHAR S_bytes[4]; } S_un; unsigned s_addr; }; };
struct wdm_sockaddr_in {
    unsigned short sin_family, sin_port;
    struct wdm_in_addr sin_addr;
    char sin_zero[8];
};
#define sockaddr_in wdm_sockaddr_in
#define in_addr wdm_in_addr
typedef USHORT ADDRESS_FAMILY;
typedef struct wdm_in_addr IN_ADDR, *PIN_ADDR, *LPIN_ADDR;
typedef struct wdm_sockaddr_in SOCKADDR_IN, *PSOCKADDR_IN, *LPSOCKADDR_IN;
typedef struct { union { UCHAR Byte[16]; USHORT Word[8]; } u; } IN6_ADDR, *PIN6_ADDR, *LPIN6_ADDR;
typedef struct {
    ADDRESS_FAMILY sin6_family;
    USHORT sin6_port;
    ULONG sin6_flowinfo;
    IN6_ADDR sin6_addr;
    ULONG sin6_scope_id;
} SOCKADDR_IN6, *PSOCKADDR_IN6, *LPSOCKADDR_IN6;
enum { ScopeLevelCount = 16 };
typedef struct { union { struct { ULONG Zone : 28, Level : 4; }; ULONG Value; }; } SCOPE_ID;
typedef struct { SIZE_T cmsg_len; INT cmsg_level, cmsg_type; } CMSGHDR, *PCMSGHDR;
typedef struct addrinfoexW {
    int ai_flags, ai_family, ai_socktype, ai_protocol;
    size_t ai_addrlen;
    PWSTR ai_canonname;
    struct sockaddr *ai_addr;
    void *ai_blob;
    size_t ai_bloblen;
    LPGUID ai_provider;
    struct addrinfoexW *ai_next;
} ADDRINFOEXW, *PADDRINFOEXW;
#define NS_ALL 0
typedef union { SOCKADDR_IN Ipv4; SOCKADDR_IN6 Ipv6; ADDRESS_FAMILY si_family; } SOCKADDR_INET, *PSOCKADDR_INET;

#endif
