/* ndis.c: a program that asks ndis for an adapter's addresses. `short` has room for six bytes, an Ethernet address, in
   `none` there is no room at all; its Unix side has one adapter, and is simulated. */
#include "common.h"
#include "winsock2.h"
#include "iphlpapi.h"
#include "netioapi.h"
#include "ddk/ndis.h"

DWORD WINAPI GetIfTable2(MIB_IF_TABLE2 **table)
{
    static const UCHAR address[] = { 2, 0, 0, 0, 0, 7 };
    *table = calloc(1, sizeof **table);
    (*table)->NumEntries = 1;
    (*table)->Table[0].PhysicalAddressLength = sizeof address;
    memcpy((*table)->Table[0].PhysicalAddress, address, sizeof address);
    memcpy((*table)->Table[0].PermanentPhysicalAddress, address, sizeof address);
    return NO_ERROR;
}

void WINAPI FreeMibTable(void *table) { free(table); }

int main(int argc, char **argv)
{
    static const DWORD wanted[] = { OID_GEN_MEDIA_SUPPORTED, OID_GEN_MEDIA_IN_USE, OID_802_3_CURRENT_ADDRESS,
                                    OID_802_3_PERMANENT_ADDRESS, 0 };
    PDEVICE_OBJECT top = WdmLoadByName("ndis")->DeviceObject;
    const ULONG room = Does(argc, argv, "short") ? 6 : Does(argc, argv, "none") ? 0 : 64;
    for (int i = 0; i < (int)ARRAYSIZE(wanted); i++)
        Control(top, IOCTL_NDIS_QUERY_GLOBAL_STATS, &wanted[i], sizeof wanted[i], room);
    Control(top, IOCTL_NDIS_QUERY_GLOBAL_STATS, wanted, 2, room);
    return WdmFinish();
}
