/* wdm_guid.h: DEFINE_GUID, which makes a GUID where initguid.h was included before and else declares it; the host makes
   those named here. This file may be included again after initguid.h. */
#undef DEFINE_GUID
#undef DEFINE_DEVPROPKEY
#ifdef INITGUID
#define DEFINE_GUID(name, a, b, c, ...) \
    extern const GUID name; const GUID __attribute__((weak)) name = { (ULONG)(a), (USHORT)(b), (USHORT)(c), { __VA_ARGS__ } }
#define DEFINE_DEVPROPKEY(name, a, b, c, d, e, f, g, h, i, j, k, id) \
    extern const DEVPROPKEY name; \
    const DEVPROPKEY __attribute__((weak)) name = { { (ULONG)(a), (USHORT)(b), (USHORT)(c), { d, e, f, g, h, i, j, k } }, id }
#else
#define DEFINE_GUID(name, a, b, c, ...) extern const GUID name
#define DEFINE_DEVPROPKEY(name, a, b, c, d, e, f, g, h, i, j, k, id) extern const DEVPROPKEY name
#endif

#ifndef WDM_GUID_H
#define WDM_GUID_H

#include "wdm_pnp.h"

#define REFGUID const GUID *
#define REFIID const GUID *
#define REFCLSID const GUID *
#define IsEqualGUID(a, b) (!memcmp((a), (b), sizeof(GUID)))
#define IsEqualIID IsEqualGUID
#define IsEqualGUIDAligned IsEqualGUID
extern const GUID GUID_NULL, GUID_BUS_TYPE_INTERNAL, GUID_BUS_TYPE_PCI, GUID_BUS_TYPE_USB, GUID_BUS_TYPE_HID,
    GUID_BUS_INTERFACE_STANDARD, GUID_PNP_CUSTOM_NOTIFICATION, GUID_PNP_POWER_NOTIFICATION, GUID_DEVICE_INTERFACE_ARRIVAL,
    GUID_DEVICE_INTERFACE_REMOVAL, GUID_TARGET_DEVICE_QUERY_REMOVE, GUID_TARGET_DEVICE_REMOVE_CANCELLED,
    GUID_TARGET_DEVICE_REMOVE_COMPLETE, GUID_DEVINTERFACE_KEYBOARD, GUID_DEVINTERFACE_MOUSE, GUID_DEVINTERFACE_HID,
    GUID_DEVINTERFACE_DISK, GUID_DEVINTERFACE_COMPORT, GUID_DEVINTERFACE_USB_DEVICE;

#endif
