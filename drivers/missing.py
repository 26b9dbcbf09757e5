"""What a driver wants and the host hasn't, told as one list before the compiler's own lines."""

import os
import re
import subprocess
import tempfile

import host_files

# Where a name isn't there: the group of the kit that it is of, by the first pattern that fits.
GROUPS = [
    (r"^Flt|^FLT|^PFLT", "filter manager"),
    (r"^Wdf|^WDF", "WDF"),
    (r"^(Ndis|NDIS|NET_|Wsk|WSK|Nmr|NPI|Fwps|Fwpm|SOCKADDR|OID_)", "networks"),
    (r"^Hid|^HID|^(P?USAGE|PHIDP)", "HID class"),
    (r"^(Usb|USB|URB|_URB|PURB)", "USB class"),
    (r"^(Scsi|SCSI|Srb|SRB|StorPort|ScsiPort|ATA_)", "storage ports"),
    (r"^(Io(Read|Write|Set)Partition|IoVerifyVolume|IoRaise.*HardError|Disk|DISK_|PARTITION|FsRtl|FSRTL|Cc[A-Z]|FILE_|File|"
     r"IOCTL_(DISK|STORAGE|VOLUME|MOUNT)|STORAGE_|MOUNTMGR|MOUNTDEV|VPB|Zw(Query|Set).*File)", "files and disks"),
    (r"(Dma|DMA|Adapter|ADAPTER|ScatterGather|SCATTER_GATHER|Map(ped)?(Transfer|Registers)|CommonBuffer)", "DMA"),
    (r"^(Se[A-Z]|Rtl.*(Sid|Acl|Ace|SecurityDescriptor)|SECURITY_|SID|P?ACL|ACCESS_|PSID|TOKEN_)", "security"),
    (r"^(Ps|Zw.*Process|Zw.*Thread|Zw.*Token|PEPROCESS|PROCESS|IMAGE_|CLIENT_)", "processes"),
    (r"^(Po|PO_|POWER)", "power"),
    (r"^(Ke|Kf|Kef|K[A-Z]+)", "kernel"),
    (r"^(Kd|Dbg)", "debugging"),
    (r"^(Ex|EX_|POOL|LOOKASIDE)", "executive"),
    (r"^(Mm|MM_|MEMORY_)", "memory manager"),
    (r"^(Ob|OBJECT_|OB_)", "object manager"),
    (r"^(Zw|Nt[A-Z]|KEY_|REG_|Cm[A-Z])", "system calls and registry"),
    (r"^(Io|IRP|IO_|SL_|DO_|DRIVER_|DEVICE_)", "I/O manager"),
    (r"^(Rtl|RTL)", "run-time library"),
    (r"^(Hal|HAL|READ_|WRITE_|PCI)", "hardware"),
    (r"^(Wmi|WMI|Etw|ETW|EVENT_|TRACE)", "tracing"),
    (r"^STATUS_", "statuses"),
    (r"^__(finally|leave)|^(finally|leave)$", "structured exceptions"),
]

WANTED = [
    (r"implicit declaration of function [‘'`](\w+)[’']", "{}"),
    (r"unknown type name [‘'`](\w+)[’']", "{}"),
    (r"[‘'`](\w+)[’'] undeclared", "{}"),
    (r"use of undeclared identifier [‘'`](\w+)[’']", "{}"),
    (r"call to undeclared function [‘'`](\w+)[’']", "{}"),
    (r"has no member named [‘'`](\w+)[’']", "the member {}"),
    (r"error: ([\w./]+\.h): No such file", "{}"),
    (r"error: '([\w./]+\.h)' file not found", "{}"),
    (r"undefined (?:reference|symbol)(?: to|:) [‘'`]?(\w+)[’']?", "{}"),
]
# A macro that is there, and was given too few or too many arguments.
THERE = r"""macro [‘'"](\w+)[’'"] (?:requires|passed|defined here)"""


def group_of(name):
    """Returns the kit's group of a name, or None."""
    return next((group for pattern, group in GROUPS if re.search(pattern, name)), None)


def names_in(said):
    """Returns the names that a compiler or a linker says aren't there, each once, in order of their names."""
    found, there = {}, set(re.findall(THERE, said))
    for pattern, text in WANTED:
        for name in set(re.findall(pattern, said)) - there:
            found[text.format(name)] = group_of(name) or ("a header" if name.endswith(".h") else None)
    return sorted(found.items())


def functions_in(path):
    """Returns the names of the functions that a file in C defines, and of pointers that it sets."""
    with open(path, encoding="utf-8", errors="replace") as it:
        text = it.read()
    return set(re.findall(r"^[A-Za-z_][\w ]*[ *]\(?(\w+)\)?\((?=[^;{]*\{)", text, re.M) + re.findall(r"\*(\w+) = &", text))


def said_of(words, source, room):
    """Returns what the compiler says of a source. A header that isn't there is empty from then on, so that the names behind
    it are told too. Where nothing is wrong, room has the object."""
    said, before = "", ""
    while True:
        made = subprocess.run([*words, "-idirafter", room, "-c", source, "-o", room + "/object.o"], capture_output=True,
                              text=True, errors="replace", check=False)
        said += made.stderr
        header = next((it for it, _ in names_in(made.stderr) if it.endswith(".h")), before)
        if header == before or header.startswith(("/", ".")):
            return said
        before = header
        os.makedirs(os.path.dirname(f"{room}/{header}"), exist_ok=True)
        with open(f"{room}/{header}", "w", encoding="utf-8"):
            pass


def undefined_in(made, there):
    """Returns the calls of the kit in an object that aren't there: ones that are declared, and that nobody defines."""
    words = ["nm", "-u", made]
    told = subprocess.run(words, capture_output=True, text=True, check=False).stdout if os.path.exists(made) else ""
    return [it for it in re.findall(r"\bU (\w+)", told) if it not in there and group_of(it)]


def tell(compiler, flags, sources):
    """Prints what each source wants and the host hasn't. Returns 1 where that is anything, else 0."""
    ended, words = 0, [compiler, *flags, *(["-ferror-limit=0"] if "clang" in compiler else [])]
    there = set().union(*map(functions_in, (*host_files.sources().values(), *sources)))
    for source in sources:
        with tempfile.TemporaryDirectory() as room:
            said = said_of(words, source, room)
            said += "".join(f"undefined reference to '{it}'\n" for it in undefined_in(room + "/object.o", there))
        for name, group in names_in(said):
            print(f"{source}: {name}{f' ({group})' if group else ''}")
            ended = 1
    print("(drivers/INTERFACE.md has what is there)" if ended else "the host has all that these sources name")
    return ended


def listed(said):
    """Returns the list for a reader, or an empty text."""
    lines = [f"{name}: not there{f' ({group})' if group else ''}\n" for name, group in names_in(said)]
    return "".join(lines) and "".join(lines) + "(drivers/INTERFACE.md has what is there; what the compiler says follows)\n"
