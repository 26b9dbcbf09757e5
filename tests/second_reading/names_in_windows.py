"""Values in the words that driver writers know: majors and statuses by name, calls as they stand in a driver's code,
what was answered. Source: the WDK's headers (wdm.h, ntstatus.h) and docs/RULES.md."""

MAJORS = ('CREATE', 'CREATE_NAMED_PIPE', 'CLOSE', 'READ', 'WRITE', 'QUERY_INFORMATION', 'SET_INFORMATION', 'QUERY_EA',
          'SET_EA', 'FLUSH_BUFFERS', 'QUERY_VOLUME_INFORMATION', 'SET_VOLUME_INFORMATION', 'DIRECTORY_CONTROL',
          'FILE_SYSTEM_CONTROL', 'DEVICE_CONTROL', 'INTERNAL_DEVICE_CONTROL', 'SHUTDOWN', 'LOCK_CONTROL', 'CLEANUP',
          'CREATE_MAILSLOT', 'QUERY_SECURITY', 'SET_SECURITY', 'POWER', 'SYSTEM_CONTROL', 'DEVICE_CHANGE',
          'QUERY_QUOTA', 'SET_QUOTA', 'PNP')
STATUSES = {
    0x00000000: 'SUCCESS', 0x00000102: 'TIMEOUT', 0x00000103: 'PENDING', 0x00000104: 'REPARSE',
    0x80000005: 'BUFFER_OVERFLOW', 0x80000006: 'NO_MORE_FILES', 0x80000011: 'DEVICE_BUSY',
    0x8000001A: 'NO_MORE_ENTRIES', 0xC0000001: 'UNSUCCESSFUL', 0xC0000002: 'NOT_IMPLEMENTED',
    0xC0000004: 'INFO_LENGTH_MISMATCH', 0xC0000005: 'ACCESS_VIOLATION', 0xC0000008: 'INVALID_HANDLE',
    0xC000000D: 'INVALID_PARAMETER', 0xC000000E: 'NO_SUCH_DEVICE', 0xC000000F: 'NO_SUCH_FILE',
    0xC0000010: 'INVALID_DEVICE_REQUEST', 0xC0000011: 'END_OF_FILE', 0xC0000016: 'MORE_PROCESSING_REQUIRED',
    0xC0000017: 'NO_MEMORY', 0xC0000022: 'ACCESS_DENIED', 0xC0000023: 'BUFFER_TOO_SMALL',
    0xC0000034: 'OBJECT_NAME_NOT_FOUND', 0xC0000035: 'OBJECT_NAME_COLLISION', 0xC0000043: 'SHARING_VIOLATION',
    0xC0000056: 'DELETE_PENDING', 0xC000007F: 'DISK_FULL', 0xC000009A: 'INSUFFICIENT_RESOURCES',
    0xC000009D: 'DEVICE_NOT_CONNECTED', 0xC00000A3: 'DEVICE_NOT_READY', 0xC00000B5: 'IO_TIMEOUT',
    0xC00000BB: 'NOT_SUPPORTED', 0xC0000120: 'CANCELLED', 0xC0000184: 'INVALID_DEVICE_STATE',
    0xC0000185: 'IO_DEVICE_ERROR',
}
FLAGS = {'s': 'on success', 'e': 'on error', 'c': 'on cancel'}
ROUTINES = {
    'create_device': 'IoCreateDevice', 'attach': 'IoAttachDeviceToDeviceStack', 'detach': 'IoDetachDevice',
    'delete': 'IoDeleteDevice', 'allocate': 'IoAllocateIrp', 'free': 'IoFreeIrp', 'reuse': 'IoReuseIrp',
    'set_next': 'IoGetNextIrpStackLocation', 'copy_to_next': 'IoCopyCurrentIrpStackLocationToNext',
    'skip': 'IoSkipCurrentIrpStackLocation', 'set_routine': 'IoSetCompletionRoutine',
    'mark_pending': 'IoMarkIrpPending', 'call_driver': 'IoCallDriver', 'complete': 'IoCompleteRequest',
    'finish_taken': 'IoCompleteRequest', 'set_cancel_routine': 'IoSetCancelRoutine', 'cancel': 'IoCancelIrp',
    'look': 'look at',
}
# What the slot of a label is that isn't bound.
UNBOUND = 4294967295


def major(number):
    return f'IRP_MJ_{MAJORS[number]}' if number < len(MAJORS) else f'major 0x{number:02x}'


def status(number):
    return f'STATUS_{STATUSES[number]}' if number in STATUSES else f'status 0x{number:08X}'


def result(number, information):
    return f'{status(number)}, information {information:#x}'


def packet(irp):
    return "IRP of a label that isn't bound" if irp[0] == UNBOUND else f'IRP {irp[0]}.{irp[1]}'


def cancel_routine(number):
    return 'NULL' if number is None else f'cancel routine {number}'


def setting(it):
    flags = ', '.join(FLAGS[letter] for letter in it[3]) or 'never'
    return f'{it[0]} {it[1]}, context {it[2]:#x}, {flags}'


def plan(it):
    """Returns what a dispatch does, as a driver writes it."""
    if it[0] == 'finish':
        return f'IoCompleteRequest with {result(it[1], it[2])}'
    if it[0] == 'hold':
        cancel = '' if it[1] is None else f', IoSetCancelRoutine(cancel routine {it[1]})'
        return f'IoMarkIrpPending{cancel}, keeps the packet, returns STATUS_PENDING'
    if it[0] == 'hold_slot':
        return 'IoMarkIrpPending, keeps the packet for a cancel slot, returns STATUS_PENDING'
    if it[0] == 'skip':
        return 'IoSkipCurrentIrpStackLocation, IoCallDriver'
    routine = '' if it[1] is None else f'IoSetCompletionRoutine({setting(it[1])}), '
    sent = f'IoCopyCurrentIrpStackLocationToNext, {routine}IoCallDriver'
    return sent if it[0] == 'forward' else f'IoMarkIrpPending, {sent}, returns STATUS_PENDING'


def arguments(call):
    """Returns what stands behind the name of a call."""
    do, irp = call['do'], packet(call['irp']) if 'irp' in call else None
    if do == 'create_device':
        return f"(driver {call['driver']}, remove lock {call['lock']})"
    if do == 'attach':
        return f"(D{call['device']}, the stack of D{call['to']})"
    if do == 'detach':
        return f"(what stands on D{call['lower']})"
    if do == 'delete':
        return f"(D{call['device']}), its remove lock {'' if call['drained'] else 'not '}known drained"
    if do == 'allocate':
        return f"({call['size']} location{'' if call['size'] == 1 else 's'})"
    if do == 'reuse':
        return f"({irp}, {status(call['status'])})"
    if do == 'set_next':
        return f"({irp}): {major(call['major'])}, word {call['word']:#x}"
    if do == 'set_routine':
        return f"({irp}, {setting(call['set'])})"
    if do == 'call_driver':
        return f"(D{call['target']}, {irp})"
    if do == 'set_cancel_routine':
        return f"({irp}, {cancel_routine(call['cancel'])})"
    if do in ('complete', 'finish_taken'):
        token = f" by the token of use {call['token']}" if do == 'finish_taken' else ''
        return f"({irp}){token} with {result(call['status'], call['information'])}"
    return f' {irp}' if do == 'look' else f'({irp})'


def call_words(call):
    """Returns a call with its arguments, behind the party that makes it."""
    by = call.get('by')
    party = '' if by is None else 'originator: ' if by == 'o' else f'D{by}: '
    return f"{party}{ROUTINES[call['do']]}{arguments(call)}"


def owner(it):
    return {'o': 'the originator owns it', 'ended': 'completed'}.get(it) or f'D{it} owns it'


def seen(it):
    """Returns what Look shows."""
    routine = '' if it[5] is None else f', cancel routine {it[5]} set'
    return (f'{owner(it[0])}, current location {it[1]}, {result(it[2], it[3])}{", cancelled" if it[4] else ""}{routine}'
            f'{", PendingReturned" if it[6] else ""}{", marked pending" if it[7] else ""}')


def reply_words(call, reply):
    """Returns what a call was answered."""
    if reply == 'done':
        return 'done'
    (key, value), = reply.items()
    if key == 'device':
        return {'attach': f'attached above D{value}', 'detach': f'D{value} is cut off'}.get(call['do'], f'D{value}')
    if key == 'cancelled':
        return 'TRUE: its cancel routine ran' if value else 'FALSE: no cancel routine was set'
    told = {'irp': packet, 'status': status, 'seen': seen, 'previous': lambda it: f'was {cancel_routine(it)}',
            'refused': lambda it: f'refused: {it}'}
    return told[key](value)
