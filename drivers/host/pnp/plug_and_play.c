/*
 * plug_and_play.c: what the Plug and Play manager of a test does with the devices that it knows, in the order in which
 * Windows does it: "Adding a PnP Device to a Running System" and "Understanding When Remove IRPs Are Issued" of the WDK.
 * All of it runs on the manager's thread.
 */
#include "pnp/plug_and_play.h"
#include "io/io.h"
#include "ke/ke.h"
#include "ob/ob.h"
#include "record/record.h"
#include "test/test.h"

enum { MAX_NODES = 64, MAX_PLACED = 16 };

typedef struct {
    PDEVICE_OBJECT pdo; /* NULL: no node */
    int bus;            /* the node that reported it, or NOBODY */
    bool is_started, is_reported;
} Node;

static Node nodes[MAX_NODES];
static struct { const char *id; PDRIVER_OBJECT driver; } placed[MAX_PLACED];
static int n_placed;

VOID WdmPutOnChildren(const char *Id, PDRIVER_OBJECT Driver)
{
    if (n_placed == MAX_PLACED)
        reach_limit("drivers for more than 16 children");
    placed[n_placed].id = Id;
    placed[n_placed++].driver = Driver;
}

/* WDM_ON has NAME=ID for each driver that `run --on` names. */
BOOLEAN WdmGoesOnChildren(const char *Name, PDRIVER_OBJECT Driver)
{
    const size_t n = strlen(Name);
    const char *text = options.on_children;
    while (text && *text) {
        const char *id = strchr(text, '='), *end = id ? strchr(id, ';') : NULL;
        if (id && (size_t)(id - text) == n && !strncmp(text, Name, n)) {
            char *own = end ? strndup(id + 1, (size_t)(end - id - 1)) : strdup(id + 1);
            WdmPutOnChildren(own ? own : "", Driver);
            return TRUE;
        }
        text = end ? end + 1 : NULL;
    }
    return FALSE;
}

static int node_of(PDEVICE_OBJECT pdo)
{
    for (int i = 0; i < MAX_NODES; i++)
        if (nodes[i].pdo == pdo)
            return i;
    return NOBODY;
}

static int new_node(PDEVICE_OBJECT pdo, int bus)
{
    const int i = node_of(NULL);
    if (i < 0)
        reach_limit("more than 64 devices of Plug and Play");
    nodes[i] = (Node){ .pdo = pdo, .bus = bus, .is_reported = true };
    return i;
}

ULONG WdmGetChildren(PDEVICE_OBJECT Pdo, PDEVICE_OBJECT *Children, ULONG Most)
{
    const int bus = node_of(Pdo);
    ULONG n = 0;
    for (int i = 0; i < MAX_NODES && bus >= 0 && n < Most; i++)
        if (nodes[i].pdo && nodes[i].bus == bus && nodes[i].is_started)
            Children[n++] = nodes[i].pdo;
    return n;
}

static NTSTATUS start_node(int node)
{
    PDEVICE_OBJECT pdo = nodes[node].pdo;
    ask_before_start(pdo);
    const NTSTATUS status = ask_stack(pdo, IRP_MN_START_DEVICE);
    nodes[node].is_started = NT_SUCCESS(status);
    if (nodes[node].is_started) {
        ask_after_start(pdo);
        look_for_children(pdo);
    }
    return status;
}

/* Drivers come onto the child: those of the test, else the host's own. */
static void put_drivers_on(PDEVICE_OBJECT pdo, const char *id)
{
    for (int i = 0; i < n_placed; i++)
        if (strstr(id, placed[i].id))
            WdmAddDevice(placed[i].driver, pdo);
    if (IoGetAttachedDevice(pdo) == pdo)
        take_child(pdo);
}

static void introduce(int node)
{
    char id[120] = "";
    PDEVICE_OBJECT pdo = nodes[node].pdo;
    ask_new_child(pdo, id, sizeof id);
    put_drivers_on(pdo, id);
    if (!NT_SUCCESS(start_node(node)))
        ask_stack(pdo, IRP_MN_REMOVE_DEVICE);
}

NTSTATUS plug_in(PDEVICE_OBJECT pdo) { return start_node(new_node(pdo, NOBODY)); }

/* Does something to each child of a bus. */
static void with_children(int bus, void (*act)(int))
{
    for (int i = 0; i < MAX_NODES; i++)
        if (nodes[i].pdo && nodes[i].bus == bus)
            act(i);
}

/* Sends a request to each device of the subtree that is started, children first. */
static void send_up(int node, UCHAR minor)
{
    for (int i = 0; i < MAX_NODES; i++)
        if (nodes[i].pdo && nodes[i].bus == node)
            send_up(i, minor);
    if (nodes[node].is_started)
        ask_stack(nodes[node].pdo, minor);
}

/* The same, children last. */
static void send_down(int node, UCHAR minor)
{
    if (nodes[node].is_started)
        ask_stack(nodes[node].pdo, minor);
    for (int i = 0; i < MAX_NODES; i++)
        if (nodes[i].pdo && nodes[i].bus == node)
            send_down(i, minor);
}

/* Asks each device of the subtree that is started, children first, until one doesn't agree. Returns whether all do. */
static bool agrees(int node, UCHAR minor)
{
    for (int i = 0; i < MAX_NODES; i++)
        if (nodes[i].pdo && nodes[i].bus == node && !agrees(i, minor))
            return false;
    return !nodes[node].is_started || NT_SUCCESS(ask_stack(nodes[node].pdo, minor));
}

/* The node goes, its children first. */
static void remove_node(int node)
{
    PDEVICE_OBJECT pdo = nodes[node].pdo;
    const bool is_child = nodes[node].bus >= 0;
    with_children(node, remove_node);
    await_closed(pdo, false);
    ask_stack(pdo, IRP_MN_REMOVE_DEVICE);
    nodes[node].pdo = NULL;
    if (is_child)
        ObDereferenceObject(pdo);
}

void unplug(PDEVICE_OBJECT pdo)
{
    const int node = node_of(pdo);
    if (node >= 0 && !agrees(node, IRP_MN_QUERY_REMOVE_DEVICE)) {
        send_down(node, IRP_MN_CANCEL_REMOVE_DEVICE);
        send_up(node, IRP_MN_SURPRISE_REMOVAL);
    }
}

void take_by_surprise(PDEVICE_OBJECT pdo)
{
    const int node = node_of(pdo);
    if (node >= 0)
        send_up(node, IRP_MN_SURPRISE_REMOVAL);
}

void remove_all(PDEVICE_OBJECT pdo)
{
    const int node = node_of(pdo);
    if (node >= 0)
        remove_node(node);
}

void stop_and_start(PDEVICE_OBJECT pdo)
{
    const int node = node_of(pdo);
    if (node < 0)
        return;
    if (!agrees(node, IRP_MN_QUERY_STOP_DEVICE)) {
        send_down(node, IRP_MN_CANCEL_STOP_DEVICE);
        return;
    }
    send_up(node, IRP_MN_STOP_DEVICE);
    send_down(node, IRP_MN_START_DEVICE);
    look_for_children(pdo);
}

static void forget_reports(int node) { nodes[node].is_reported = false; }

static int known_device(PDEVICE_OBJECT device)
{
    int d = n_devices - 1;
    while (d >= 0 && devices[d].raw != device)
        d--;
    return d;
}

/* A bus deletes a child that is missing when it is removed. */
static void check_deleted(PDEVICE_OBJECT child)
{
    Call c;
    enter_host(&c, "IRP_MN_REMOVE_DEVICE", (WDM_SITE){ 0 });
    const int d = known_device(child);
    if (d >= 0 && devices[d].live && !devices[d].leaving && !devices[d].stays)
        fault("Relations", NULL, "%s isn't reported any more and was removed, and its device object is still there", who(d));
    leave_host();
}

static void let_missing_go(int node)
{
    PDEVICE_OBJECT pdo = nodes[node].pdo;
    if (nodes[node].is_reported)
        return;
    send_up(node, IRP_MN_SURPRISE_REMOVAL);
    remove_node(node);
    check_deleted(pdo);
}

/* A bus reports a device object that is there, and takes a reference to it, which the manager gives back. */
static bool is_well_reported(PDEVICE_OBJECT child)
{
    Call c;
    enter_host(&c, "IRP_MN_QUERY_DEVICE_RELATIONS", (WDM_SITE){ 0 });
    const int d = known_device(child);
    const bool is_there = d >= 0 && devices[d].live, lacks = is_there && !is_referenced(child);
    if (!is_there)
        fault("Relations", NULL, "%s is reported as a child", d < 0 ? "what is no device" : "a device that was deleted");
    if (lacks)
        fault("Relations", NULL, "%s is reported as a child without a reference: ObReferenceObject is missing", who(d));
    leave_host();
    if (lacks)
        ObReferenceObject(child);
    return is_there;
}

/* Notes which children the bus reports. Those that are new go to `fresh`. Returns how many. */
static int note_reported(int bus, const DEVICE_RELATIONS *relations, int *fresh)
{
    int n = 0;
    for (ULONG i = 0; i < relations->Count; i++) {
        PDEVICE_OBJECT pdo = relations->Objects[i];
        const int known = node_of(pdo);
        if (!is_well_reported(pdo))
            continue;
        if (known < 0 && n < MAX_NODES)
            fresh[n++] = new_node(pdo, bus);
        else if (known >= 0) {
            nodes[known].is_reported = true;
            ObDereferenceObject(pdo);
        }
    }
    return n;
}

void look_for_children(PDEVICE_OBJECT pdo)
{
    const int bus = node_of(pdo);
    int fresh[MAX_NODES], n = 0;
    bool answered = false;
    if (bus < 0 || !nodes[bus].is_started)
        return;
    PDEVICE_RELATIONS relations = ask_relations(pdo, &answered);
    if (!answered)
        return;
    with_children(bus, forget_reports);
    if (relations) {
        n = note_reported(bus, relations, fresh);
        ExFreePool(relations);
    }
    with_children(bus, let_missing_go);
    for (int i = 0; i < n; i++)
        introduce(fresh[i]);
}
