/* own_packets.c: packets that drivers allocate and send, for the host's own test: one is on its way when the device goes. */
#include "test/requests.h"
#include "io/io.h"
#include "ke/ke.h"
#include "mm/mm.h"

static bool is_own(const Packet *p) { return p->allocator != NOBODY && !p->built.by_manager && !p->stands_in.of; }

/* Whether a driver allocated the packet, and not the test or the I/O manager for it. */
bool is_drivers_own(PIRP irp)
{
    Call c;
    enter_quietly(&c, "whose packet it is", (WDM_SITE){ 0 });
    const Packet *p = find(irp);
    const bool is = is_own(p);
    leave_host();
    return is;
}

OwnPackets own_packets(void)
{
    OwnPackets found = NO_OWN;
    hold_host("the host's own test", &packets, READS);
    for (int i = 0; i < n_packets && found != OWN_IN_FLIGHT; i++) {
        const Packet *p = packets[i];
        if (is_own(p) && p->sites.sent.file)
            found = lives(p) && (p->owner != ORIGINATOR || p->asking) ? OWN_IN_FLIGHT : OWN_ENDED;
    }
    pthread_mutex_unlock(&host_lock);
    return found;
}
