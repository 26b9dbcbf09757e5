/* LastLength has the length of the last answer by the time at which the read's sender has it. */
#include "../lesson_test.h"

extern volatile LONG LastLength;

WDM_TEST(last_length_is_the_length_of_the_last_answer)
{
    static REQUEST a;
    PDEVICE_OBJECT bottom, top = stack(&bottom);
    pnp(top, IRP_MN_START_DEVICE);
    for (LONG length = 3; length > 1; length--) {
        below.Information = (ULONG_PTR)length;
        send(&a, top, IRP_MJ_READ, 8);
        WDM_CHECK(has_status(&a, STATUS_SUCCESS) && a.Iosb.Information == (ULONG_PTR)length);
        WDM_CHECK(LastLength == length);
    }
    below.HoldsReads = TRUE;
    pthread_t sender = send_until_held(&a, top, IRP_MJ_READ, 0);
    answer(STATUS_SUCCESS, 5);
    wait_for(&a);
    WDM_CHECK(LastLength == 5);
    pthread_join(sender, NULL);
    take_away(top, bottom);
}
