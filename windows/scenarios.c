/* scenarios.c: the recorder's scenarios as a driver, scenarios.sys. A feed is the name of one, with zeros behind it. */
#include "serving.h"
#include "scenarios.h"

PDRIVER_OBJECT ScenarioDriver(unsigned number)
{
    return LoadNumbered(number, ProbeDriverEntry) ? NumberedDriver(number) : NULL;
}

void ScenarioStops(unsigned number)
{
    KeBugCheckEx(0xE2, number, 0, 0, 0); /* MANUALLY_INITIATED_CRASH: nothing of the scenario is worth more */
}

static BOOLEAN is_name(const char *name, const uint64_t *words, size_t count)
{
    const char *text = (const char *)words;
    size_t i = 0;
    while (i < count * 8 && name[i] && name[i] == text[i])
        i++;
    return i < count * 8 && name[i] == text[i];
}

const char *Perform(const uint64_t *Words, size_t Count, ULONG Code, uint64_t *Replies, size_t *Made)
{
    UNREFERENCED_PARAMETER(Code);
    UNREFERENCED_PARAMETER(Replies);
    *Made = 0;
    for (unsigned i = 0; i < ScenarioCount; i++)
        if (is_name(Scenarios[i].name, Words, Count)) {
            ScenarioRun(i);
            return "done";
        }
    return "bad_feed";
}

VOID PerformEnded(VOID)
{
}
