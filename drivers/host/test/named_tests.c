/* named_tests.c: the `main` of a program whose tests are named by WDM_TEST: it runs the one that the environment names
   in WDM_TEST, or all of them. `names` prints their names. */
#include "options.h"
#include "wdm_test.h"
#include <stdio.h>

static WDM_NAMED *first, **last = &first;

VOID WdmAddTest(WDM_NAMED *Test)
{
    *last = Test;
    last = &Test->Next;
}

int main(int argc, char **argv)
{
    const char *wanted = options.test;
    int n_run = 0;
    for (const WDM_NAMED *it = first; it; it = it->Next)
        if (argc > 1 && !strcmp(argv[1], "names"))
            puts(it->Name);
        else if (!wanted || !strcmp(wanted, it->Name)) {
            it->Run();
            n_run++;
        }
    if (argc > 1)
        return 0;
    if (!n_run)
        fprintf(stderr, "no test is named %s\n", wanted ? wanted : "");
    return n_run ? WdmFinish() : 4;
}
