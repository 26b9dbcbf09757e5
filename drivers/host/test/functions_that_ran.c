/* functions_that_ran.c: which functions of drivers ran, where they are compiled with -finstrument-functions: for the sum of
   many runs, and where a driver has pageable code. */
#include "test/own.h"
#include "rules/rules.h"

void __cyg_profile_func_enter(void *fn, void *caller);
void __cyg_profile_func_exit(void *fn, void *caller);

void __cyg_profile_func_enter(void *fn, void *caller)
{
    (void)caller;
    function_ran(fn);
}

void __cyg_profile_func_exit(void *fn, void *caller) { check_pageable_function(fn, caller); }
