"""Whether an exploration may go back to snapshots of memory (host/explore/snapshots.h), or needs a process for each choice.

What the system keeps for a process isn't put back: files, handlers of signals, timers, new mappings. And a call of the
system fails that writes to a page which a snapshot has closed. So a program goes back only if its drivers and its test call
nothing beyond the host but functions that do neither."""

import re

from building import symbols_of

PASSED_ON = {"sigaction", "signal"}  # by the host, to the system
CAME_ONCE = "a failure that was found otherwise didn't come again"
HARMLESS = set("""
abort abs atexit atof atoi atol atoll bsearch calloc exit fflush fprintf fputc fputs free fwrite getenv
labs llabs longjmp malloc memccpy memchr memcmp memcpy memmem memmove memrchr memset perror printf putc putchar
puts qsort rand rand_r realloc setjmp sigsetjmp snprintf sprintf srand sscanf strcasecmp strcat strchr strchrnul strcmp strcpy
strcspn strdup strerror strlen strncasecmp strncat strncmp strncpy strndup strnlen strpbrk strrchr strsep strspn strstr strtod
strtok strtok_r strtol strtoll strtoul strtoull time tolower toupper vfprintf vprintf vsnprintf vsprintf wcscat wcschr wcscmp
wcscpy wcslen wcsncat wcsncmp wcsncpy wcsrchr wcsstr wmemcmp wmemcpy wmemset
pthread_attr_destroy pthread_attr_init pthread_attr_setdetachstate pthread_attr_setstacksize pthread_cond_destroy
pthread_cond_init pthread_condattr_destroy pthread_condattr_init pthread_condattr_setclock pthread_equal pthread_getspecific
pthread_key_create pthread_mutex_destroy pthread_mutex_init pthread_mutexattr_destroy pthread_mutexattr_init
pthread_mutexattr_settype pthread_once pthread_rwlock_destroy pthread_rwlock_init pthread_setspecific sem_destroy sem_init
WdmAddTest stdin stdout stderr environ errno_location assert_fail ctype_b_loc ctype_tolower_loc ctype_toupper_loc stack_chk_fail
GLOBAL_OFFSET_TABLE_ tls_get_addr dso_handle""".split())


def is_harmless(name):
    """Returns whether a function of the C library may be called, whose name the compiler may have changed."""
    plain = re.sub(r"^(__isoc\d+_|__|_)|_chk$", "", name)
    return plain in HARMLESS or name.startswith(("__gcov_", "__start_", "__stop_")) or re.fullmatch(r"__\w+[dst]i\d", name)


def note_calls(objects, library, folder):
    """Writes which functions that aren't harmless the program's own objects call."""
    found = [symbols_of(it) for it in objects]
    known = (set(symbols_of(library)[0]) - PASSED_ON).union(*(defined for defined, _ in found))
    wanted = set().union(*(wanted for _, wanted in found)) - known
    with open(folder + "/calls", "w", encoding="utf-8") as it:
        it.write(" ".join(sorted(name for name in wanted if not is_harmless(name))))


def why_forks(folder):
    """Returns why each choice needs a process of its own, or None."""
    with open(folder + "/calls", encoding="utf-8") as it:
        calls = it.read().split()
    return f"it calls {', '.join(calls)}, whose traces in the system aren't put back" if calls else None
