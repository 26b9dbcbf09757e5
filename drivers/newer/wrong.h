/* wrong.h: which mistake a file makes is read when it runs: so its tests have all of its mistakes in one program. Who builds
   with -DWRONG=3 needs none of this. */
char *getenv(const char *name);
int atoi(const char *text);

static inline int WrongByName(const char *name)
{
    const char *it = getenv(name);
    return it ? atoi(it) : 0;
}

#define WRONG WrongByName("WRONG")
