"""A test with semaphores, locks, waits and memory of its own, for explored.py."""

LOCKS = """#include <wdm.h>
#include "wdm_test.h"
#include <pthread.h>
#include <semaphore.h>
#include <stdio.h>
#include <time.h>

static sem_t one;
static pthread_rwlock_t lock = PTHREAD_RWLOCK_INITIALIZER;
static pthread_mutex_t mutex = PTHREAD_MUTEX_INITIALIZER;
static pthread_cond_t told = PTHREAD_COND_INITIALIZER;
static int sum, is_told;

static void *add(void *context)
{
    sem_wait(&one);
    const int was = sum;
    sum = was + 1;
    sem_post(&one);
    pthread_rwlock_rdlock(&lock);
    const int seen = sum;
    pthread_rwlock_unlock(&lock);
    pthread_rwlock_wrlock(&lock);
    pthread_rwlock_unlock(&lock);
    while (pthread_mutex_trylock(&mutex))
        nanosleep(&(struct timespec){ 0, 1000000 }, NULL);
    is_told++;
    pthread_cond_signal(&told);
    pthread_mutex_unlock(&mutex);
    return seen ? context : NULL;
}

int main(void)
{
    pthread_t t[2];
    struct timespec limit;
    char *own = realloc(strdup("its own memory"), 100), *line = NULL;
    size_t room = 0;
    FILE *nothing = fopen("/dev/null", "r");
    free(getline(&line, &room, nothing) < 0 && !strcmp(own, "its own memory") ? own : (char *)1);
    free(line);
    fclose(nothing);
    sem_init(&one, 0, 1);
    WdmSend(WdmCreateBottom(FALSE), IRP_MJ_READ, 0, 4);
    for (int i = 0; i < 2; i++)
        pthread_create(&t[i], NULL, add, NULL);
    pthread_mutex_lock(&mutex);
    clock_gettime(CLOCK_REALTIME, &limit);
    limit.tv_sec += 5;
    while (is_told < 2 && !pthread_cond_timedwait(&told, &mutex, &limit))
        ;
    pthread_mutex_unlock(&mutex);
    for (int i = 0; i < 2; i++)
        pthread_join(t[i], NULL);
    return WdmFinish() || sum != 2 ? 2 : 0;
}
"""
