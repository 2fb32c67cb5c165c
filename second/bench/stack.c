/* The stack that a call needs: below the caller a thread's stack is painted, and read back after the call. */
#define _XOPEN_SOURCE 700
#include <pthread.h>
#include <stdint.h>
#include <stdlib.h>

#define SIZE (4u << 20)
#define PAINT 0xa5
#define OWN 512 /* what the painter itself may be using */

struct job {
    void (*call)(void *);
    void *with;
    volatile unsigned char *low;
    size_t used;
};

static void *painted(void *arg)
{
    struct job *job = arg;
    volatile unsigned char *top = (volatile unsigned char *)__builtin_frame_address(0) - OWN;
    volatile unsigned char *at;
    for (at = job->low; at < top; at++)
        *at = PAINT;
    job->call(job->with);
    for (at = job->low; at < top && *at == PAINT; at++)
        ;
    job->used = (size_t)(top - at) + OWN;
    return NULL;
}

/* 0 where no thread could be had. */
size_t stack_used(void (*call)(void *), void *with)
{
    pthread_attr_t attributes;
    pthread_t thread;
    void *low = NULL;
    struct job job = {call, with, NULL, 0};
    if (posix_memalign(&low, 4096, SIZE) != 0)
        return 0;
    job.low = low;
    if (pthread_attr_init(&attributes) == 0) {
        if (pthread_attr_setstack(&attributes, low, SIZE) == 0 && pthread_create(&thread, &attributes, painted, &job) == 0)
            pthread_join(thread, NULL);
        pthread_attr_destroy(&attributes);
    }
    free(low);
    return job.used;
}
