#define _DEFAULT_SOURCE
#include "measure.h"

#include <pthread.h>
#include <stdio.h>
#include <stdlib.h>
#include <string.h>
#include <time.h>

enum { STACK_BYTES = 1 << 21, PAINT = 0xA5 };

static uintptr_t stack_top;

void give_up(const char *what)
{
    fprintf(stderr, "bench: %s\n", what);
    exit(1);
}

double now(void)
{
    struct timespec time;
    clock_gettime(CLOCK_PROCESS_CPUTIME_ID, &time);
    return (double)time.tv_sec * 1e9 + (double)time.tv_nsec;
}

double lower(double a, double b)
{
    return a < b ? a : b;
}

size_t larger(size_t a, size_t b)
{
    return a > b ? a : b;
}

void mark(void)
{
    stack_top = 0;
}

void stack_begins(const volatile uint8_t *here)
{
    stack_top = (uintptr_t)here;
}

static void *run_call(void *argument)
{
    void (**call)(void) = argument;
    (*call)();
    return NULL;
}

size_t stack_of(void (*call)(void))
{
    static uint8_t *stack;
    pthread_attr_t attributes;
    pthread_t thread;
    size_t untouched = 0;
    call(); /* the loader binds memcpy here */
    if (stack == NULL && posix_memalign((void **)&stack, 4096, STACK_BYTES))
        give_up("no memory");
    memset(stack, PAINT, STACK_BYTES);
    if (pthread_attr_init(&attributes) ||
        pthread_attr_setstack(&attributes, stack, STACK_BYTES) ||
        pthread_create(&thread, &attributes, run_call, &call) ||
        pthread_join(thread, NULL))
        give_up("no thread");
    pthread_attr_destroy(&attributes);
    while (stack[untouched] == PAINT)
        untouched++;
    return stack_top - (uintptr_t)(stack + untouched);
}
