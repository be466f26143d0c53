#define _DEFAULT_SOURCE
#include "guarded.h"

#include <signal.h>
#include <stdio.h>
#include <stdlib.h>
#include <string.h>
#include <sys/mman.h>
#include <sys/wait.h>
#include <unistd.h>

static uint8_t *room;      /* between two pages that cannot be read */
static size_t room_length; /* whole pages, at least GUARDED_BYTES */

/* Ends the program: nothing can be tested without the pages. */
static void give_up(const char *what)
{
    perror(what);
    exit(2);
}

/* Lets the room be written to, or only read. */
static void allow(int access)
{
    if (mprotect(room, room_length, access) != 0)
        give_up("mprotect");
}

void guarded_begin(void)
{
    size_t page = (size_t)sysconf(_SC_PAGESIZE);
    uint8_t *all;
    room_length = (GUARDED_BYTES + page - 1) / page * page;
    all = mmap(NULL, room_length + 2 * page, PROT_NONE,
               MAP_PRIVATE | MAP_ANONYMOUS, -1, 0);
    if (all == MAP_FAILED)
        give_up("mmap");
    room = all + page;
}

/* Puts a copy at a place of the room. */
static const uint8_t *put(uint8_t *at, const uint8_t *bytes, size_t length)
{
    allow(PROT_READ | PROT_WRITE);
    if (length > 0)
        memcpy(at, bytes, length);
    allow(PROT_READ);
    return at;
}

const uint8_t *guarded_to_end(const uint8_t *bytes, size_t length)
{
    return put(room + room_length - length, bytes, length);
}

const uint8_t *guarded_from_start(const uint8_t *bytes, size_t length)
{
    return put(room, bytes, length);
}

/* Whether touching a byte ends a process by SIGSEGV. */
static int faults(volatile uint8_t *byte, int write)
{
    int status;
    pid_t child = fork();
    if (child < 0)
        give_up("fork");
    if (child == 0) {
        signal(SIGSEGV, SIG_DFL);
        if (write)
            *byte = 1;
        else
            (void)*byte;
        _exit(0);
    }
    if (waitpid(child, &status, 0) != child)
        give_up("waitpid");
    return WIFSIGNALED(status) && WTERMSIG(status) == SIGSEGV;
}

int guarded_works(void)
{
    uint8_t one = 1;
    guarded_to_end(&one, 1);
    return faults(room + room_length, 0) && faults(room - 1, 0) &&
           faults(room, 1) && !faults(room, 0);
}
