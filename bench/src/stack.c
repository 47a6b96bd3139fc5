/*
 * Builds the tree of 64 nested species, the deepest there is, on a stack of so many bytes: stack [BYTES]; and in a thread whose stack has so many:
 * stack BYTES thread. Behind the stack's end lies memory that nothing may touch, so that a build that needs more dies. Prints how many bytes the build
 * touches where there are plenty. Exit 1 where it dies on BYTES, or the tree is another one, or the triples looked at are not the most that there can be.
 */
#define _GNU_SOURCE
#include <pthread.h>
#include <stdio.h>
#include <stdlib.h>
#include <string.h>
#include <sys/mman.h>
#include <sys/wait.h>
#include <ucontext.h>
#include <unistd.h>

#include "koodhaxil.h"

#define N KOODHAXIL_MOST_SPECIES
#define UNTOUCHED 0xa5

/* More than any frame has, so that none reaches over it. */
#define FORBIDDEN ((size_t)1 << 20)
#define PLENTY ((size_t)1 << 20)

static uint8_t table[KOODHAXIL_TABLE(N)], wanted[KOODHAXIL_ROOM(N)], room[KOODHAXIL_ROOM(N)];
static size_t values[KOODHAXIL_VALUES], number;
static ucontext_t here, there;

/* The table of ((..((0,1),2)..),63), and the tree: the groups from the largest to (0,1), then the species. */
static void nested(void)
{
    int k;

    memset(table, 1, sizeof table);
    for (k = 0; k < N - 1; k++) {
        wanted[2 * k] = (uint8_t)(k == 0 ? KOODHAXIL_NONE : k - 1);
        wanted[2 * k + 1] = KOODHAXIL_NONE;
    }
    for (k = 0; k < N; k++) {
        wanted[2 * (N - 1 + k)] = (uint8_t)(k < 2 ? N - 2 : N - 1 - k);
        wanted[2 * (N - 1 + k) + 1] = (uint8_t)k;
    }
}

static void build(void)
{
    memset(room, 0, sizeof room);
    number = koodhaxil_build(N, KOODHAXIL_ALL(N), table, sizeof table, room, sizeof room, values, KOODHAXIL_VALUES);
}

static void stop(const char *what)
{
    perror(what);
    exit(2);
}

/* Builds on this stack. */
static void build_on(uint8_t *stack, size_t bytes)
{
    if (getcontext(&there) != 0) stop("getcontext");
    there.uc_stack.ss_sp = stack;
    there.uc_stack.ss_size = bytes;
    there.uc_link = &here;
    makecontext(&there, build, 0);
    if (swapcontext(&here, &there) != 0) stop("swapcontext");
}

/* Ends the process: with 0 for the right tree. */
static void end(void)
{
    fflush(stdout);
    _exit(number == KOODHAXIL_DONE && values[0] == 2 * N - 1 && values[1] == KOODHAXIL_MOST_LOOKED && memcmp(room, wanted, sizeof room) == 0 ? 0 : 1);
}

/* Builds on a stack of so many bytes, and ends the process. Says how many of them were touched, where that is asked. */
static void on_stack(size_t bytes, int say)
{
    uint8_t *memory = mmap(NULL, FORBIDDEN + bytes, PROT_NONE, MAP_PRIVATE | MAP_ANONYMOUS, -1, 0), *stack;
    size_t low;

    if (memory == MAP_FAILED) stop("mmap");
    stack = memory + FORBIDDEN;
    if (mprotect(stack, bytes, PROT_READ | PROT_WRITE) != 0) stop("mprotect");
    memset(stack, UNTOUCHED, bytes);
    build_on(stack, bytes);
    for (low = 0; low < bytes && stack[low] == UNTOUCHED; low++);
    if (say) printf("stack: building 64 nested species touches %zu bytes\n", bytes - low);
    end();
}

static void *build_there(void *nothing)
{
    build();
    return nothing;
}

/* Builds in a thread with a stack of so many bytes, of which the C library has its part, and ends the process. */
static void in_thread(size_t bytes)
{
    pthread_attr_t form;
    pthread_t thread;

    if (pthread_attr_init(&form) != 0 || pthread_attr_setstacksize(&form, bytes) != 0 || pthread_create(&thread, &form, build_there, NULL) != 0 ||
        pthread_join(thread, NULL) != 0) {
        fprintf(stderr, "stack: no thread with a stack of %zu bytes\n", bytes);
        _exit(2);
    }
    end();
}

/* One of the two in a process of its own. Returns how that ended. */
static int apart(size_t bytes, int say, int thread)
{
    int status;
    pid_t child;

    fflush(stdout);
    child = fork();
    if (child == -1) stop("fork");
    if (child == 0 && thread) in_thread(bytes);
    if (child == 0) on_stack(bytes, say);
    if (waitpid(child, &status, 0) == -1) stop("waitpid");
    return status;
}

int main(int count, char **words)
{
    size_t bytes = count > 1 ? strtoul(words[1], NULL, 10) : 32768;
    int status, thread = count == 3 && strcmp(words[2], "thread") == 0;
    const char *where = thread ? "in a thread with " : "on ";

    if (count > 2 + thread || bytes == 0) {
        fprintf(stderr, "usage: stack [BYTES [thread]]\n");
        return 2;
    }
    nested();
    build(); /* where functions of the C library are found at their first call, this is it */
    if (apart(PLENTY, 1, 0) != 0) {
        printf("stack: it does NOT give the right tree\n");
        return 1;
    }
    status = apart(bytes, 0, thread);
    if (status != 0) {
        printf("stack: %s%zu bytes it %s\n", where, bytes, WIFSIGNALED(status) ? "DIES" : "does NOT give the right tree");
        return 1;
    }
    printf("stack: %s%zu bytes it gives the right tree\n", where, bytes);
    return 0;
}
