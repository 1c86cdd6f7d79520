/*
 * stack FILE..: of each accepted recording, how deep into the stack a call of cobbrundle_check and one of
 * cobbrundle_normalise write, in bytes. Each is made in a thread of its own, on a stack that was painted before.
 */
#include <pthread.h>
#include <stdio.h>
#include <stdlib.h>
#include <string.h>

#include "cobbrundle.h"

enum { STACK = 8 << 20, PAINT = 0xA5 };

struct call {
    int normalises;
    const uint8_t *bytes;
    uint8_t *room;
    size_t length;
    uint8_t *stack;
    size_t depth;
};

static void fail(const char *what)
{
    perror(what);
    exit(2);
}

static void *allocated(size_t size)
{
    void *memory = aligned_alloc(4096, (size + 4095) / 4096 * 4096);
    if (memory == NULL)
        fail("memory");
    return memory;
}

/* The depth is from where this function's own locals are, and is found before the thread gives its stack back. */
static void *measure(void *argument)
{
    struct call *call = argument;
    size_t place, blocks, messages, written, i = 0;
    int16_t track;
    int number = call->normalises
                     ? cobbrundle_normalise(call->bytes, call->length, call->room, call->length, &place, &written)
                     : cobbrundle_check(call->bytes, call->length, &place, &track, &blocks, &messages);
    while (i < STACK && call->stack[i] == PAINT)
        i++;
    call->depth = number == COBBRUNDLE_ACCEPTED ? (size_t)((uint8_t *)&place - (call->stack + i)) : 0;
    return NULL;
}

static size_t depth(struct call call, int normalises)
{
    pthread_attr_t attributes;
    pthread_t thread;
    call.normalises = normalises;
    call.stack = allocated(STACK);
    memset(call.stack, PAINT, STACK);
    if (pthread_attr_init(&attributes) || pthread_attr_setstack(&attributes, call.stack, STACK)
        || pthread_create(&thread, &attributes, measure, &call) || pthread_join(thread, NULL))
        fail("thread");
    free(call.stack);
    return call.depth;
}

int main(int argc, char **argv)
{
    for (int i = 1; i < argc; i++) {
        FILE *file = fopen(argv[i], "rb");
        long length;
        if (file == NULL || fseek(file, 0, SEEK_END) || (length = ftell(file)) < 0)
            fail(argv[i]);
        rewind(file);
        uint8_t *bytes = allocated(length + 1), *room = allocated(length + 1);
        if (fread(bytes, 1, length, file) != (size_t)length)
            fail(argv[i]);
        fclose(file);
        struct call call = {.bytes = bytes, .room = room, .length = length};
        size_t checked = depth(call, 0), normalised = depth(call, 1);
        if (checked == 0 || normalised == 0) {
            fprintf(stderr, "%s: refused\n", argv[i]);
            return 1;
        }
        printf("%zu %zu\n", checked, normalised);
        free(bytes);
        free(room);
    }
}
