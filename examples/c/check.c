/*
 * check RECORDING [NORMAL]: prints what a recording holds, or its refusal, and writes its normal form to NORMAL.
 * Exit status: 0 accepted, 1 refused, 2 a file cannot be read or written.
 */
#include <stdio.h>
#include <stdlib.h>

#include "cobbrundle.h"

/* A file's bytes, for the caller to free; NULL if it cannot be read. */
static uint8_t *read_file(const char *name, size_t *length)
{
    FILE *file = fopen(name, "rb");
    uint8_t *bytes = NULL;
    size_t size = 0, capacity = 0;
    int failed = file == NULL;
    while (!failed && !feof(file)) {
        if (size == capacity) {
            uint8_t *more = realloc(bytes, capacity = 2 * capacity + 4096);
            if (more == NULL) {
                failed = 1;
                break;
            }
            bytes = more;
        }
        size += fread(bytes + size, 1, capacity - size, file);
        failed = ferror(file);
    }
    if (file != NULL)
        fclose(file);
    if (failed) {
        free(bytes);
        return NULL;
    }
    *length = size;
    return bytes;
}

static int write_file(const char *name, const uint8_t *bytes, size_t length)
{
    FILE *file = fopen(name, "wb");
    if (file == NULL)
        return 0;
    int whole = fwrite(bytes, 1, length, file) == length;
    return fclose(file) == 0 && whole;
}

/* Room of the recording's length is always enough, and never of no bytes, since no accepted recording is empty. */
static int write_normal(const char *name, const uint8_t *bytes, size_t length)
{
    size_t place, written;
    uint8_t *room = malloc(length);
    int done = room != NULL && cobbrundle_normalise(bytes, length, room, length, &place, &written) == COBBRUNDLE_ACCEPTED
               && write_file(name, room, written);
    free(room);
    return done;
}

int main(int argc, char **argv)
{
    size_t length, place, blocks, messages;
    int16_t track;
    uint8_t refusal, *bytes;
    if (argc != 2 && argc != 3) {
        fprintf(stderr, "usage: check RECORDING [NORMAL]\n");
        return 2;
    }
    bytes = read_file(argv[1], &length);
    if (bytes == NULL) {
        perror(argv[1]);
        return 2;
    }
    refusal = cobbrundle_check(bytes, length, &place, &track, &blocks, &messages);
    if (refusal != COBBRUNDLE_ACCEPTED)
        printf("refused %d at %zu\n", refusal, place);
    else
        printf("accepted\ntrack %d\nblocks %zu\nmessages %zu\n", track, blocks, messages);
    if (refusal == COBBRUNDLE_ACCEPTED && argc == 3 && !write_normal(argv[2], bytes, length)) {
        fprintf(stderr, "%s: not written\n", argv[2]);
        free(bytes);
        return 2;
    }
    free(bytes);
    return refusal != COBBRUNDLE_ACCEPTED;
}
