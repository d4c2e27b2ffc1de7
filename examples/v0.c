/*
 * Prints the mask register v0 in every frame of a little-endian trace. The board's register block has 776 bytes:
 * 33 general registers of 8, then v0 to v31 of 16. So v0 is bytes 264 to 279.
 *
 *     cc -std=c99 -Iinclude examples/v0.c crates/trace_c/out/libtrace_c.a -o v0 && ./v0 samples/masks.tf
 */
#include <stdio.h>
#include <stdlib.h>

#include "tufakpeni.h"

enum { BLOCK = 776, V0 = 264, V0_SIZE = 16 };

/* A library of another interface would take these structs for others. */
static void demand_fit(void)
{
    if (!TFK_FITS()) {
        fprintf(stderr, "the library's interface has the number %llu, the header's %d\n",
                (unsigned long long)tfk_interface(), TFK_INTERFACE);
        exit(2);
    }
}

static void *room_for(size_t size)
{
    void *room = malloc(size > 0 ? size : 1);
    if (room == NULL) {
        fprintf(stderr, "no memory\n");
        exit(2);
    }
    return room;
}

/* The file's bytes, and their number in `length`. */
static uint8_t *contents(const char *name, size_t *length)
{
    FILE *stream = fopen(name, "rb");
    if (stream == NULL || fseek(stream, 0, SEEK_END) != 0) {
        perror(name);
        exit(2);
    }
    *length = (size_t)ftell(stream);
    rewind(stream);
    uint8_t *file = room_for(*length);
    *length = fread(file, 1, *length, stream);
    fclose(stream);
    return file;
}

/* How many bytes a register block has: as many in every frame. A frame that has one tells; 0 where none has. */
static size_t block_size(tfk_settings settings, const uint8_t *file, size_t length, const tfk_frame *frames, size_t count)
{
    for (size_t n = 0; n < count; n++) {
        if (frames[n].has_registers) {
            return tfk_registers_place(settings, file, length, n).length;
        }
    }
    return 0;
}

/* Every frame's v0. The table has the place of its registers, so no frame is asked about. */
static void print_frames(const uint8_t *file, const tfk_frame *frames, size_t count, size_t size)
{
    for (size_t n = 0; n < count; n++) {
        printf("frame %zu, tracepoint %u:", n, (unsigned)frames[n].tracepoint);
        if (!frames[n].has_registers) {
            printf(" no registers\n");
        } else if (size != BLOCK) {
            printf(" a register block of %zu bytes\n", size);
        } else {
            for (size_t i = 0; i < V0_SIZE; i++) {
                printf(" %02x", file[frames[n].registers_place + V0 + i]);
            }
            printf("\n");
        }
    }
}

int main(int argc, char **argv)
{
    if (argc != 2) {
        fprintf(stderr, "usage: %s TRACE\n", argv[0]);
        return 2;
    }
    demand_fit();
    size_t length;
    uint8_t *file = contents(argv[1], &length);
    tfk_settings little = tfk_default_settings(0);
    tfk_count count = tfk_frame_count(little, file, length);
    tfk_frame *frames = room_for(count.count * sizeof *frames);
    if (count.refusal == 0) {
        tfk_frame_table(little, file, length, frames, count.count);
        print_frames(file, frames, count.count, block_size(little, file, length, frames, count.count));
    } else {
        fprintf(stderr, "refused %d\n", count.refusal);
    }
    free(frames);
    free(file);
    return count.refusal == 0 ? 0 : 1;
}
