/* A command stream in words, by the exports alone: the one that submission.c submits. From host/:
 *
 *   cc -Iinclude examples/listing.c -o listing ../target/staticlib/libzelezmut.a
 */
#include "zelezmut.h"

#include <stdio.h>
#include <string.h>

#define STREAM_SIZE (24 + 40 + 32)

static uint8_t stream[STREAM_SIZE];
static uint8_t listing[ZELEZMUT_LONGEST_LISTING(STREAM_SIZE)];

/* A stream is little-endian, and so is x86-64. */
static void put32(size_t at, uint32_t value) { memcpy(stream + at, &value, sizeof value); }
static void put64(size_t at, uint64_t value) { memcpy(stream + at, &value, sizeof value); }

/* What a driver has sent: a header and two packets. */
static void put_stream(void) {
    memcpy(stream, "ACMD", 4);
    put32(4, 65539);
    put32(8, STREAM_SIZE);
    put32(24, 256); /* create buffer 1: 256 bytes, 64 into entry 5 */
    put32(28, 40);
    put32(32, 1);
    put64(40, 256);
    put32(48, 5);
    put32(52, 64);
    put32(64, 259); /* buffer 1 is dirty: 32 bytes at 16 */
    put32(68, 32);
    put32(72, 1);
    put64(80, 16);
    put64(88, 32);
}

/* The packets in words, in so many bytes of the buffer. */
static void print_listing(size_t room) {
    uint64_t said = zelezmut_dump(stream, STREAM_SIZE, 0, listing, room);
    printf("dump %u, %u bytes\n", zelezmut_dumped_answer(said), (unsigned)zelezmut_dumped_length(said));
    fwrite(listing, 1, zelezmut_dumped_length(said), stdout);
}

int main(void) {
    if (zelezmut_layout() != ZELEZMUT_LAYOUT) {
        fprintf(stderr, "the library and its header have different layouts: build the two from one tree\n");
        return 1;
    }
    put_stream();
    print_listing(16); /* too short */
    print_listing(sizeof listing);
    return 0;
}
