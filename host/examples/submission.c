/* A submission from ring to fence, by the exports alone: what the crate's documentation plays in Rust. Then the device is saved, and loaded
 * as another one. From host/:
 *
 *   cc -Iinclude examples/submission.c -o submission ../target/staticlib/libzelezmut.a
 */
#include "zelezmut.h"

#include <stdio.h>
#include <string.h>

#define MEMORY 16384
#define RING 0
#define TABLE 1024
#define STREAM 2048

static struct zelezmut_state device;
static struct zelezmut_state moved;
static uint8_t memory[MEMORY];
static uint8_t file[ZELEZMUT_LONGEST_SAVED];
static uint8_t form_2[ZELEZMUT_LONGEST_SAVED];

/* The guest's memory is little-endian, and so is x86-64. */
static void put32(size_t at, uint32_t value) { memcpy(memory + at, &value, sizeof value); }
static void put64(size_t at, uint64_t value) { memcpy(memory + at, &value, sizeof value); }

/* What rings, tables and streams begin with. */
static void put_header(size_t at, const char *magic, uint32_t size) {
    memcpy(memory + at, magic, 4);
    put32(at + 4, 65539);
    put32(at + 8, size);
}

/* What the guest's driver has written: a ring of eight slots with one submission, its table of one entry, its stream of two packets. */
static void put_submission(void) {
    put_header(RING, "ARNG", 64 + 8 * 64);
    put32(RING + 12, 8);
    put32(RING + 16, 64);
    put32(RING + 28, 1); /* the tail */

    put32(RING + 64, 64); /* the first slot */
    put64(RING + 64 + 16, STREAM);
    put32(RING + 64 + 24, 24 + 40 + 32);
    put64(RING + 64 + 32, TABLE);
    put32(RING + 64 + 40, 24 + 32);
    put64(RING + 64 + 48, 1); /* the fence */

    put_header(TABLE, "ALOC", 24 + 32);
    put32(TABLE + 12, 1);
    put32(TABLE + 16, 32);
    put32(TABLE + 24, 5); /* id 5: 4096 bytes at 8192 */
    put64(TABLE + 24 + 8, 8192);
    put64(TABLE + 24 + 16, 4096);

    put_header(STREAM, "ACMD", 24 + 40 + 32);
    put32(STREAM + 24, 256); /* create buffer 1: 256 bytes, 64 into entry 5 */
    put32(STREAM + 28, 40);
    put32(STREAM + 32, 1);
    put64(STREAM + 40, 256);
    put32(STREAM + 48, 5);
    put32(STREAM + 52, 64);
    put32(STREAM + 64, 259); /* buffer 1 is dirty: 32 bytes at 16 */
    put32(STREAM + 68, 32);
    put32(STREAM + 72, 1);
    put64(STREAM + 80, 16);
    put64(STREAM + 88, 32);
}

static void print_ran(const char *call, uint64_t said) {
    static const char *const endings[] = {"idle", "waiting", "paused"};
    printf("%s %u %u %s\n", call, zelezmut_ran_answer(said), zelezmut_ran_units(said), endings[zelezmut_ran_ended(said)]);
}

/* The device goes into a file of form 1, which is moved to form 2, and comes out of that as another one; a file that is a byte short does
 * not. Whoever moves a device elsewhere moves guest memory, too. */
static void move_device(void) {
    uint64_t said = zelezmut_save(device.words, device.first, device.second, device.first_tokens, device.second_tokens, file,
                                  sizeof file);
    uint32_t length = zelezmut_saved_length(said);
    printf("save %u, %u bytes\n", zelezmut_saved_answer(said), length);
    if (zelezmut_saved_answer(said) != ZELEZMUT_DONE)
        return;
    said = zelezmut_load(moved.words, moved.first, moved.first_tokens, file, length - 1);
    printf("load %u, byte %u\n", zelezmut_loaded_answer(said), zelezmut_loaded_place(said));
    said = zelezmut_move(file, length, form_2, sizeof form_2);
    length = zelezmut_saved_length(said);
    printf("move %u, %u bytes\n", zelezmut_saved_answer(said), length);
    said = zelezmut_load(moved.words, moved.first, moved.first_tokens, form_2, length);
    printf("load %u\n", zelezmut_loaded_answer(said));
    printf("fence %u\n", (unsigned)zelezmut_read(moved.words, 0x130));
}

/* Whether the library is the one of the header: else its arrays may be larger than those that it is lent. */
static int layout_fits(void) {
    if (zelezmut_layout() == ZELEZMUT_LAYOUT)
        return 1;
    fprintf(stderr, "the library has layout %#llx, and its header %#llx: build the two from one tree\n",
            (unsigned long long)zelezmut_layout(), (unsigned long long)ZELEZMUT_LAYOUT);
    return 0;
}

int main(void) {
    if (!layout_fits())
        return 1;
    put_submission();
    zelezmut_make(device.words, MEMORY);
    printf("write %u\n", zelezmut_write(device.words, 0x100, RING));
    printf("write %u\n", zelezmut_write(device.words, 0x108, 64 + 8 * 64));
    printf("write %u\n", zelezmut_write(device.words, 0x10C, 1)); /* enable */
    printf("write %u\n", zelezmut_write(device.words, 0x200, 1)); /* doorbell */

    print_ran("run", zelezmut_run(device.words, device.entries, device.first, device.second, device.first_tokens,
                                  device.second_tokens, device.records, memory, MEMORY, 100));
    uint64_t record[5];
    for (uint32_t i = 0; zelezmut_record(device.words, device.records, i, record) == ZELEZMUT_DONE; i++)
        printf("record %u: kind %u, handle %u, id %u, %llu bytes at %llu\n", i, (unsigned)record[0], (unsigned)record[1],
               (unsigned)record[2], (unsigned long long)record[4], (unsigned long long)record[3]);

    /* The host has done what the records ask. */
    print_ran("answer", zelezmut_answer(device.words, device.entries, device.first, device.second, device.first_tokens,
                                        device.second_tokens, device.records, memory, MEMORY, 1, 100));
    printf("fence %u\n", (unsigned)zelezmut_read(device.words, 0x130));
    move_device();
    return 0;
}
