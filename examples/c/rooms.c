/*
 * Asks for the records of every operation with the room that the header says is enough, in every edition and frame, and counts the
 * answers that are not AXCUT_OK. Stores and loads of linked variables in spills are asked for with a byte less too: where their
 * first block is full, they need the whole room.
 */
#include "axcut.h"

#include <stdio.h>
#include <stdlib.h>

static uint8_t out[AXCUT_ROOM_FOR_RECORDS(AXCUT_FIRST_EDITION, AXCUT_LARGER_FRAME) + 24 * 64];
static uint8_t linked[AXCUT_ROOM_FOR_CONTEXT(AXCUT_LARGER_FRAME)];
static size_t asked, refused, filled;

static uint64_t value, counter;

/* Variables that stand in registers. */
enum { IN_REGISTERS = 6 };

static void expect(uint64_t number)
{
    asked++;
    refused += number != AXCUT_OK;
}

static uint64_t store(uint64_t edition, uint64_t frame, size_t before, size_t n, size_t room)
{
    counter = 0;
    return axcut_memory(edition, frame, AXCUT_MEMORY_STORE, 0, n, linked, AXCUT_BINDING_SIZE * (before + n), linked, 0, &counter, out, room, &value);
}

static uint64_t load(uint64_t edition, uint64_t frame, size_t before, size_t n, size_t room)
{
    counter = 0;
    return axcut_memory(edition, frame, AXCUT_MEMORY_LOAD, 0, 0, linked, AXCUT_BINDING_SIZE * before, linked, AXCUT_BINDING_SIZE * n, &counter, out, room, &value);
}

static void objects(uint64_t edition, uint64_t frame)
{
    size_t most = AXCUT_MOST_VARIABLES(frame), before, n;
    for (before = 0; before <= IN_REGISTERS; before++) {
        for (n = 0; before + n <= most; n++) {
            size_t stored = axcut_room_for_store(edition, n), loaded = axcut_room_for_load(edition, n);
            /* a store of none asks for the position past the variables */
            if (n != 0 || before < most) {
                expect(store(edition, frame, before, n, stored));
            }
            expect(load(edition, frame, before, n, loaded));
            filled += store(edition, frame, before, n, stored - 1) == AXCUT_ROOM;
            filled += load(edition, frame, before, n, loaded - 1) == AXCUT_ROOM;
            expect(store(edition, frame, before, n, AXCUT_ROOM_FOR_RECORDS(edition, frame)));
        }
    }
}

static void others(uint64_t edition, uint64_t frame)
{
    uint64_t operation, x, y, z, word[3] = {5, AXCUT_SPILL(1), AXCUT_SPILL(2)};
    size_t n;
    for (operation = AXCUT_OPERATION_LABEL; operation <= AXCUT_OPERATION_COMPARE_IMMEDIATE; operation++) {
        for (x = 0; x < 3; x++) {
            for (y = 0; y < 3; y++) {
                for (z = 0; z < 3; z++) {
                    expect(axcut_operation(frame, operation, word[x], word[y], word[z], 1, 7, out, AXCUT_ROOM_FOR_OPERATION, &value));
                }
            }
        }
    }
    for (x = 0; x < 3; x++) {
        counter = 0;
        expect(axcut_memory(edition, frame, AXCUT_MEMORY_ERASE_BLOCK, word[x], 0, linked, 0, linked, 0, &counter, out, AXCUT_ROOM_FOR_ERASE, &value));
        expect(axcut_memory(edition, frame, AXCUT_MEMORY_SHARE_BLOCK_N, word[x], 1, linked, 0, linked, 0, &counter, out, AXCUT_ROOM_FOR_SHARE, &value));
        for (n = 0; n <= AXCUT_MOST_VARIABLES(frame); n++) {
            expect(axcut_print(frame, true, word[x], linked, AXCUT_BINDING_SIZE * n, out, AXCUT_ROOM_FOR_PRINT, &value));
        }
    }
}

int main(void)
{
    uint64_t edition;
    size_t i;
    for (i = 0; i < sizeof linked; i += AXCUT_BINDING_SIZE) {
        axcut_write_binding(linked + i, AXCUT_LINKED, 0);
    }
    for (edition = AXCUT_FIRST_EDITION; edition <= AXCUT_SECOND_EDITION; edition++) {
        objects(edition, AXCUT_FRAME);
        objects(edition, AXCUT_LARGER_FRAME);
        others(edition, AXCUT_FRAME);
        others(edition, AXCUT_LARGER_FRAME);
    }
    printf("rooms: %zu asked, %zu refused, %zu filled\n", asked, refused, filled);
    return refused == 0 && filled != 0 ? EXIT_SUCCESS : EXIT_FAILURE;
}
