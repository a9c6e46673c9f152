/*
 * A piezometer's channel: its limit is kept as an object, loaded for each reading and compared by subtraction. Each order's records
 * are emitted and run. Then the list of orders in the first file named, in both frames, and that in the second, in both editions.
 * With examples/long.orders and examples/forty.orders the text is examples/expected.txt, as examples/rust/channel.rs prints it too.
 * Compiles as C99 and as C++.
 */
#include "axcut.h"

#include <inttypes.h>
#include <stdio.h>
#include <stdlib.h>
#include <string.h>

/* Two more than are reachable at once: one, and 132 in the list that reaches most. */
enum { BLOCKS = 3, LIST_BLOCKS = 134 };

/* What the orders of one code came to. */
struct work {
    uint64_t records, steps;
};

/*
 * All that a channel has: the caller owns it, the library is lent it. The arrays are large enough for either frame and edition. The
 * work is by the order's code.
 */
struct channel {
    uint64_t edition, frame;
    uint64_t registers[AXCUT_REGISTERS];
    uint64_t stack[AXCUT_STACK_WORDS(AXCUT_LARGER_FRAME)];
    uint64_t heap[LIST_BLOCKS * AXCUT_BLOCK_WORDS(AXCUT_SECOND_EDITION)];
    size_t blocks;
    uint64_t counter;
    uint8_t context[AXCUT_ROOM_FOR_CONTEXT(AXCUT_LARGER_FRAME)];
    size_t variables;
    uint8_t records[AXCUT_ROOM_FOR_RECORDS(AXCUT_FIRST_EDITION, AXCUT_LARGER_FRAME)];
    struct work work[AXCUT_ORDER_PRINT + 1];
};

/* An order's fields, and what it is for. A load's n fields are all integers here. */
struct order {
    uint8_t code, flag;
    uint32_t a, b, n;
    uint64_t value;
    const char *why;
};

static const struct order orders[] = {
    {AXCUT_ORDER_PUT, 0, 0, 0, 0, 230, "limit in kPa"},
    {AXCUT_ORDER_PUT, 0, 0, 0, 0, 6, "limit of the rise in a day"},
    {AXCUT_ORDER_STORE, 0, 0, 0, 2, 7, "both limits of piezometer 7"},
    {AXCUT_ORDER_PUT, 0, 0, 0, 0, 218, "reading on Monday"},
    {AXCUT_ORDER_PUT, 0, 0, 0, 0, 225, "reading on Tuesday"},
    {AXCUT_ORDER_COPY, 0, 0, 0, 1, 0, "limits for Tuesday"},
    {AXCUT_ORDER_LOAD, 0, 0, 0, 2, 0, "limit, rise"},
    {AXCUT_ORDER_COMPUTE, AXCUT_COMPUTE_SUB, 3, 2, 0, 0, "left to the limit"},
    {AXCUT_ORDER_PRINT, 1, 5, 0, 0, 0, ""},
    {AXCUT_ORDER_COMPUTE, AXCUT_COMPUTE_SUB, 2, 1, 0, 0, "rise since Monday"},
    {AXCUT_ORDER_COMPUTE, AXCUT_COMPUTE_SUB, 4, 6, 0, 0, "left to the rise"},
    {AXCUT_ORDER_PRINT, 1, 7, 0, 0, 0, "negative: rose too fast"},
    {AXCUT_ORDER_COMPUTE, AXCUT_COMPUTE_SUB, 0, 2, 0, 0, "limits are no integer"},
    {AXCUT_ORDER_PRINT, 1, 8, 0, 0, 0, "no such variable"},
    {AXCUT_ORDER_DROP, 0, 0, 0, 0, 0, ""},
    {AXCUT_ORDER_DROP, 0, 0, 0, 0, 0, ""},
    {AXCUT_ORDER_DROP, 0, 0, 0, 0, 0, ""},
    {AXCUT_ORDER_DROP, 0, 0, 0, 0, 0, ""},
    {AXCUT_ORDER_DROP, 0, 0, 0, 0, 0, "Tuesday's work"},
    {AXCUT_ORDER_PUT, 0, 0, 0, 0, 231, "reading on Wednesday"},
    {AXCUT_ORDER_COPY, 0, 0, 0, 1, 0, "limits for Wednesday"},
    {AXCUT_ORDER_LOAD, 0, 0, 0, 2, 0, "limit, rise"},
    {AXCUT_ORDER_COMPUTE, AXCUT_COMPUTE_SUB, 4, 3, 0, 0, "left to the limit"},
    {AXCUT_ORDER_PRINT, 1, 6, 0, 0, 0, "negative: above the limit"},
    {AXCUT_ORDER_COMPUTE, AXCUT_COMPUTE_SUB, 3, 2, 0, 0, "rise since Tuesday"},
    {AXCUT_ORDER_COMPUTE, AXCUT_COMPUTE_SUB, 5, 7, 0, 0, "left to the rise"},
    {AXCUT_ORDER_PRINT, 1, 8, 0, 0, 0, ""},
};

static const char *words_of(uint64_t number)
{
    switch (number) {
    case AXCUT_MISSING:
        return "no such variable in the context";
    case AXCUT_KIND:
        return "variable of the wrong kind";
    case AXCUT_POSITION:
        return "position above the frame's last needed";
    default:
        return "see axcut.h";
    }
}

static void name_order(char name[32], const struct order *order)
{
    static const char *const operations[] = {"add", "sub", "mul", "div", "rem"};
    switch (order->code) {
    case AXCUT_ORDER_PUT:
        snprintf(name, 32, "put %" PRId64, (int64_t)order->value);
        break;
    case AXCUT_ORDER_COMPUTE:
        snprintf(name, 32, "%s %" PRIu32 " %" PRIu32, operations[order->flag], order->a, order->b);
        break;
    case AXCUT_ORDER_COPY:
        snprintf(name, 32, "copy %" PRIu32 ", %" PRIu32, order->a, order->n);
        break;
    case AXCUT_ORDER_DROP:
        snprintf(name, 32, "drop");
        break;
    case AXCUT_ORDER_STORE:
        snprintf(name, 32, "store %" PRIu32 ", tag %" PRIu64, order->n, order->value);
        break;
    case AXCUT_ORDER_LOAD:
        snprintf(name, 32, "load %" PRIu32, order->n);
        break;
    default:
        snprintf(name, 32, "print %" PRIu32, order->a);
        break;
    }
}

/* A channel before its first order. The heap and the context start as zeroes. */
static void start(struct channel *channel, uint64_t edition, uint64_t frame, size_t blocks)
{
    memset(channel, 0, sizeof *channel);
    channel->edition = edition;
    channel->frame = frame;
    channel->blocks = blocks;
    if (axcut_start(edition, frame, true, channel->registers, channel->stack, AXCUT_STACK_WORDS(frame)) != AXCUT_OK) {
        exit(EXIT_FAILURE);
    }
}

static size_t heap_words(const struct channel *channel)
{
    return channel->blocks * AXCUT_BLOCK_WORDS(channel->edition);
}

/* An order's records, and the context after it in place of the one before. `follow` bindings come with it. */
static uint64_t emit(struct channel *channel, const uint8_t *order, const uint8_t *bindings, size_t follow, uint64_t *records)
{
    uint8_t after[sizeof channel->context];
    uint64_t count;
    uint64_t number = axcut_order(channel->edition, channel->frame, channel->context, channel->variables * AXCUT_BINDING_SIZE,
                                  order, AXCUT_ORDER_SIZE, bindings, follow * AXCUT_BINDING_SIZE, &channel->counter,
                                  channel->records, sizeof channel->records, after, sizeof after, records, &count);
    if (number == AXCUT_OK) {
        memcpy(channel->context, after, count * AXCUT_BINDING_SIZE);
        channel->variables = count;
    }
    return number;
}

/* Runs an accepted order's records. A fault cannot happen to these orders: the channel is at its end if one does. */
static void run(struct channel *channel, uint8_t code, uint64_t records)
{
    static const uint64_t words[AXCUT_PRINT_WORDS] = {0};
    uint64_t steps, place;
    uint64_t number = axcut_run(channel->edition, channel->frame, channel->records, records * AXCUT_RECORD_SIZE,
                                channel->registers, channel->stack, AXCUT_STACK_WORDS(channel->frame), channel->heap,
                                heap_words(channel), words, records, &steps, &place);
    if (number != AXCUT_OK) {
        printf("run refused with %" PRIu64 " at record %" PRIu64 "\n", number, place);
        exit(EXIT_FAILURE);
    }
    channel->work[code].records += records;
    channel->work[code].steps += steps;
}

/* What a print order prints, read before its run. */
static void print(const struct channel *channel, uint32_t place)
{
    printf("%" PRId64 "\n", (int64_t)axcut_word(channel->frame, channel->registers, channel->stack, place, true));
}

static void play(struct channel *channel, const struct order *order)
{
    char name[32];
    uint8_t bytes[AXCUT_ORDER_SIZE];
    uint8_t bindings[2 * AXCUT_BINDING_SIZE];
    uint32_t follow = order->code == AXCUT_ORDER_LOAD ? order->n : 0;
    uint64_t before = channel->counter;
    uint64_t number, records;
    uint32_t i;
    for (i = 0; i < follow; i++) {
        axcut_write_binding(bindings + i * AXCUT_BINDING_SIZE, AXCUT_EXT, (uint32_t)channel->variables - 1 + i);
    }
    axcut_write_order(bytes, order->code, order->flag, order->a, order->b, order->n, order->value);
    number = emit(channel, bytes, bindings, follow, &records);
    name_order(name, order);
    if (number != AXCUT_OK) {
        printf("%-14s refused with %" PRIu64 ": %s\n", name, number, words_of(number));
        return;
    }
    printf("%-14s %2" PRIu64 " records, %2" PRIu64 " labels", name, records, channel->counter - before);
    printf(order->why[0] ? "  %s\n" : "%s\n", order->why);
    if (order->code == AXCUT_ORDER_PRINT) {
        print(channel, order->a);
    }
    run(channel, order->code, records);
}

static void show_variables(const struct channel *channel)
{
    uint32_t place;
    for (place = 0; place < channel->variables; place++) {
        uint64_t word = axcut_word(channel->frame, channel->registers, channel->stack, place, true);
        if (channel->context[place * AXCUT_BINDING_SIZE + 2] == AXCUT_LINKED) {
            printf("variable %" PRIu32 ": object, tag %" PRIu64 "\n", place, word);
        } else {
            printf("variable %" PRIu32 ": %" PRId64 "\n", place, (int64_t)word);
        }
    }
}

/* The most blocks that were reachable at once. */
static uint64_t peak(const struct channel *channel)
{
    uint64_t counts[AXCUT_BLOCKS_COUNTS];
    if (axcut_blocks(channel->edition, channel->registers, channel->heap, heap_words(channel), counts) != AXCUT_OK) {
        exit(EXIT_FAILURE);
    }
    return counts[AXCUT_BLOCKS_PEAK];
}

/* The heap that these orders want. */
static void show_heap(const struct channel *channel)
{
    uint64_t reachable = peak(channel);
    printf("heap: %zu blocks, %" PRIu64 " reachable at once, %" PRIu64 " to fit\n", channel->blocks, reachable,
           reachable + AXCUT_SPARE_BLOCKS);
}

/* A number of 32 bits in a record. */
static uint32_t read_field(const uint8_t *at)
{
    return at[0] | (uint32_t)at[1] << 8 | (uint32_t)at[2] << 16 | (uint32_t)at[3] << 24;
}

/* Plays a list of order records, a load's bindings after it, up to its end or the first refusal. */
static void play_list(struct channel *channel, const uint8_t *bytes, size_t length)
{
    size_t accepted = 0, most = 0;
    printf("a list in edition %" PRIu64 ", in a frame of %" PRIu64 " spills\n", channel->edition, channel->frame);
    while (length >= AXCUT_ORDER_SIZE) {
        size_t follow = bytes[1] == AXCUT_ORDER_LOAD ? read_field(bytes + 12) : 0;
        size_t size = AXCUT_ORDER_SIZE + follow * AXCUT_BINDING_SIZE;
        uint64_t number, records;
        if (size > length) {
            break;
        }
        number = emit(channel, bytes, bytes + AXCUT_ORDER_SIZE, follow, &records);
        if (number != AXCUT_OK) {
            printf("order %zu refused with %" PRIu64 ": %s\n", accepted + 1, number, words_of(number));
            break;
        }
        if (bytes[1] == AXCUT_ORDER_PRINT) {
            print(channel, read_field(bytes + 4));
        }
        run(channel, bytes[1], records);
        accepted++;
        most = channel->variables > most ? channel->variables : most;
        bytes += size;
        length -= size;
    }
    printf("%zu orders accepted, %zu variables at most\n", accepted, most);
    show_heap(channel);
}

static void show_row(const char *what, uint64_t first, uint64_t second)
{
    printf("%-16s%11" PRIu64 "%11" PRIu64 "\n", what, first, second);
}

static uint64_t bytes_to_fit(const struct channel *channel)
{
    return (peak(channel) + AXCUT_SPARE_BLOCKS) * AXCUT_BLOCK_WORDS(channel->edition) * sizeof channel->heap[0];
}

/* What the same list came to in each edition. */
static void show_editions(const struct channel *first, const struct channel *second)
{
    const struct work *a = first->work, *b = second->work;
    printf("%-16s%11s%11s\n", "", "edition 1", "edition 2");
    show_row("blocks at once", peak(first), peak(second));
    show_row("bytes to fit", bytes_to_fit(first), bytes_to_fit(second));
    show_row("store, records", a[AXCUT_ORDER_STORE].records, b[AXCUT_ORDER_STORE].records);
    show_row("store, steps", a[AXCUT_ORDER_STORE].steps, b[AXCUT_ORDER_STORE].steps);
    show_row("load, records", a[AXCUT_ORDER_LOAD].records, b[AXCUT_ORDER_LOAD].records);
    show_row("load, steps", a[AXCUT_ORDER_LOAD].steps, b[AXCUT_ORDER_LOAD].steps);
}

/* The bytes of a file, as many as there is room for. */
static size_t read_file(const char *name, uint8_t *bytes, size_t room)
{
    FILE *file = fopen(name, "rb");
    size_t length;
    if (file == NULL) {
        perror(name);
        exit(EXIT_FAILURE);
    }
    length = fread(bytes, 1, room, file);
    fclose(file);
    return length;
}

int main(int argc, char **argv)
{
    static struct channel channel, second;
    static uint8_t list[65536];
    static const uint64_t frames[] = {AXCUT_FRAME, AXCUT_LARGER_FRAME};
    size_t i, length;
    if (argc != 3) {
        fputs("which two lists of orders?\n", stderr);
        return EXIT_FAILURE;
    }
    start(&channel, AXCUT_FIRST_EDITION, AXCUT_FRAME, BLOCKS);
    for (i = 0; i < sizeof orders / sizeof orders[0]; i++) {
        play(&channel, &orders[i]);
    }
    show_variables(&channel);
    show_heap(&channel);
    length = read_file(argv[1], list, sizeof list);
    for (i = 0; i < sizeof frames / sizeof frames[0]; i++) {
        start(&channel, AXCUT_FIRST_EDITION, frames[i], LIST_BLOCKS);
        play_list(&channel, list, length);
    }
    length = read_file(argv[2], list, sizeof list);
    start(&channel, AXCUT_FIRST_EDITION, AXCUT_FRAME, LIST_BLOCKS);
    play_list(&channel, list, length);
    start(&second, AXCUT_SECOND_EDITION, AXCUT_FRAME, LIST_BLOCKS);
    play_list(&second, list, length);
    show_editions(&channel, &second);
    return EXIT_SUCCESS;
}
