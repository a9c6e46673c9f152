/*
 * AxCut's x86-64 back end, proved: the functions of libport.a (`tools/build port`), for C99 and C++.
 *
 * Numbers. Every function answers 0 (AXCUT_OK) where its input is accepted, else the number of the cause. AXCUT_EDITION is checked
 * before every other cause, then what is bad in a context (15 to 17), then the others in rising order, so that of these the lowest
 * number that holds is answered. A refusal leaves every buffer and the label counter as they were; only the words that tell about
 * it are set (`place`, `value`, `count`, `steps`). The exceptions are AXCUT_FAULT and AXCUT_LIMIT of axcut_run, which leave the
 * state that the steps done reached.
 *
 * Contexts. Where a function reads a context, its length is checked first (AXCUT_CONTEXT_LENGTH, place 0); then the first bad
 * binding is told with its place from 1, for its mark (AXCUT_BINDING_MARK) before its kind and zero byte (AXCUT_BINDING_KIND).
 * Where bindings come after a context, as an order's do and the variables to load, the context comes wholly before them, and
 * their places count on: the second binding after a context of 12 is place 14.
 *
 * Editions. A routine or a channel has blocks of 3 fields (edition 1) or of 7 (edition 2), throughout. What depends on it takes
 * the edition's number first; another number is AXCUT_EDITION, whatever is asked.
 *
 * Frames. A routine or a channel has a frame of 256 or 512 spills, throughout. What depends on it takes the frame's number first,
 * or after the edition's; another number is AXCUT_OPERAND.
 *
 * Memory. The caller owns every buffer and lends it for the call: nothing is allocated, kept or freed, and there is no global
 * state, so calls on different buffers may go on at the same time. Buffers of one call must not overlap. No pointer may be null,
 * also where its length is 0. An output receives its records from its start, and bytes past them stay.
 *
 * Bytes. Fields of records are little-endian on every machine; words of registers, stack and heap are the machine's uint64_t.
 */
#ifndef AXCUT_H
#define AXCUT_H

#include <stdbool.h>
#include <stddef.h>
#include <stdint.h>

#ifdef __cplusplus
extern "C" {
#endif

/* Causes: what a function answers. In brackets: what goes with it. */
enum {
    AXCUT_OK = 0,
    AXCUT_MALFORMED = 2,  /* malformed instruction or order, field not zero, too many; a heap not of 2 to 1,048,576 whole blocks
                             [record place from 1; 0 for the heap] */
    AXCUT_OPERAND = 3,    /* register not 4..15, spill not 1 to the frame's last (255, 511), field not 0 to the edition's last
                             (2, 6), label that no record may hold; no such frame, operation, query or kind; a stack that is
                             not the frame's */
    AXCUT_MISSING = 4,    /* id or place not in the context; more to store than there are variables */
    AXCUT_KIND = 5,       /* a variable of the wrong kind for the order */
    AXCUT_ARGUMENTS = 6,  /* more than 5 arguments */
    AXCUT_COUNT = 7,      /* share count or a copy's n above 2^31-1 */
    AXCUT_POSITION = 8,   /* position above the frame's last (266, 522) needed */
    AXCUT_LABELS = 9,     /* counter plus labels needed above 2^31-1 */
    AXCUT_ROOM = 10,      /* output too short; of two, the first that is [bytes needed] */
    AXCUT_FAULT = 11,     /* machine fault within the limit [steps done before it, record place] */
    AXCUT_LIMIT = 12,     /* step limit reached before the end [the limit] */
    AXCUT_CONTEXT_LENGTH = 15, /* a context or bindings: not whole records, or more than 4,096 [place 0] */
    AXCUT_BINDING_MARK = 16,   /* the first bad binding: its mark is not A7 01 [its place] */
    AXCUT_BINDING_KIND = 17,   /* the first bad binding: its kind is neither 0 nor 1, or its zero byte is not 0 [its place] */
    AXCUT_EDITION = 23    /* an edition other than 1 or 2; checked before every other cause */
};

/* Sizes in bytes, and how many there may be. */
enum {
    AXCUT_BINDING_SIZE = 8,
    AXCUT_ORDER_SIZE = 24,
    AXCUT_RECORD_SIZE = 24,
    AXCUT_MOST_BINDINGS = 4096,        /* in a context */
    AXCUT_MOST_RECORDS = 65536,        /* in a list */
    AXCUT_MOST_BODY_RECORDS = 65506,   /* in a routine's body */
    AXCUT_MOST_LISTED = 2730,          /* records that axcut_list takes */
    AXCUT_MOST_ARGUMENTS = 5,
    AXCUT_ROOM_FOR_TEXT = 162706       /* enough for every listing (proved: listings_fit) */
};

/* Editions, by number. */
enum {
    AXCUT_FIRST_EDITION = 1,
    AXCUT_SECOND_EDITION = 2
};

/* What a block has. */
#define AXCUT_BLOCK_FIELDS(edition) ((edition) == AXCUT_FIRST_EDITION ? 3 : 7)
#define AXCUT_BLOCK_WORDS(edition) ((edition) == AXCUT_FIRST_EDITION ? 8 : 16)

/* Frames, by the number of their spills. */
enum {
    AXCUT_FRAME = 256,
    AXCUT_LARGER_FRAME = 512
};

/*
 * What a frame wants; in brackets for each of the two. Proved (orders_fit, rooms_by_shape): orders from the empty context reach no
 * more variables, and the two rooms are enough for every order of a channel. An order's records need the most in edition 1.
 */
#define AXCUT_STACK_WORDS(frame) ((frame) + 64)          /* of the machine's stack [320, 576] */
#define AXCUT_MOST_VARIABLES(frame) (((frame) + 11) / 2) /* [133, 261] */
#define AXCUT_ROOM_FOR_RECORDS(edition, frame) /* bytes for an order's records [102624, 202464; in edition 2 67872, 135648] */ \
    ((edition) == AXCUT_FIRST_EDITION ? ((frame) == AXCUT_FRAME ? 102624 : 202464) : ((frame) == AXCUT_FRAME ? 67872 : 135648))
#define AXCUT_ROOM_FOR_CONTEXT(frame) (AXCUT_BINDING_SIZE * AXCUT_MOST_VARIABLES(frame)) /* for the context after it [1064, 2088] */

/*
 * Bytes that are enough for the records of any operation, print or routine (proved: operations_fit, routines_fit); for those of a
 * store or a load of n variables by axcut_room_for_store and axcut_room_for_load below. AXCUT_ROOM_FOR_RECORDS is enough for all
 * of these but a routine. With such a room, records are written in one pass (orders_at_once). With less they are written too
 * where they fit, after a first pass that tells their size.
 */
enum {
    AXCUT_ROOM_FOR_OPERATION = 216, /* axcut_operation: 9 records */
    AXCUT_ROOM_FOR_ERASE = 288,     /* AXCUT_MEMORY_ERASE_BLOCK: 12 */
    AXCUT_ROOM_FOR_SHARE = 120,     /* AXCUT_MEMORY_SHARE_BLOCK_N: 5 */
    AXCUT_ROOM_FOR_PRINT = 504,     /* axcut_print: 21 */
    AXCUT_ROOM_FOR_ROUTINE = 1572864 /* axcut_routine: AXCUT_MOST_RECORDS */
};

/* The machine: registers, stack, heap and the words that print calls leave. */
enum {
    AXCUT_REGISTERS = 16,
    AXCUT_FEWEST_BLOCKS = 2,
    AXCUT_MOST_BLOCKS = 1048576,
    AXCUT_PRINT_WORDS = 9,
    AXCUT_HEAP_ADDRESS = 65536 /* of the heap's first word */
};
#define AXCUT_STACK_END (UINT64_C(1) << 40) /* the address past the stack's last word */

/* Kinds of a binding. */
enum {
    AXCUT_LINKED = 0, /* Fst points to an object or is 0, Snd is its tag */
    AXCUT_EXT = 1     /* Snd is an integer, Fst is not used */
};

/*
 * Operands. A word names a register (the register's number) or a spill p (16 + p); a caller may give registers 4..15 and spills
 * 1 to the frame's last. Variable i has positions 2i (Fst) and 2i + 1 (Snd); axcut_query gives a position's operand.
 */
#define AXCUT_SPILL(p) (UINT64_C(16) + (p))
enum {
    AXCUT_STACK = 0, /* rsp */
    AXCUT_TEMP = 1,  /* rcx */
    AXCUT_HEAP = 2,  /* rbx: the head of the linear free list */
    AXCUT_FREE = 3,  /* rbp: the head of the lazy free list */
    AXCUT_RETURN1 = 4, /* rax */
    AXCUT_RETURN2 = 5  /* rdx; then 6 rsi, 7 rdi, 8 r8 to 15 r15 */
};

/* Labels: fresh ones are 1 to AXCUT_LAST_LABEL; names are above. No record may hold 0 or 2^31 plus 4..15. */
#define AXCUT_LAST_LABEL UINT32_C(0x7FFFFFFF)
#define AXCUT_ASM_MAIN UINT32_C(0x80000000)
#define AXCUT_CLEANUP UINT32_C(0x80000001)
#define AXCUT_PRINT_I64 UINT32_C(0x80000002)
#define AXCUT_PRINTLN_I64 UINT32_C(0x80000003)
#define AXCUT_FIRST_NAME UINT32_C(0x80000010) /* the first that is the caller's own */

/* Codes of instruction records. */
enum {
    AXCUT_CODE_ADD = 1,
    AXCUT_CODE_ADDRM = 2,
    AXCUT_CODE_ADDMR = 3,
    AXCUT_CODE_ADDI = 4,
    AXCUT_CODE_ADDIM = 5,
    AXCUT_CODE_SUB = 6,
    AXCUT_CODE_SUBRM = 7,
    AXCUT_CODE_SUBMR = 8,
    AXCUT_CODE_SUBI = 9,
    AXCUT_CODE_IMUL = 10,
    AXCUT_CODE_IMULRM = 11,
    AXCUT_CODE_IMULMR = 12,
    AXCUT_CODE_IDIV = 13,
    AXCUT_CODE_IDIVM = 14,
    AXCUT_CODE_CQO = 15,
    AXCUT_CODE_JMP = 16,
    AXCUT_CODE_JMPL = 17,
    AXCUT_CODE_JMPLN = 18,
    AXCUT_CODE_LEAL = 19,
    AXCUT_CODE_MOV = 20,
    AXCUT_CODE_MOVS = 21,
    AXCUT_CODE_MOVL = 22,
    AXCUT_CODE_MOVI = 23,
    AXCUT_CODE_MOVIM = 24,
    AXCUT_CODE_CMP = 25,
    AXCUT_CODE_CMPRM = 26,
    AXCUT_CODE_CMPMR = 27,
    AXCUT_CODE_CMPI = 28,
    AXCUT_CODE_CMPIM = 29,
    AXCUT_CODE_JEL = 30,
    AXCUT_CODE_JNEL = 31,
    AXCUT_CODE_JLL = 32,
    AXCUT_CODE_JLEL = 33,
    AXCUT_CODE_JGL = 34,
    AXCUT_CODE_JGEL = 35,
    AXCUT_CODE_PUSH = 36,
    AXCUT_CODE_POP = 37,
    AXCUT_CODE_CALL = 38,
    AXCUT_CODE_RET = 39,
    AXCUT_CODE_LAB = 40,
    AXCUT_CODE_NOEXECSTACK = 41,
    AXCUT_CODE_TEXT = 42,
    AXCUT_CODE_GLOBAL = 43,
    AXCUT_CODE_EXTERN = 44
};

/* Checks of axcut_check. */
enum {
    AXCUT_CHECK_CONTEXT = 1,
    AXCUT_CHECK_RECORDS = 2,
    AXCUT_CHECK_ORDER = 3
};

/*
 * Checks bytes: a context, a list of at most 65,536 instruction records, or an order (one record). A bad context is
 * AXCUT_CONTEXT_LENGTH, AXCUT_BINDING_MARK or AXCUT_BINDING_KIND, as above; bad records are AXCUT_MALFORMED; a kind that is none of
 * the three is AXCUT_OPERAND. `place` is the place of the first bad binding or of the first bad or surplus record, from 1; 0 for a
 * bad length, for another kind, and where the bytes are accepted.
 */
uint64_t axcut_check(uint64_t kind, const uint8_t *bytes, size_t length, uint64_t *place);

/*
 * Lists at most 2,730 instruction records as text, without a zero byte at the end: `N records`, then a line for each with place,
 * code, a, b, label, offset and value. `value` is the number of bytes written, the place of a bad record (AXCUT_MALFORMED) or
 * the bytes needed (AXCUT_ROOM).
 */
uint64_t axcut_list(const uint8_t *records, size_t length, uint8_t *text, size_t room, uint64_t *value);

/*
 * Sets the machine's state: with `fresh` the one that a list of orders starts from, else the one with which a routine is entered.
 * AXCUT_OPERAND where there is no such frame or `stack_words` is not AXCUT_STACK_WORDS(frame). The heap beside it is the
 * caller's and starts as zeroes.
 */
uint64_t axcut_start(uint64_t edition, uint64_t frame, bool fresh, uint64_t *registers /* 16 */, uint64_t *stack,
                     size_t stack_words);

/*
 * Runs records on a lent state and heap of `heap_words` words, for at most `limit` steps. `words` are what a print call leaves in
 * registers 1 and 4..11. `steps` are those done, `place` the place of the bad or faulting record:
 *   AXCUT_OK          the run ended after `steps`; place 0
 *   AXCUT_EDITION     nothing was run; steps 0, place 0
 *   AXCUT_MALFORMED   nothing was run; steps 0, `place` (0: the heap is not 2 to 1,048,576 whole blocks of the edition's words)
 *   AXCUT_OPERAND     nothing was run: frame or `stack_words` as for axcut_start; steps 0, place 0
 *   AXCUT_FAULT       state and heap are as they were before record `place`, after `steps`
 *   AXCUT_LIMIT       state and heap are as they are after `limit` steps; steps is the limit, place 0
 */
uint64_t axcut_run(uint64_t edition, uint64_t frame, const uint8_t *records, size_t length, uint64_t *registers /* 16 */,
                   uint64_t *stack, size_t stack_words, uint64_t *heap, size_t heap_words, const uint64_t *words /* 9 */,
                   uint64_t limit, uint64_t *steps, uint64_t *place);

/* Counts of axcut_blocks, by their place. */
enum {
    AXCUT_BLOCKS_LINEAR = 0,    /* on HEAP's list */
    AXCUT_BLOCKS_LAZY = 1,      /* lazily freed, on FREE's list */
    AXCUT_BLOCKS_HELD = 2,
    AXCUT_BLOCKS_UNTOUCHED = 3, /* never used: the frontier and those after it */
    AXCUT_BLOCKS_PEAK = 4,      /* the most that were reachable from the variables after any one order so far */
    AXCUT_BLOCKS_COUNTS = 5,
    AXCUT_SPARE_BLOCKS = 2      /* with so many more than the peak a heap is enough for the same orders */
};

/*
 * Counts the blocks of a heap of `heap_words` words between two orders of a channel whose runs all ended. Other words give
 * numbers without that meaning. Nothing but AXCUT_EDITION is refused.
 */
uint64_t axcut_blocks(uint64_t edition, const uint64_t *registers /* 16 */, const uint64_t *heap, size_t heap_words,
                      uint64_t *counts /* 5 */);

/* Operations of axcut_operation, and which of its arguments each takes: x first, y second, z third, l label, i immediate. */
enum {
    AXCUT_OPERATION_LABEL = 1,                           /* l */
    AXCUT_OPERATION_JUMP = 2,                            /* x */
    AXCUT_OPERATION_JUMP_LABEL = 3,                      /* l */
    AXCUT_OPERATION_JUMP_LABEL_FIXED = 4,                /* l */
    AXCUT_OPERATION_JUMP_LABEL_IF_EQUAL = 5,             /* x y l; so to 10 */
    AXCUT_OPERATION_JUMP_LABEL_IF_NOT_EQUAL = 6,
    AXCUT_OPERATION_JUMP_LABEL_IF_LESS = 7,
    AXCUT_OPERATION_JUMP_LABEL_IF_LESS_OR_EQUAL = 8,
    AXCUT_OPERATION_JUMP_LABEL_IF_GREATER = 9,
    AXCUT_OPERATION_JUMP_LABEL_IF_GREATER_OR_EQUAL = 10,
    AXCUT_OPERATION_JUMP_LABEL_IF_ZERO = 11,             /* x l; so to 16 */
    AXCUT_OPERATION_JUMP_LABEL_IF_NOT_ZERO = 12,
    AXCUT_OPERATION_JUMP_LABEL_IF_LESS_ZERO = 13,
    AXCUT_OPERATION_JUMP_LABEL_IF_LESS_OR_EQUAL_ZERO = 14,
    AXCUT_OPERATION_JUMP_LABEL_IF_GREATER_ZERO = 15,
    AXCUT_OPERATION_JUMP_LABEL_IF_GREATER_OR_EQUAL_ZERO = 16,
    AXCUT_OPERATION_LOAD_IMMEDIATE = 17,                 /* x i */
    AXCUT_OPERATION_LOAD_LABEL = 18,                     /* x l */
    AXCUT_OPERATION_ADD_AND_JUMP = 19,                   /* x i */
    AXCUT_OPERATION_ADD = 20,                            /* x the target, y and z the sources; so to 24 */
    AXCUT_OPERATION_SUB = 21,
    AXCUT_OPERATION_MUL = 22,
    AXCUT_OPERATION_DIV = 23,
    AXCUT_OPERATION_REM = 24,
    AXCUT_OPERATION_MOV = 25,                            /* x the target, y */
    AXCUT_OPERATION_COMPARE = 26,                        /* x y */
    AXCUT_OPERATION_COMPARE_IMMEDIATE = 27               /* x i */
};

/*
 * Writes the records of an operation that draws no label. Arguments that it does not take are not read; `immediate` is a
 * two's complement. `value` is the number of records written, or the bytes needed (AXCUT_ROOM), else 0.
 */
uint64_t axcut_operation(uint64_t frame, uint64_t operation, uint64_t first, uint64_t second, uint64_t third, uint32_t label,
                         uint64_t immediate, uint8_t *out, size_t room, uint64_t *value);

/* Operations of axcut_memory, and what each takes. */
enum {
    AXCUT_MEMORY_ERASE_BLOCK = 1,   /* operand */
    AXCUT_MEMORY_SHARE_BLOCK_N = 2, /* operand, n times */
    AXCUT_MEMORY_STORE = 3,         /* the last n variables of context */
    AXCUT_MEMORY_LOAD = 4           /* the variables loaded, after those of context */
};

/*
 * Writes the records of an operation on blocks; those of erase_block and share_block_n are the same in both editions. `counter` is
 * the last label drawn before; where the answer is 0 it becomes the last one drawn by this operation. `value` is as for
 * axcut_operation, or the place of the first bad binding of the context or, counted on, of the variables loaded.
 */
uint64_t axcut_memory(uint64_t edition, uint64_t frame, uint64_t operation, uint64_t operand, uint64_t n, const uint8_t *context,
                      size_t length, const uint8_t *loaded, size_t loaded_length, uint64_t *counter, uint8_t *out, size_t room,
                      uint64_t *value);

/*
 * Writes the records of print_i64 of an operand, which keep the variables of the context. `value` is as for axcut_operation, or the
 * place of the context's first bad binding.
 */
uint64_t axcut_print(uint64_t frame, bool newline, uint64_t source, const uint8_t *context, size_t length, uint8_t *out,
                     size_t room, uint64_t *value);

/*
 * Writes a routine: setup, the body's records, cleanup. `value` is the number of records written, the place of the body's first
 * bad or surplus record (AXCUT_MALFORMED) or the bytes needed (AXCUT_ROOM), else 0.
 */
uint64_t axcut_routine(uint64_t edition, uint64_t frame, const uint8_t *body, size_t length, size_t arguments, uint8_t *out,
                       size_t room, uint64_t *value);

/* Queries, what each takes, and what its value is. `second` asks for Snd, else Fst. */
enum {
    AXCUT_QUERY_POSITION = 1,           /* at, a position: its operand */
    AXCUT_QUERY_FRESH_TEMPORARY = 2,    /* second, context: the operand of the next variable's half */
    AXCUT_QUERY_VARIABLE_TEMPORARY = 3, /* second, id, context: the operand of that variable's half */
    AXCUT_QUERY_STACK_OFFSET = 4,       /* at, a spill's word: its offset from STACK */
    AXCUT_QUERY_FIELD_OFFSET = 5        /* second, at, a field 0 to the edition's last (2, 6): its offset in a block */
};

/*
 * Where a variable or field stands: a field by the edition, all else by the frame, and a field's offset does not ask whether there
 * is such a frame. What else a query does not take is not read. On a refusal `value` is the place of the context's first bad
 * binding (AXCUT_BINDING_MARK, AXCUT_BINDING_KIND), else 0.
 */
uint64_t axcut_query(uint64_t edition, uint64_t frame, uint64_t query, bool second, uint64_t at, uint32_t id,
                     const uint8_t *context, size_t length, uint64_t *value);

/* Codes of orders, and the fields each uses; the others are zero. */
enum {
    AXCUT_ORDER_PUT = 1,     /* value */
    AXCUT_ORDER_COMPUTE = 2, /* a, b, flag below */
    AXCUT_ORDER_COPY = 3,    /* a, n times */
    AXCUT_ORDER_DROP = 4,    /* the last variable */
    AXCUT_ORDER_STORE = 5,   /* the last n variables become one, value is its tag */
    AXCUT_ORDER_LOAD = 6,    /* the last variable becomes the n bindings that follow */
    AXCUT_ORDER_PRINT = 7    /* a; flag 1 adds a newline */
};

/* Flags of AXCUT_ORDER_COMPUTE. */
enum {
    AXCUT_COMPUTE_ADD = 0,
    AXCUT_COMPUTE_SUB = 1,
    AXCUT_COMPUTE_MUL = 2,
    AXCUT_COMPUTE_DIV = 3,
    AXCUT_COMPUTE_REM = 4
};

/*
 * Answers one order on a context: its records into `records_out`, the context after it into `context_out`. `bindings` are the n
 * that a load makes of its object, else none; another number of them is AXCUT_MALFORMED, place 1. `counter` is the last label
 * drawn before; where the answer is 0 it becomes the last one drawn by this order. Accepted, `value` is the number of records
 * and `count` the number of bindings written; else `value` is the place (AXCUT_MALFORMED; AXCUT_BINDING_MARK and
 * AXCUT_BINDING_KIND, where a place above the number of the context's variables is one of `bindings`), the bytes needed
 * (AXCUT_ROOM) or 0, and `count` is 0.
 *
 * The records are then run by axcut_run with `value` as the limit, on the state and the heap that the last run left; the next
 * order goes in with the context answered here.
 */
uint64_t axcut_order(uint64_t edition, uint64_t frame, const uint8_t *context, size_t length, const uint8_t *order,
                     size_t order_length, const uint8_t *bindings, size_t bindings_length, uint64_t *counter,
                     uint8_t *records_out, size_t records_room, uint8_t *context_out, size_t context_room, uint64_t *value,
                     uint64_t *count);

/* Blocks before the last one of an object of n variables: the last holds as many as it has fields, each other one fewer. */
static inline size_t axcut_other_blocks(uint64_t edition, size_t n)
{
    size_t fields = AXCUT_BLOCK_FIELDS(edition);
    return n <= fields ? 0 : (n - fields + fields - 2) / (fields - 1);
}

/* Bytes for the records of a store of n variables. */
static inline size_t axcut_room_for_store(uint64_t edition, size_t n)
{
    size_t fields = AXCUT_BLOCK_FIELDS(edition);
    return AXCUT_RECORD_SIZE * (16 * fields + 19 + (16 * fields + 17) * axcut_other_blocks(edition, n));
}

/* Bytes for the records of a load of n variables. */
static inline size_t axcut_room_for_load(uint64_t edition, size_t n)
{
    size_t fields = AXCUT_BLOCK_FIELDS(edition);
    return AXCUT_RECORD_SIZE * (12 * fields + 15 + (12 * fields - 4) * axcut_other_blocks(edition, n));
}

/* Writes `size` bytes of a number, the lowest first. */
static inline void axcut_write_number(uint8_t *at, uint64_t number, size_t size)
{
    size_t i;
    for (i = 0; i < size; i++) {
        at[i] = (uint8_t)(number >> (8 * i));
    }
}

/* Writes a binding record of 8 bytes. */
static inline void axcut_write_binding(uint8_t *at, uint8_t kind, uint32_t id)
{
    at[0] = 0xA7;
    at[1] = 0x01;
    at[2] = kind;
    at[3] = 0;
    axcut_write_number(at + 4, id, 4);
}

/* Writes an order record of 24 bytes; fields that the order does not use are given as 0. */
static inline void axcut_write_order(uint8_t *at, uint8_t code, uint8_t flag, uint32_t a, uint32_t b, uint32_t n, uint64_t value)
{
    at[0] = 0xA8;
    at[1] = code;
    at[2] = flag;
    at[3] = 0;
    axcut_write_number(at + 4, a, 4);
    axcut_write_number(at + 8, b, 4);
    axcut_write_number(at + 12, n, 4);
    axcut_write_number(at + 16, value, 8);
}

/*
 * The word that a variable holds between two runs: its Snd (an Ext's integer, a linked variable's tag) or its Fst. The stack has
 * AXCUT_STACK_WORDS(frame) words. 0 where the place has no position in the frame, or STACK is not in the stack. A print order's
 * integer is read so before its run. It is the same in both editions. Between the orders of a sound channel STACK is where the
 * setup left it (proved: heap_stays_sound).
 */
static inline uint64_t axcut_word(uint64_t frame, const uint64_t *registers, const uint64_t *stack, uint32_t place, bool second)
{
    const uint8_t none = 0;
    const uint64_t words = AXCUT_STACK_WORDS(frame);
    const uint64_t position = 2 * (uint64_t)place + (second ? 1 : 0);
    uint64_t operand, offset, index;
    if (axcut_query(AXCUT_FIRST_EDITION, frame, AXCUT_QUERY_POSITION, false, position, 0, &none, 0, &operand) != AXCUT_OK) {
        return 0;
    }
    if (operand < AXCUT_REGISTERS) {
        return registers[operand];
    }
    if (axcut_query(AXCUT_FIRST_EDITION, frame, AXCUT_QUERY_STACK_OFFSET, false, operand, 0, &none, 0, &offset) != AXCUT_OK) {
        return 0;
    }
    index = (registers[AXCUT_STACK] + offset - (AXCUT_STACK_END - 8 * words)) / 8;
    return index < words ? stack[index] : 0;
}

#ifdef __cplusplus
}
#endif

#endif
