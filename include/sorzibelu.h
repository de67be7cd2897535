/*
 * Sheets, live sets and dying nodes: the calls of the proved archive, libc_api.a (`tools/archive` proves them and writes rust/target/archive/libc_api.a).
 *
 *     cc -Iinclude marks.c rust/target/archive/libc_api.a -o marks
 *
 * Answers. Every call takes any bytes and numbers at all, and returns number * 2^32 + value. Number 0 means accepted, and value is the answer;
 * any other number is a refusal of the paper's table, and value is its place. SORZIBELU_NUMBER and SORZIBELU_VALUE take the two apart.
 * A refusal leaves what was lent as it was; on acceptance the answer is written at the front, and nothing else is.
 *
 * Slices. Each is a pointer and a count of elements. A pointer may be NULL where its count is 0. `table` is aligned to 2 bytes, `answers` and lists of
 * triples to 4, all else to 1. What is lent overlaps nothing else that is handed over.
 *
 * Stack. The calls allocate nothing and keep nothing between calls, so that threads may call them at the same time; their arrays are on the stack.
 * A thread of SORZIBELU_STACK_BYTES is enough for every call but sorzibelu_page, which needs SORZIBELU_PAGE_STACK_BYTES:
 *
 *     check 16.1 KiB   flow 19.4 KiB   live 187.7 KiB   live_class 187.8 KiB   rewrite 203.7 KiB   renumber 49.7 KiB   label 16.2 KiB
 *     livelist 203.7 KiB   page 239.8 KiB   in_use, conditional, dying about 1 KiB
 */
#ifndef SORZIBELU_H
#define SORZIBELU_H

#include <stddef.h>
#include <stdint.h>

#ifdef __cplusplus
extern "C" {
#endif

#define SORZIBELU_NUMBER(answer) ((uint32_t)((answer) >> 32))
#define SORZIBELU_VALUE(answer) ((uint32_t)(answer))

/* The refusals. */
enum {
    SORZIBELU_LENGTH = 1,          /* length no multiple of 512, below 1,024 or above 35,840; of a class set: zero or no multiple of 512 */
    SORZIBELU_BLOCK = 2,           /* a block's number, check or bytes 4 to 31; place: the block */
    SORZIBELU_HEADING = 3,         /* the heading, or a block count that does not fit it */
    SORZIBELU_RECORD = 4,          /* a record breaks the table of kinds; place: its offset, here and in 5 to 8 */
    SORZIBELU_LOCAL = 5,           /* a local is not below the count of locals */
    SORZIBELU_REPEATED_LABEL = 6,  /* a Label repeats an earlier one's number */
    SORZIBELU_MISSING_LABEL = 7,   /* a label is named that no Label has */
    SORZIBELU_FALLS_PAST_END = 8,  /* the last instruction can fall past the end */
    SORZIBELU_SHORT_OUTPUT = 9,    /* the lent output is too short */
    SORZIBELU_NUMBERS_RUN_OUT = 10,/* a new label or attribute id above 65,535 */
    SORZIBELU_CODE_TOO_LONG = 11,  /* rewritten code above 1,024 instructions */
    SORZIBELU_NODES = 12,          /* a graph has more than 64 nodes or a live bit past them; place: 0, second graph 1 */
    SORZIBELU_TRIPLE = 13,         /* a list of triples; place: 300 for its length, else the triple; 1,000 more for the second graph */
    SORZIBELU_ASKED_NODE = 14,     /* the asked node is not below the count */
    SORZIBELU_HIDDEN_LOCAL = 15,   /* an IsParent or WriteBack hides a local in its payload from renumber; place: its offset */
    SORZIBELU_FIRST_BLOCK = 16,    /* the number of a class set's first block is not 0 */
    SORZIBELU_TOO_MANY_SHEETS = 17,/* a class set has more than 16 sheets */
    SORZIBELU_FLAGGED_STOP = 18    /* a Stop has an abort action, looked for behind 4 and before 5; place: its offset */
};

/* Sizes. */
#define SORZIBELU_MAX_INSTRUCTIONS 1024
#define SORZIBELU_MAX_LOCALS 64
#define SORZIBELU_MAX_SHEET_BYTES 35840
#define SORZIBELU_FLOW_NUMBERS (6 * SORZIBELU_MAX_INSTRUCTIONS)
#define SORZIBELU_LIVE_BYTES (16 * SORZIBELU_MAX_INSTRUCTIONS)
#define SORZIBELU_MAX_CLASS_SHEETS 16
#define SORZIBELU_NUMBERS_PER_SHEET 3
#define SORZIBELU_MAX_NODES 64
#define SORZIBELU_MAX_TRIPLES 256
#define SORZIBELU_PAGE_BYTES 979630
#define SORZIBELU_LIVELIST_BYTES 39953
#define SORZIBELU_STACK_BYTES 262144
#define SORZIBELU_PAGE_STACK_BYTES 524288

/* Checks 1 to 4, then 18, then 5 to 8 of a sheet, each over the whole of it before the next. Value: 0. */
uint64_t sorzibelu_check(const uint8_t *sheet, size_t sheet_len);

/*
 * The flow table. Value: how many blocks. Six numbers for each at the front of `table`, by offset: lower, upper, key, then up to two successor
 * keys, or 1 at an exit, 0 filling up: the sixth is always 0. Refused 9 where table_len is below six a block; SORZIBELU_FLOW_NUMBERS are always enough.
 */
uint64_t sorzibelu_flow(const uint8_t *sheet, size_t sheet_len, uint16_t *table, size_t table_len);

/*
 * The live sets. Value: how many blocks the work list gave out. For each instruction 8 bytes of before and 8 of after at the front of `sets`,
 * little-endian, bit i for local i. Refused 9 where sets_len is below 16 an instruction; SORZIBELU_LIVE_BYTES are always enough.
 */
uint64_t sorzibelu_live(const uint8_t *sheet, size_t sheet_len, uint8_t *sets, size_t sets_len);

/*
 * The live sets of a class set: sheets laid end to end, each from a block whose number, its bytes 0 and 1, is 0 up to the next such block or the end. Value: how
 * many sheets. Sheet k, from 0, is answered as sorzibelu_live answers it alone with SORZIBELU_LIVE_BYTES lent: its sets at the front of the SORZIBELU_LIVE_BYTES
 * from SORZIBELU_LIVE_BYTES * k on, and in the three numbers from 3 * k on its number and place, both 0 where it is accepted, and how many blocks the work list
 * gave out, 0 where it is refused. A refused sheet stops no other, and leaves its bytes of `sets` as they were. Refused 1 where sheets_len is zero or no multiple of
 * 512, then 16 where the first block's number is not 0, then 17 where there are more than SORZIBELU_MAX_CLASS_SHEETS sheets, then 9 where sets_len is below
 * SORZIBELU_LIVE_BYTES a sheet or answers_len below SORZIBELU_NUMBERS_PER_SHEET a sheet, refused sheets too.
 */
uint64_t sorzibelu_live_class(const uint8_t *sheets, size_t sheets_len, uint8_t *sets, size_t sets_len, uint32_t *answers, size_t answers_len);

/*
 * The rewritten sheet. Value: its length in bytes. The sheet at the front of `out`. Refused 9 where out_len is below SORZIBELU_MAX_SHEET_BYTES,
 * then 10 and 11.
 */
uint64_t sorzibelu_rewrite(const uint8_t *sheet, size_t sheet_len, uint8_t *out, size_t out_len);

/*
 * The sheet with its locals renumbered: user locals keep their numbers, the others are numbered on in the order of their first mention, those that nothing
 * mentions are gone. Value: its length in bytes, which is sheet_len. The sheet at the front of `out`. Refused 15 at the first IsParent or WriteBack, then 9
 * where out_len is below sheet_len; SORZIBELU_MAX_SHEET_BYTES are always enough.
 */
uint64_t sorzibelu_renumber(const uint8_t *sheet, size_t sheet_len, uint8_t *out, size_t out_len);

/*
 * The lookup of a label; it may be any number. Value: 65,536 * way + offset, the offset that of the Label, 0 where the label is undefined. SORZIBELU_WAY and
 * SORZIBELU_OFFSET take the two apart. Refused as sorzibelu_check refuses.
 */
uint64_t sorzibelu_label(const uint8_t *sheet, size_t sheet_len, uint32_t label);

#define SORZIBELU_WAY(value) ((value) >> 16)
#define SORZIBELU_OFFSET(value) ((value) & 65535)

/* The ways. */
enum {
    SORZIBELU_NAMED = 1,           /* a Label has the number, and a Branch, Jump or flagged Call names it, reached or not */
    SORZIBELU_UNNAMED = 2,         /* a Label has the number, and nothing names it */
    SORZIBELU_UNDEFINED = 3        /* no Label has the number; so is every one above 65,535 */
};

/*
 * The page of a sheet, as the program answerbook prints it. Value: its length in bytes. The text at the front of `out`, without a 0 behind it. A refused
 * sheet's page is the line "refused NUMBER PLACE". Refused 9 alone, where out_len is below SORZIBELU_PAGE_BYTES.
 */
uint64_t sorzibelu_page(const uint8_t *sheet, size_t sheet_len, uint8_t *out, size_t out_len);

/*
 * The live sets of a sheet, as the program livelist prints them. Value: the text's length in bytes. The text at the front of `out`, without a 0 behind
 * it. A refused sheet's is the line "refused NUMBER PLACE". Refused 9 alone, where out_len is below SORZIBELU_LIVELIST_BYTES.
 */
uint64_t sorzibelu_livelist(const uint8_t *sheet, size_t sheet_len, uint8_t *out, size_t out_len);

/*
 * A graph is a node count, a mask with bit i set where node i is live, and ascending triples of parent, child and edge; triples_len counts numbers,
 * three a triple.
 */

/* Whether a node or a descendant of it is live. Value: 1 or 0. */
uint64_t sorzibelu_in_use(uint32_t nodes, uint64_t live, const uint32_t *triples, size_t triples_len, uint32_t node);

/* Whether more than one triple leads to a node or to a descendant of it. Value: 1 or 0. */
uint64_t sorzibelu_conditional(uint32_t nodes, uint64_t live, const uint32_t *triples, size_t triples_len, uint32_t node);

/*
 * The nodes that die from this graph to the next. Value: how many. One byte for each at the front of `out`, in the order of the walk. Refused 9 where
 * out_len is below `nodes`; SORZIBELU_MAX_NODES are always enough.
 */
uint64_t sorzibelu_dying(uint32_t nodes, uint64_t live, const uint32_t *triples, size_t triples_len, uint32_t next_nodes, uint64_t next_live,
                         const uint32_t *next_triples, size_t next_triples_len, uint8_t *out, size_t out_len);

#ifdef __cplusplus
}
#endif

#endif
