/* lasso.h: can this block wait for ever?
 *
 * Five jobs over one table in memory: open, quote, search, translate, step. Build the library with `scripts/build library` and link
 * target/staticlib/liblasso.a. It is code for 64-bit x86 Linux (level x86-64-v2); it calls nothing but memset, allocates nothing,
 * keeps nothing between calls and prints nothing.
 *
 * The caller owns every buffer. A pointer may be null only where its length is 0. The table is never changed. Buffers must not overlap. No function
 * reads or writes outside the length that it is given; the bytes of the table may be anything.
 *
 * Threads: all functions may be called from many threads at once. Threads may share a table while nobody writes to it. Workspace, report, output and
 * answer must be each thread's own.
 *
 * Each function returns 0, or the number of the refusal: see the list below. It always fills all words of `answer`. answer[LASSO_PLACE] is the
 * refusal's place, or 0. The other words are 0 where the job is refused. A refused job changes no other buffer.
 *
 *
 * The table file
 *
 * Numbers have 32 bits, the lowest byte first, except for the marks, which are bytes. There is no padding. n is the number of states, e the number of
 * edges, m the number of fairness sets.
 *
 *     from byte           how many    what
 *     0                   1           kind: 1
 *     4                   1           n, from 1 to 64
 *     8                   1           e, from 1 to 1,024
 *     12                  1           m, from 0 to 4
 *     16                  1           offset of the row starts: 28
 *     20                  1           offset of the targets: 28 + 4(n+1)
 *     24                  1           offset of the marks: 28 + 4(n+1) + 4e
 *     28                  n+1         row starts: the first is 0, none is below the one before, the last is e
 *     28 + 4(n+1)         e           targets: each below n
 *     28 + 4(n+1) + 4e    n bytes     marks: one byte a state
 *
 * The length is exactly 32 + 5n + 4e bytes. States are numbered from 0. The targets of state s are the states to which it has an edge; they stand
 * from row start s up to, not including, row start s+1. They rise strictly within the row, and no row is empty.
 *
 * In a mark, LASSO_MARK_START is set for a start state, LASSO_MARK_GOAL for a state with the goal, LASSO_MARK_SET_0 to LASSO_MARK_SET_3 for a member
 * of that fairness set. All other bits are clear, and so are those of sets not below m. A table may have no start state, no state with the goal, and
 * sets without members.
 *
 * An example with the edges 0 to 0, 0 to 1 and 1 to 1, start state 0, and state 1 in set 0, in 54 bytes:
 *
 *     header:     1 2 3 1 28 40 52
 *     row starts: 0 2 3
 *     targets:    0 1 1
 *     marks:      1 4
 *
 * The translated table, which lasso_translate writes, has the same layout with kind 2, S for n, E for e, and 0 for m. It has a state for each record
 * s, t, live, v (see lasso_step), with the number ((s(n+1) + t)*2 + live)*2^m + v. S = n(n+1)*2^(m+1), E = e(n+2)*2^(m+1), and the length is
 * 32 + 5S + 4E bytes. In its marks LASSO_MARK_START is set where s is a start state, t is n, and live and v are 0; LASSO_MARK_GOAL where s has the
 * goal; LASSO_MARK_BAD where s is t, live is 0 and v has the bits of all m sets. The rest is clear. The edges of a state are the steps of its record
 * along each edge of s, with the wish on and off. lasso_open does not accept this table.
 */
#ifndef LASSO_H
#define LASSO_H

#include <stdbool.h>
#include <stddef.h>
#include <stdint.h>

#ifdef __cplusplus
extern "C" {
#endif

/* The version of this header and of the library that it belongs to. The archive itself does not tell its version. */
#define LASSO_VERSION "4.1.0"
#define LASSO_VERSION_MAJOR 4
#define LASSO_VERSION_MINOR 1
#define LASSO_VERSION_PATCH 0

/* The kind of a table file. */
enum {
    LASSO_KIND_CLIENT = 1,    /* a client's table, the only kind that is opened */
    LASSO_KIND_TRANSLATED = 2 /* what lasso_translate writes */
};

/* The bits of a mark. */
enum {
    LASSO_MARK_START = 1,
    LASSO_MARK_GOAL = 2,
    LASSO_MARK_SET_0 = 4,
    LASSO_MARK_SET_1 = 8,
    LASSO_MARK_SET_2 = 16,
    LASSO_MARK_SET_3 = 32,
    LASSO_MARK_BAD = 64 /* in a translated table only */
};

/* The most that there can be. Buffers of these lengths serve every table. A buffer into which a file is read wants one byte more than the longest
 * table has, so that a longer file is refused and not cut to a table. */
enum {
    LASSO_MOST_STATES = 64,              /* n */
    LASSO_MOST_EDGES = 1024,             /* e */
    LASSO_MOST_SETS = 4,                 /* m */
    LASSO_MOST_TABLE_BYTES = 4448,       /* 32 + 5n + 4e */
    LASSO_MOST_SLOTS = 133120,           /* S */
    LASSO_MOST_SLOT_EDGES = 2162688,     /* E */
    LASSO_MOST_WORKSPACE_WORDS = 266240, /* 2S, for lasso_search */
    LASSO_MOST_REPORT_WORDS = 133120,    /* S, for lasso_search */
    LASSO_MOST_OUTPUT_BYTES = 9316384    /* 32 + 5S + 4E, for lasso_translate */
};

/* The boards by their number in the quote. A table takes the first that has room for its slots and its edges, or none. */
enum { LASSO_BOARDS = 8, LASSO_NO_BOARD = 8 };
struct lasso_board {
    char letter;
    size_t slots, edges;
};
static const struct lasso_board lasso_boards[LASSO_BOARDS] = {
    {'A', 64, 256},
    {'B', 256, 1024},
    {'C', 1024, 4096},
    {'D', 4096, 16384},
    {'E', 8192, 65536},
    {'F', 16384, 131072},
    {'G', 32768, 262144},
    {'H', 65536, 1048576},
};

/* The numbers that are returned. Where more than one line applies, the first in the list's order is given. That is the order here, not that of the
 * numbers: 14 and 15 stand straight after 3. The place is 0 where none is named. */
enum {
    LASSO_DONE = 0,
    LASSO_TOO_SHORT = 1,       /* fewer than 28 bytes */
    LASSO_WRONG_KIND = 2,      /* the kind is not 1 */
    LASSO_WRONG_STATES = 3,    /* n, the number of states, is outside 1 to 64 */
    LASSO_WRONG_EDGES = 14,    /* e, the number of edges, is outside 1 to 1,024 */
    LASSO_WRONG_SETS = 15,     /* m, the number of fairness sets, is above 4 */
    LASSO_WRONG_LAYOUT = 4,    /* an offset or the length is not the computed one */
    LASSO_WRONG_ROW_START = 5, /* place: the first wrong row start, 0 to n */
    LASSO_WRONG_TARGET = 6,    /* place: the first wrong target, 0 to e-1 */
    LASSO_EMPTY_ROW = 7,       /* place: the first state with an empty row */
    LASSO_WRONG_MARK = 8,      /* place: the first state with a mark bit that must be clear */
    LASSO_SHORT_WORKSPACE = 9, /* search: fewer than 2S workspace words */
    LASSO_SHORT_REPORT = 10,   /* search: fewer than S report words */
    LASSO_SHORT_OUTPUT = 11,   /* translate: fewer bytes than the translated table has */
    LASSO_WRONG_RECORD = 12,   /* step: s or next not below n, t above n, or v not below 2^m */
    LASSO_NO_EDGE = 13         /* step: no edge from s to next */
};

/* A refusal in words; s' is the argument `next`. The text is constant, and never null. */
static inline const char *lasso_words(uint32_t number) {
    switch (number) {
    case LASSO_TOO_SHORT: return "fewer than 28 bytes";
    case LASSO_WRONG_KIND: return "kind is not 1";
    case LASSO_WRONG_STATES: return "n, the number of states, is outside 1 to 64";
    case LASSO_WRONG_EDGES: return "e, the number of edges, is outside 1 to 1,024";
    case LASSO_WRONG_SETS: return "m, the number of fairness sets, is above 4";
    case LASSO_WRONG_LAYOUT: return "an offset or the length is not the computed one";
    case LASSO_WRONG_ROW_START: return "a row start is wrong: first not 0, below the one before, above e, or last not e";
    case LASSO_WRONG_TARGET: return "a target is n or more, or not above the one before it in its row";
    case LASSO_EMPTY_ROW: return "an empty row";
    case LASSO_WRONG_MARK: return "a mark bit that must be clear is set";
    case LASSO_SHORT_WORKSPACE: return "search: fewer than 2S workspace words";
    case LASSO_SHORT_REPORT: return "search: fewer than S report words";
    case LASSO_SHORT_OUTPUT: return "translate: output shorter than 32 + 5S + 4E bytes";
    case LASSO_WRONG_RECORD: return "step: s or s' not below n, t above n, or v not below 2^m";
    case LASSO_NO_EDGE: return "step: s to s' is not an edge";
    default: return "no line of the refusal list";
    }
}

/* What the place of a refusal is, in words; empty where none is named. The text is constant, and never null. */
static inline const char *lasso_place_words(uint32_t number) {
    switch (number) {
    case LASSO_WRONG_ROW_START: return "first such index";
    case LASSO_WRONG_TARGET: return "first such index";
    case LASSO_EMPTY_ROW: return "first such state";
    case LASSO_WRONG_MARK: return "first such state";
    default: return "";
    }
}

/* The first word of every answer. */
enum { LASSO_PLACE = 0 };

/* Accepts or refuses a table. */
enum { LASSO_STATES = 1, LASSO_EDGES = 2, LASSO_SETS = 3, LASSO_OPEN_WORDS = 4 };
uint32_t lasso_open(const uint8_t *table, size_t table_length, size_t answer[LASSO_OPEN_WORDS]);

/* The size of the recorded table: S slots, E edges, the bytes of its translation, the board (its place in lasso_boards, or LASSO_NO_BOARD) and the
 * number of members of fairness sets 0 to 3, at LASSO_MEMBERS and the three words after it. Look at the board only where 0 was returned. */
enum { LASSO_SLOTS = 1, LASSO_SLOT_EDGES = 2, LASSO_BYTES = 3, LASSO_BOARD = 4, LASSO_MEMBERS = 5, LASSO_QUOTE_WORDS = 9 };
uint32_t lasso_quote(const uint8_t *table, size_t table_length, size_t answer[LASSO_QUOTE_WORDS]);

/* Searches for the least lasso. A lasso is a list of states s0 to sk that begins in a start state, goes along edges, leads back from sk to a state sl of
 * its own, has no state with the goal, and has a member of every fairness set among sl to sk. The least is the shortest, and of those the first by a
 * fixed rule (docs/RULES.md). Without one the goal holds: every endless run that meets each set again and again meets the goal at least once.
 * The workspace needs 2S words and the report S words (lasso_quote tells S); what they hold before does not matter.
 * Where the search is not refused, the first 2S workspace words are 0 afterwards and the rest is as it was.
 * answer[LASSO_FOUND] is 1 for a lasso: the report's first k+1 words are its states s0 to sk, the last of which leads back to place l, and the rest
 * of the report is as it was. It is 0 where the goal holds: k and l are then 0 and the report is as it was. */
enum { LASSO_FOUND = 1, LASSO_K = 2, LASSO_L = 3, LASSO_SEARCH_WORDS = 4 };
uint32_t lasso_search(const uint8_t *table, size_t table_length, uint32_t *workspace, size_t workspace_length, uint32_t *report,
                      size_t report_length, size_t answer[LASSO_SEARCH_WORDS]);

/* Writes the translated table over the first bytes of the output and says how many (lasso_quote tells it beforehand); the rest of the output is as it
 * was. */
enum { LASSO_WRITTEN = 1, LASSO_TRANSLATE_WORDS = 2 };
uint32_t lasso_translate(const uint8_t *table, size_t table_length, uint8_t *output, size_t output_length,
                         size_t answer[LASSO_TRANSLATE_WORDS]);

/* Moves one record along the edge from its state s to `next`, with or without a save wish. t is the saved state, or n for nothing; v has the fairness
 * bits, bit i for set i. A start record is s, n, 0, 0. The step: t becomes s if it was n and the wish is on; live becomes 1 if s has the goal; if t is
 * then not n, v gets the bits of the sets that hold s. The answer is the next record; its flag live is 0 or 1. */
enum { LASSO_S = 1, LASSO_T = 2, LASSO_LIVE = 3, LASSO_V = 4, LASSO_STEP_WORDS = 5 };
uint32_t lasso_step(const uint8_t *table, size_t table_length, size_t s, size_t t, bool live, size_t v, size_t next, bool wish,
                    size_t answer[LASSO_STEP_WORDS]);

#ifdef __cplusplus
}
#endif

#endif
