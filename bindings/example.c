/* The five jobs from C, on a table file: example TABLE. Prints what each answers, refusals in words. Compiled by
 *
 *     gcc -std=c11 -Wall -Wextra -O2 -Ibindings bindings/example.c target/staticlib/liblasso.a -o example
 */
#include "lasso.h"

#if LASSO_VERSION_MAJOR != 4
#error "this example is written for version 4 of lasso.h"
#endif

#include <stdio.h>
#include <stdlib.h>

/* One byte more than the longest table, so that a longer file is refused and not cut to a table. */
static uint8_t table[LASSO_MOST_TABLE_BYTES + 1];

static int refused(const char *job, uint32_t number, const size_t *answer) {
    printf("%s: refused %u %zu: %s", job, (unsigned)number, answer[LASSO_PLACE], lasso_words(number));
    if (*lasso_place_words(number) != '\0')
        printf("; %s %zu", lasso_place_words(number), answer[LASSO_PLACE]);
    printf("\n");
    return 1;
}

static void print_board(size_t board) {
    if (board == LASSO_NO_BOARD) {
        printf("no board\n");
        return;
    }
    const struct lasso_board *row = &lasso_boards[board];
    printf("board %c of %zu slots and %zu edges\n", row->letter, row->slots, row->edges);
}

int main(int count, char **words) {
    FILE *file = count == 2 ? fopen(words[1], "rb") : NULL;
    if (file == NULL) {
        fprintf(stderr, "usage: example TABLE\n");
        return 2;
    }
    const size_t length = fread(table, 1, sizeof table, file);
    fclose(file);

    size_t opened[LASSO_OPEN_WORDS], quoted[LASSO_QUOTE_WORDS], found[LASSO_SEARCH_WORDS], written[LASSO_TRANSLATE_WORDS], moved[LASSO_STEP_WORDS];
    uint32_t number = lasso_open(table, length, opened);
    if (number != LASSO_DONE)
        return refused("open", number, opened);
    printf("open: %zu states, %zu edges, %zu sets\n", opened[LASSO_STATES], opened[LASSO_EDGES], opened[LASSO_SETS]);

    number = lasso_quote(table, length, quoted);
    if (number != LASSO_DONE)
        return refused("quote", number, quoted);
    printf("quote: %zu slots, %zu edges, %zu bytes, members %zu %zu %zu %zu, ", quoted[LASSO_SLOTS], quoted[LASSO_SLOT_EDGES],
           quoted[LASSO_BYTES], quoted[LASSO_MEMBERS], quoted[LASSO_MEMBERS + 1], quoted[LASSO_MEMBERS + 2], quoted[LASSO_MEMBERS + 3]);
    print_board(quoted[LASSO_BOARD]);

    const size_t slots = quoted[LASSO_SLOTS];
    uint32_t *workspace = malloc(2 * slots * sizeof *workspace);
    uint32_t *report = malloc(slots * sizeof *report);
    uint8_t *output = malloc(quoted[LASSO_BYTES]);
    if (workspace == NULL || report == NULL || output == NULL) {
        fprintf(stderr, "example: no memory\n");
        return 2;
    }

    number = lasso_search(table, length, workspace, 2 * slots, report, slots, found);
    if (number != LASSO_DONE)
        return refused("search", number, found);
    if (found[LASSO_FOUND] == 1) {
        printf("search: lasso of length %zu, loop from place %zu, states", found[LASSO_K], found[LASSO_L]);
        for (size_t i = 0; i <= found[LASSO_K]; i++)
            printf(" %u", (unsigned)report[i]);
        printf("\n");
    } else {
        printf("search: holds\n");
    }
    number = lasso_search(table, length, workspace, 2 * slots - 1, report, slots, found);
    if (number != LASSO_DONE)
        refused("search, one word short", number, found);

    number = lasso_translate(table, length, output, quoted[LASSO_BYTES], written);
    if (number != LASSO_DONE)
        return refused("translate", number, written);
    printf("translate: %zu bytes, kind %u\n", written[LASSO_WRITTEN], (unsigned)output[0]);

    number = lasso_step(table, length, 0, opened[LASSO_STATES], false, 0, 0, true, moved);
    if (number != LASSO_DONE)
        return refused("step 0 to 0", number, moved);
    printf("step 0 to 0, saving: s %zu, t %zu, live %zu, v %zu\n", moved[LASSO_S], moved[LASSO_T], moved[LASSO_LIVE], moved[LASSO_V]);

    table[length - 1] |= LASSO_MARK_BAD;
    number = lasso_open(table, length, opened);
    if (number != LASSO_DONE)
        refused("open, last mark changed", number, opened);

    free(workspace);
    free(report);
    free(output);
    return 0;
}
