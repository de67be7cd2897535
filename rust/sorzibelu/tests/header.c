/* Every entry point of include/sorzibelu.h on M1, M7 and refused input, null pointers with length 0 among it. */
#include "sorzibelu.h"

#include <stdio.h>
#include <string.h>

static int failed = 0;

static void is(const char *what, uint64_t answer, uint32_t number, uint32_t value) {
    if (SORZIBELU_NUMBER(answer) != number || SORZIBELU_VALUE(answer) != value) {
        printf("%s: %u %u, not %u %u\n", what, SORZIBELU_NUMBER(answer), SORZIBELU_VALUE(answer), number, value);
        failed = 1;
    }
}

static void same(const char *what, const void *a, const void *b, size_t n) {
    if (memcmp(a, b, n) != 0) {
        printf("%s: other bytes\n", what);
        failed = 1;
    }
}

static uint8_t m1[1024], out[SORZIBELU_MAX_SHEET_BYTES], sets[SORZIBELU_LIVE_BYTES];
static uint8_t text[SORZIBELU_PAGE_BYTES];
static uint16_t table[SORZIBELU_FLOW_NUMBERS];
static uint8_t two[2048], class_sets[2 * SORZIBELU_LIVE_BYTES];

int main(void) {
    static const uint32_t chain[6] = {0, 1, 0, 1, 2, 0};
    static const uint16_t row[6] = {0, 0, 2, 1, 0, 0};
    static const uint8_t before[17] = {1}, order[3] = {2, 1, 0};
    static const uint32_t both[7] = {0, 0, 3, 0, 0, 3, 7}, second[7] = {SORZIBELU_BLOCK, 1, 0, 0, 0, 3, 7};
    uint32_t answers[2 * SORZIBELU_NUMBERS_PER_SHEET + 1] = {7, 7, 7, 7, 7, 7, 7};
    uint8_t nodes[SORZIBELU_MAX_NODES] = {0};
    /* n, locals, user locals, parameters; the Ret of local 0; numbers and checks */
    m1[4] = m1[6] = m1[8] = m1[10] = 1;
    m1[544] = 2;
    m1[544 + 9] = 1;
    m1[512] = 1;
    m1[2] = m1[514] = 4;

    is("check", sorzibelu_check(m1, 1024), 0, 0);
    is("flow", sorzibelu_flow(m1, 1024, table, SORZIBELU_FLOW_NUMBERS), 0, 1);
    same("flow", table, row, sizeof row);
    is("live", sorzibelu_live(m1, 1024, sets, sizeof sets), 0, 3);
    same("live", sets, before, 16);
    memcpy(two, m1, 1024);
    memcpy(two + 1024, m1, 1024);
    is("class set", sorzibelu_live_class(two, 2048, class_sets, sizeof class_sets, answers, 6), 0, 2);
    same("class set, numbers", answers, both, sizeof both);
    same("class set, sheet 0", class_sets, before, 17);
    same("class set, sheet 1", class_sets + SORZIBELU_LIVE_BYTES, before, 17);
    is("rewrite", sorzibelu_rewrite(m1, 1024, out, sizeof out), 0, 1024);
    same("rewrite", out, m1, 1024);
    is("renumber", sorzibelu_renumber(m1, 1024, out, sizeof out), 0, 1024);
    same("renumber", out, m1, 1024);
    is("label", sorzibelu_label(m1, 1024, 1), 0, 65536u * SORZIBELU_UNDEFINED);
    is("in use", sorzibelu_in_use(3, 4, chain, 6, 0), 0, 1);
    is("conditional", sorzibelu_conditional(3, 4, chain, 6, 0), 0, 0);
    is("dying", sorzibelu_dying(3, 4, chain, 6, 3, 0, chain, 6, nodes, sizeof nodes), 0, 3);
    same("dying", nodes, order, 3);

    /* null with length 0 */
    is("no sheet", sorzibelu_check(NULL, 0), SORZIBELU_LENGTH, 0);
    is("no sheet, no table", sorzibelu_flow(NULL, 0, NULL, 0), SORZIBELU_LENGTH, 0);
    is("no table", sorzibelu_flow(m1, 1024, NULL, 0), SORZIBELU_SHORT_OUTPUT, 0);
    is("no sets", sorzibelu_live(m1, 1024, NULL, 0), SORZIBELU_SHORT_OUTPUT, 0);
    is("no class set", sorzibelu_live_class(NULL, 0, NULL, 0, NULL, 0), SORZIBELU_LENGTH, 0);
    is("no class sets", sorzibelu_live_class(two, 2048, NULL, 0, answers, 6), SORZIBELU_SHORT_OUTPUT, 0);
    is("no numbers", sorzibelu_live_class(two, 2048, class_sets, sizeof class_sets, NULL, 0), SORZIBELU_SHORT_OUTPUT, 0);
    is("no output", sorzibelu_rewrite(m1, 1024, NULL, 0), SORZIBELU_SHORT_OUTPUT, 0);
    is("no output", sorzibelu_renumber(m1, 1024, NULL, 0), SORZIBELU_SHORT_OUTPUT, 0);
    is("no sheet, no output", sorzibelu_renumber(NULL, 0, NULL, 0), SORZIBELU_LENGTH, 0);
    is("no sheet, a label", sorzibelu_label(NULL, 0, 0), SORZIBELU_LENGTH, 0);
    is("no triples", sorzibelu_in_use(1, 1, NULL, 0, 0), 0, 1);
    is("no triples, no node", sorzibelu_conditional(0, 0, NULL, 0, 0), SORZIBELU_ASKED_NODE, 0);
    is("nothing at all", sorzibelu_dying(0, 0, NULL, 0, 0, 0, NULL, 0, NULL, 0), 0, 0);
    /* places */
    m1[514]++;
    is("a wrong check", sorzibelu_check(m1, 1024), SORZIBELU_BLOCK, 1);
    two[514]++;
    is("a wrong check in a class set", sorzibelu_live_class(two, 2048, class_sets, sizeof class_sets, answers, 6), 0, 2);
    same("a wrong check in a class set", answers, second, sizeof second);
    is("a later block first", sorzibelu_live_class(two + 512, 1024, class_sets, sizeof class_sets, answers, 6), SORZIBELU_FIRST_BLOCK, 0);
    is("1,000 bytes", sorzibelu_live_class(two, 1000, class_sets, sizeof class_sets, answers, 6), SORZIBELU_LENGTH, 0);
    is("68 sheets", sorzibelu_live_class(out + 1024, sizeof out - 1024, class_sets, sizeof class_sets, answers, 6), SORZIBELU_TOO_MANY_SHEETS, 0);
    is("two numbers", sorzibelu_dying(3, 4, chain, 6, 3, 0, chain, 2, nodes, sizeof nodes), SORZIBELU_TRIPLE, 1300);

    /* texts */
    is("page", sorzibelu_page(m1, 1024, text, sizeof text), 0, 12);
    same("page", text, "refused 2 1\n", 12);
    m1[514]--;
    is("livelist", sorzibelu_livelist(m1, 1024, text, sizeof text), 0, 44);
    same("livelist", text, "0 0000000000000001 0000000000000000\ntaken 3\n", 44);
    is("a short page", sorzibelu_page(m1, 1024, text, SORZIBELU_PAGE_BYTES - 1), SORZIBELU_SHORT_OUTPUT, 0);
    is("no livelist", sorzibelu_livelist(m1, 1024, NULL, 0), SORZIBELU_SHORT_OUTPUT, 0);
    /* the Ret made an IsParent, and a Ret behind it */
    m1[4] = 2;
    m1[2] = 5;
    m1[544] = 1;
    m1[544 + 1] = 19;
    m1[576] = 2;
    m1[514] = 24;
    is("a hidden local", sorzibelu_renumber(m1, 1024, out, sizeof out), SORZIBELU_HIDDEN_LOCAL, 0);
    /* the IsParent made a Label 7, which nothing names, and the Ret behind it a Jump to it */
    m1[544] = 6;
    m1[544 + 1] = m1[544 + 9] = 0;
    m1[544 + 4] = 7;
    m1[514] = 16;
    is("never named", sorzibelu_label(m1, 1024, 7), 0, 65536u * SORZIBELU_UNNAMED);
    m1[576] = 5;
    m1[576 + 4] = 7;
    m1[514] = 26;
    is("named", sorzibelu_label(m1, 1024, 7), 0, 65536u * SORZIBELU_NAMED);
    is("above 65,535", sorzibelu_label(m1, 1024, 65536u + 7), 0, 65536u * SORZIBELU_UNDEFINED);
    /* the Jump made a Stop with an abort action to Label 7, and one without */
    m1[576] = 1;
    m1[576 + 1] = 18;
    m1[576 + 10] = 1;
    m1[514] = 41;
    is("a flagged Stop", sorzibelu_check(m1, 1024), SORZIBELU_FLAGGED_STOP, 1);
    is("a flagged Stop, flow", sorzibelu_flow(m1, 1024, NULL, 0), SORZIBELU_FLAGGED_STOP, 1);
    is("a flagged Stop, live", sorzibelu_live(m1, 1024, NULL, 0), SORZIBELU_FLAGGED_STOP, 1);
    is("a flagged Stop, rewrite", sorzibelu_rewrite(m1, 1024, NULL, 0), SORZIBELU_FLAGGED_STOP, 1);
    is("a flagged Stop, renumber", sorzibelu_renumber(m1, 1024, NULL, 0), SORZIBELU_FLAGGED_STOP, 1);
    is("a flagged Stop, label", sorzibelu_label(m1, 1024, 7), SORZIBELU_FLAGGED_STOP, 1);
    m1[576 + 4] = m1[576 + 10] = 0;
    m1[514] = 33;
    is("a Stop", sorzibelu_check(m1, 1024), 0, 0);
    if (SORZIBELU_WAY(65536u * SORZIBELU_UNNAMED + 1023) != SORZIBELU_UNNAMED || SORZIBELU_OFFSET(65536u * SORZIBELU_UNNAMED + 1023) != 1023) failed = 1;
    puts(failed ? "failed" : "all right");
    return failed;
}
