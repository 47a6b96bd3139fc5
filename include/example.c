/*
 * Uses every function of koodhaxil.h on document 01's run with six species: two papers have the trees ((0,1),2) and ((0,1),(3,(4,5))).
 * `bench/run example` compiles it, runs it, and compares what it prints with example.out.
 */
#include <stdio.h>
#include <string.h>

#include "koodhaxil.h"

#define N 6

static const uint8_t papers[] = {
    1, N, 2,                                                              /* version, species, trees */
    0, 10, 255, 255, 0, 255, 1, 0, 1, 1, 0, 2,                            /* ((0,1),2) */
    0, 18, 255, 255, 0, 255, 1, 0, 1, 1, 0, 255, 4, 3, 4, 255, 6, 4, 6, 5 /* ((0,1),(3,(4,5))) */
};

/* Prints the tree under a node with brackets. */
static void print_tree(const uint8_t *body, size_t nodes, size_t node)
{
    const char *before = "(";
    size_t child;

    if (body[2 * node + 1] != KOODHAXIL_NONE) {
        printf("%d", body[2 * node + 1]);
        return;
    }
    for (child = node + 1; child < nodes; child++) {
        if (body[2 * child] == node) {
            printf("%s", before);
            print_tree(body, nodes, child);
            before = ",";
        }
    }
    printf(")");
}

/* Prints the triplets that a table says. */
static void print_table(const uint8_t *table)
{
    int a, b, c;

    for (c = 2; c < N; c++) {
        for (b = 1; b < c; b++) {
            for (a = 0; a < b; a++) {
                uint8_t byte = table[KOODHAXIL_INDEX(a, b, c)];
                if (byte & 1) printf(" %d%d|%d", a, b, c);
                if (byte & 2) printf(" %d%d|%d", a, c, b);
                if (byte & 4) printf(" %d%d|%d", b, c, a);
            }
        }
    }
    printf("\n");
}

/* Prints the species of a set. */
static void print_set(uint64_t set)
{
    int species;

    for (species = 0; species < N; species++) {
        if (set >> species & 1) printf(" %d", species);
    }
}

static int unexpected(const char *what, size_t number)
{
    printf("%s: unexpected answer %zu\n", what, number);
    return 1;
}

int main(void)
{
    static const koodhaxil_triplet more[] = { { 0, 1, 2 }, { 4, 3, 2 } };
    static const char whole[] = "((3:1,(5:0.5,4:0.5):0.5):2, (1:0.2,0:0.2):2.8);", cut[] = "((0,1),(3,(4,5";
    uint8_t table[KOODHAXIL_TABLE(N)], before[KOODHAXIL_TABLE(N)];
    uint8_t tree[KOODHAXIL_ROOM(N)], again[KOODHAXIL_ROOM(N)], text[KOODHAXIL_TEXT_ROOM];
    size_t values[KOODHAXIL_VALUES];
    size_t number, nodes, dropped;
    uint64_t occurring, list[KOODHAXIL_LIST];

    number = koodhaxil_read(papers, sizeof papers, values, KOODHAXIL_VALUES);
    if (number != KOODHAXIL_DONE) return unexpected("reading", number);
    printf("read: %zu species, %zu trees\n", values[0], values[1]);
    occurring = values[2];

    number = koodhaxil_list(papers, sizeof papers, table, sizeof table, values, KOODHAXIL_VALUES);
    if (number != KOODHAXIL_DONE) return unexpected("listing", number);
    printf("listed:");
    print_table(table);

    number = koodhaxil_build(N, occurring, table, sizeof table, tree, sizeof tree, values, KOODHAXIL_VALUES);
    if (number != KOODHAXIL_DONE) return unexpected("building", number);
    nodes = values[0];
    printf("built: ");
    print_tree(tree, nodes, 0);
    printf(", %zu nodes; triples looked at: %zu\n", nodes, values[1]);

    /* What is built keeps everything that the papers say, and may say more than they do. */
    number = koodhaxil_check(N, table, sizeof table, tree, 2 * nodes, values, KOODHAXIL_VALUES);
    if (number != KOODHAXIL_UNFORCED) return unexpected("checking", number);
    printf("check of that tree: refused with %zu at index %zu", number, values[0]);
    if (!koodhaxil_triple(values[0], values, KOODHAXIL_VALUES)) return unexpected("triple", 0);
    printf(", since the papers do not force what it says of (%zu,%zu,%zu)\n", values[0], values[1], values[2]);

    /* So its groups that nobody forced go, one after the other, and what is left passes. */
    number = koodhaxil_loosen(N, table, sizeof table, tree, 2 * nodes, again, sizeof again, list, KOODHAXIL_LIST, values, KOODHAXIL_VALUES);
    if (number != KOODHAXIL_DONE) return unexpected("loosening", number);
    nodes = values[0];
    printf("loosened: ");
    print_tree(again, nodes, 0);
    printf(", %zu nodes; dropped", nodes);
    for (dropped = 0; dropped < values[1]; dropped++) {
        printf("%s", dropped == 0 ? ":" : ", then");
        print_set(list[dropped]);
    }
    printf("\n");
    number = koodhaxil_check(N, table, sizeof table, again, 2 * nodes, values, KOODHAXIL_VALUES);
    if (number != KOODHAXIL_DONE) return unexpected("checking", number);
    printf("check of that tree: passed\n");

    /* The first paper's tree alone, its children in another order: house order turns them, and the check passes it. */
    number = koodhaxil_order(N, (const uint8_t[]){ 255, 255, 0, 2, 0, 255, 2, 1, 2, 0 }, 10, again, sizeof again, values, KOODHAXIL_VALUES);
    if (number != KOODHAXIL_DONE) return unexpected("house order", number);
    nodes = values[0];
    printf("(2,(1,0)) in house order: ");
    print_tree(again, nodes, 0);
    printf("\n");
    number = koodhaxil_check(N, table, sizeof table, again, 2 * nodes, values, KOODHAXIL_VALUES);
    if (number != KOODHAXIL_DONE) return unexpected("checking", number);
    printf("check of that tree: passed\n");

    /* An author's text of the second paper's tree, with lengths; and one that ends early. */
    number = koodhaxil_parse(N, (const uint8_t *)whole, strlen(whole), again, sizeof again, values, KOODHAXIL_VALUES);
    if (number != KOODHAXIL_DONE) return unexpected("reading a text", number);
    nodes = values[0];
    printf("%s is read: ", whole);
    print_tree(again, nodes, 0);
    printf(", %zu nodes\n", nodes);
    number = koodhaxil_render(N, again, 2 * nodes, text, sizeof text, values, KOODHAXIL_VALUES);
    if (number != KOODHAXIL_DONE) return unexpected("writing a text", number);
    printf("and is written as %.*s\n", (int)values[0], (const char *)text);
    number = koodhaxil_parse(N, (const uint8_t *)cut, strlen(cut), again, sizeof again, values, KOODHAXIL_VALUES);
    if (number != KOODHAXIL_BAD_TEXT) return unexpected("reading a text", number);
    printf("%s is refused with %zu at byte %zu\n", cut, number, values[0]);

    /* A refusal leaves the table as it was: the last byte of the second paper's tree, number 1, is missing. */
    memcpy(before, table, sizeof table);
    number = koodhaxil_list(papers, sizeof papers - 1, table, sizeof table, values, KOODHAXIL_VALUES);
    if (number != KOODHAXIL_ENDS_EARLY) return unexpected("listing", number);
    printf("listing with the last byte cut: refused with %zu, tree %zu ends early; the table is %s\n", number, values[0],
           memcmp(before, table, sizeof table) == 0 ? "as before" : "CHANGED");

    number = koodhaxil_enter(N, more, sizeof more / sizeof more[0], table, sizeof table, values, KOODHAXIL_VALUES);
    if (number != KOODHAXIL_DONE) return unexpected("entering", number);
    printf("entered:");
    print_table(table);

    /* Species 5 stands in no record: it is not in the tree of what occurs, and hangs from the root in that of all six. */
    number = koodhaxil_build(N, values[1], table, sizeof table, tree, sizeof tree, values, KOODHAXIL_VALUES);
    if (number != KOODHAXIL_DONE) return unexpected("building", number);
    printf("built of what occurs: ");
    print_tree(tree, values[0], 0);
    number = koodhaxil_build(N, KOODHAXIL_ALL(N), table, sizeof table, tree, sizeof tree, values, KOODHAXIL_VALUES);
    if (number != KOODHAXIL_DONE) return unexpected("building", number);
    printf("; of all six: ");
    print_tree(tree, values[0], 0);
    printf("\n");

    /* With 02|1 beside 01|2 no tree is left. */
    table[KOODHAXIL_INDEX(0, 1, 2)] |= 2;
    number = koodhaxil_build(N, KOODHAXIL_ALL(N), table, sizeof table, tree, sizeof tree, values, KOODHAXIL_VALUES);
    if (number != KOODHAXIL_NO_TREE) return unexpected("building", number);
    printf("building with 02|1 beside 01|2: refused with %zu, no tree holds what is said of the species", number);
    print_set(values[0]);
    printf("; triples looked at: %zu\n", values[1]);

    /* A build that is refused before it begins has looked at none: a byte of the table is over 15. */
    number = koodhaxil_build(3, KOODHAXIL_ALL(3), (const uint8_t[]){ 16 }, KOODHAXIL_TABLE(3), tree, sizeof tree, values, KOODHAXIL_VALUES);
    if (number != KOODHAXIL_BAD_BYTE) return unexpected("building", number);
    printf("building from a byte 16: refused with %zu at place %zu; triples looked at: %zu\n", number, values[0], values[1]);

    /* The veto build gives a tree even then: on three species, 01|2 beside 02|1 leave a fan. */
    number = koodhaxil_veto(3, KOODHAXIL_ALL(3), (const uint8_t[]){ 1 | 2 }, KOODHAXIL_TABLE(3), tree, sizeof tree, values, KOODHAXIL_VALUES);
    if (number != KOODHAXIL_DONE) return unexpected("the veto build", number);
    printf("the veto build of 01|2 and 02|1: ");
    print_tree(tree, values[0], 0);
    printf(", %zu nodes; triples looked at: %zu\n", values[0], values[1]);
    return 0;
}
