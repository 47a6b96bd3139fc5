/*
 * Koodhaxil for C99 and C++: groups of species from published rooted trees, by triplets ab|c.
 *
 * `.ci/built exports_c` writes target/staticlib/libexports.a for x86-64 Linux; compile with this folder on the include path, and link the
 * archive. Of the C library it uses memcpy and memset. It takes no memory but the stack, keeps nothing from one call to the next, and always
 * returns. `example.c` beside this file uses every function.
 *
 *
 * SPECIES, BODIES, TABLES
 *
 * A run has n species, 1 to 64, numbered from 0.
 *
 * A body is a tree, two bytes a node: parent, species. Node 0 is the root, with parent 255; every later node's parent is a smaller node number. A
 * node with children has species 255 and at least two children; one without has a species below n, and no species stands twice. A body has 2 to 254
 * bytes. A tree may have only some of the species.
 *
 * A collection is a byte 1, n, the number of trees, 0 to 16, and for each tree the length of its body in two bytes, the higher one first, and the
 * body. Nothing follows. It has 4,099 bytes at most.
 *
 * A table has C(n,3) bytes, one for each triple a < b < c, at the place KOODHAXIL_INDEX(a, b, c). In it 1 stands for ab|c, 2 for ac|b and 4 for
 * bc|a, and 8 for a fan, added together; 0 says nothing. Listing sets 8 where some tree has all three species and leaves them as a fan; entering never
 * does. Both builds, the check and loosening go by 1, 2 and 4 alone; refusals 8 and 16 read the whole byte, and 11 returns it.
 *
 * A set of species is a uint64_t: bit i stands for species i. A species occurs in a collection where some tree has it, in a triplet or not; in records
 * where some record has it.
 *
 * House order: nodes in preorder, children by their lowest species.
 *
 * A Newick text writes a tree: a species is its number in decimal, and a node with children is a bracket with these between commas, as in
 * ((0,1),2); A length (a colon, digits, perhaps a point and digits) may stand behind each subtree, and is thrown away. docs/NEWICK.md has the form
 * in full, and for many texts what becomes of them.
 *
 *
 * HOW SLICES ARE PASSED
 *
 * A slice is two arguments: a pointer, and behind it how many elements it points at. These are bytes, records (koodhaxil_triplet, three bytes each
 * and nothing between them), sets (uint64_t) or numbers (size_t, in `values`); the length counts elements, not bytes.
 *
 *
 * WHAT THE CALLER ENSURES
 *
 * The library's answers are proved for any n, any lengths and any content: no number and no byte has to be tested before a call. The proof is about
 * slices, and takes for granted what C does not say of a pointer and a length. Nothing tests it:
 *
 * - A pointer points at as many elements as its length says, which can be read, and can be written where it is not const. It is not null, even
 *   where the length is 0; nothing is read or written there then. A pointer to size_t is aligned as a size_t is, one to uint64_t as a uint64_t is.
 * - What is lent for writing (a pointer that is not const) overlaps nothing else that is handed to the same call. What is only read may overlap.
 * - No other thread writes what is lent, or reads what is lent for writing, before the call returns. Calls that share no such memory may run at the
 *   same time.
 * - There is stack: on x86-64 some 107 KiB for loosening, 98 for checking, 35 for listing, 15 for either build, and below 11 for the others. In a thread
 *   the C library takes a part of the stack for itself, with glibc some 4 KiB: a build dies on a thread's stack of 16 KiB, and runs on one of 20.
 *
 *
 * WHAT A FUNCTION ANSWERS
 *
 * The result of an operation is one of the numbers below: 0 for done, any other for a refusal. What belongs to the number is laid into `values`, in
 * the order that is given here, from place 0 on, as far as there are places; what is behind it stays. KOODHAXIL_VALUES places are enough for every
 * answer, and 0 places are allowed. Where several refusals apply, the answer is the first one in the order that stands at the function.
 * koodhaxil_triple is no operation but a question, answered 1 for yes and 0 for no.
 *
 * A refusal changes no byte of a table or a room, and no set of a list. On 0, listing and entering fill the whole table, whatever it held; house order,
 * both builds, loosening and reading a text write a body to the front of the room, and writing a text that text, and change nothing behind it; nor does
 * loosening behind the sets that it writes to the front of the list.
 */
#ifndef KOODHAXIL_H
#define KOODHAXIL_H

#include <stddef.h>
#include <stdint.h>

#ifdef __cplusplus
extern "C" {
#endif

/* The numbers, and behind each one what is laid into `values`. A tree number is 0 where there is only one body. Of both builds, the triples looked at
 * stand behind all this, as the last value: with 0 and with 10 as many as there were, and 0 with any other number. */
enum koodhaxil_number {
    KOODHAXIL_DONE = 0,          /* done                                               read, list: n, tree count, set that occurs; */
                                 /*                                                    enter: n, set that occurs; */
                                 /*                                                    order, parse: node count; check: nothing; */
                                 /*                                                    build, veto: node count, triples looked at; */
                                 /*                                                    render: length of the text; */
                                 /*                                                    loosen: node count, how many sets were dropped */
    KOODHAXIL_BAD_VERSION = 1,   /* the version byte is not 1                          nothing */
    KOODHAXIL_BAD_COUNTS = 2,    /* n is 0 or over 64, or there are over 16 trees      nothing */
    KOODHAXIL_ENDS_EARLY = 3,    /* the bytes end early                                tree number, 0 for the header */
    KOODHAXIL_LEFT_OVER = 4,     /* bytes are left over                                how many */
    KOODHAXIL_BAD_LENGTH = 5,    /* a body's length is 0, odd or over 254              tree number */
    KOODHAXIL_BAD_TREE = 6,      /* a tree rule is broken                              tree number, node, fault, what the fault carries */
    KOODHAXIL_BAD_TABLE = 7,     /* the table's length is not C(n,3)                   nothing */
    KOODHAXIL_BAD_BYTE = 8,      /* a byte of the table is over 15                     the first such place */
    KOODHAXIL_SHORT_ROOM = 9,    /* the room or the list is too short                  nothing */
    KOODHAXIL_NO_TREE = 10,      /* no tree holds every entered triplet                the set that stops: bit i for species i; triples looked at */
    KOODHAXIL_CONTRADICTED = 11, /* an entered triplet contradicts the tree            triple index, table byte */
    KOODHAXIL_UNFORCED = 12,     /* a triplet of the tree is not forced                triple index */
    KOODHAXIL_BAD_RECORD = 13,   /* a record repeats a species or has one not below n  the first such record */
    KOODHAXIL_BAD_TEXT = 14,     /* no Newick text, or over a limit                    byte place */
    KOODHAXIL_BAD_SET = 15,      /* the set is empty, or has a bit at n or above       nothing */
    KOODHAXIL_OUTSIDE = 16       /* the table speaks of a species outside the set      triple index */
};

/* The faults of refusal 6, and what each one carries. */
enum koodhaxil_fault {
    KOODHAXIL_BAD_PARENT = 1,  /* that parent */
    KOODHAXIL_BAD_SPECIES = 2, /* that species */
    KOODHAXIL_SEEN_BEFORE = 3, /* the earlier node with the same species */
    KOODHAXIL_ONLY_CHILD = 4   /* 0; the node named is the one with a single child */
};

/* The root's parent in a body, and the species of a node with children. */
#define KOODHAXIL_NONE 255

/* The most that there can be: species, trees, the bytes of a body, a collection and a table, and the triples that a build looks at. */
#define KOODHAXIL_MOST_SPECIES 64
#define KOODHAXIL_MOST_TREES 16
#define KOODHAXIL_MOST_BODY 254
#define KOODHAXIL_MOST_COLLECTION 4099
#define KOODHAXIL_MOST_TABLE 41664
#define KOODHAXIL_MOST_LOOKED 677040

/* The longest Newick text that is read, and in it the most brackets that are open at a time, nodes, and the largest species number. */
#define KOODHAXIL_MOST_TEXT 4096
#define KOODHAXIL_MOST_OPEN 63
#define KOODHAXIL_MOST_NODES 127
#define KOODHAXIL_LARGEST_SPECIES 254

/* Room that is long enough for the Newick text of any tree: a tree of 64 species has one of as many bytes, and none has a longer one. */
#define KOODHAXIL_TEXT_ROOM 308

/* Places of the list that loosening asks for: no tree has more groups that it may drop. */
#define KOODHAXIL_LIST 62

/* Places of `values` for the longest answer. */
#define KOODHAXIL_VALUES 4

/* For n of 1 or more: the length of a table, C(n,3), which is 0 for 1 or 2 species. For s species in a set, 1 or more: the room that a build asks
 * for, 4s - 2. */
#define KOODHAXIL_TABLE(n) ((size_t)(n) * ((size_t)(n) - 1) * ((size_t)(n) - 2) / 6)
#define KOODHAXIL_ROOM(s) (4 * (size_t)(s) - 2)

/* For n of 1 to 64: the set of all n species. */
#define KOODHAXIL_ALL(n) (UINT64_MAX >> (64 - (n)))

/* The index of the triple a < b < c: C(c,3) + C(b,2) + a. koodhaxil_triple goes back. */
#define KOODHAXIL_INDEX(a, b, c) (KOODHAXIL_TABLE(c) + (size_t)(b) * ((size_t)(b) - 1) / 2 + (size_t)(a))

/* A record: the triplet ab|c. The close pair stands in either order. */
typedef struct {
    uint8_t a;
    uint8_t b;
    uint8_t c;
} koodhaxil_triplet;

/* Does not compile where the library's numbers are not a size_t, or a record is not three bytes. */
typedef char koodhaxil_size_t_has_8_bytes[sizeof(size_t) == 8 ? 1 : -1];
typedef char koodhaxil_triplet_has_3_bytes[sizeof(koodhaxil_triplet) == 3 ? 1 : -1];

/*
 * Reads a collection.
 * Refusals: 3 for no byte at all, 1, 3 for fewer than three bytes, 2; then tree by tree 3 for no length, 5, 3 for a body cut short, 6; at last 4.
 * Inside 6: the parents of all nodes first; then node by node bad species, seen before, only child.
 */
size_t koodhaxil_read(const uint8_t *collection, size_t collection_length, size_t *values, size_t values_length);

/*
 * Lists a collection: the table says exactly the triplets that at least one of its trees holds, and has 8 exactly where one has the three as a fan.
 * Refusals: those of reading, then 7.
 */
size_t koodhaxil_list(const uint8_t *collection, size_t collection_length, uint8_t *table, size_t table_length, size_t *values,
                      size_t values_length);

/*
 * Enters records: the table says exactly these triplets. A triplet may stand more than once; with no record the table is all 0.
 * Refusals: 2, 7, 13.
 */
size_t koodhaxil_enter(size_t n, const koodhaxil_triplet *records, size_t records_length, uint8_t *table, size_t table_length, size_t *values,
                       size_t values_length);

/*
 * Puts a tree in house order: its body to the front of the room, which is as long as the body or longer. Two good trees have the same groups
 * exactly when these bodies are equal.
 * Refusals: 2, 5, 6, 9.
 */
size_t koodhaxil_order(size_t n, const uint8_t *body, size_t body_length, uint8_t *room, size_t room_length, size_t *values,
                       size_t values_length);

/*
 * Builds Aho's tree of the species of a set: it has exactly these, holds every entered triplet, and has no group that these do not give. In house order,
 * to the front of the room, which has 4s - 2 bytes or more for s species in the set. Handed the set that listing or entering returned, a species that no
 * paper mentions is not in the tree; handed KOODHAXIL_ALL(n), it hangs from the root. Refused with 10 exactly when no tree with exactly these species
 * holds every entered triplet; with 16 at the first triple whose byte is not 0 and whose three species are not all in the set.
 * The triples looked at are, for every set that is split or found joined, the combinations of three of its species, added up over these sets in order, up
 * to one that stops. For s species in the set they are at most C(s+1,4), KOODHAXIL_MOST_LOOKED for 64; a fully nested tree comes to that many.
 * Refusals: 2, 7, 8, 15, 16, 9, 10.
 */
size_t koodhaxil_build(size_t n, uint64_t set, const uint8_t *table, size_t table_length, uint8_t *room, size_t room_length, size_t *values,
                       size_t values_length);

/*
 * The veto build: as building, but where a set's links join it all, every species of that set becomes a leaf under it, and building goes on with the
 * sets beside it. So there is always a tree of exactly the species of the set, and 10 is never the answer. No entered triplet contradicts it: the check
 * against the same table answers 0 or 12. Where building answers 0, this answers the same and writes the same tree. The triples looked at are as in
 * building, and nothing stops.
 * Refusals: 2, 7, 8, 15, 16, 9.
 */
size_t koodhaxil_veto(size_t n, uint64_t set, const uint8_t *table, size_t table_length, uint8_t *room, size_t room_length, size_t *values,
                      size_t values_length);

/*
 * Checks a tree against a table: 0 exactly when no entered triplet contradicts it and the entered ones force each of its own. 11 and 12 name the
 * first triple in the order of the table.
 * Refusals: 2, 7, 8, 5, 6, 11, 12.
 */
size_t koodhaxil_check(size_t n, const uint8_t *table, size_t table_length, const uint8_t *body, size_t body_length, size_t *values,
                       size_t values_length);

/*
 * Loosens a tree by a table. An inner node's group, the root's aside, is earned when for every sibling's group the links on the two together join all of
 * it; the links are those of the entered triplets on triples that the tree resolves. While a group is not earned, the first such one in house order is
 * dropped: its children go to its parent. The final tree goes to the front of the room, in house order; the room is as long as the body or longer. The
 * dropped sets go to the front of the list, in the order they went; the list has KOODHAXIL_LIST places or more. The check passes the final tree, and where
 * it passes the candidate, nothing is dropped. 11 is as in the check.
 * Refusals: 2, 7, 8, 5, 6, 11, 9.
 */
size_t koodhaxil_loosen(size_t n, const uint8_t *table, size_t table_length, const uint8_t *body, size_t body_length, uint8_t *room, size_t room_length,
                        uint64_t *list, size_t list_length, size_t *values, size_t values_length);

/*
 * Reads a Newick text into a body, at the front of the room, which is as long as the body or longer: KOODHAXIL_MOST_BODY bytes are always enough. The
 * nodes are in the text's order. 14 names the earliest of these places, counted in bytes from 0: the first byte that no text of this form has there,
 * the text's length where it ends early, the opening bracket one too deep, the first sign of a node too many, and the digit that takes a number past
 * 254; and KOODHAXIL_MOST_TEXT, before all of them, for a text that is longer than that.
 * Refusals: 2, 14, 6, 9.
 */
size_t koodhaxil_parse(size_t n, const uint8_t *text, size_t text_length, uint8_t *room, size_t room_length, size_t *values,
                       size_t values_length);

/*
 * Writes a tree as Newick text, without lengths or blanks, its children by their lowest species, with a semicolon at the end and no byte 0 behind it: to
 * the front of the room, which is as long as the text or longer. The body need not be in house order. Two good trees have the same groups exactly when
 * these texts are equal; and koodhaxil_parse, with the same n, reads the text back into the house-order body.
 * Refusals: 2, 5, 6, 9.
 */
size_t koodhaxil_render(size_t n, const uint8_t *body, size_t body_length, uint8_t *room, size_t room_length, size_t *values,
                        size_t values_length);

/*
 * The way back from KOODHAXIL_INDEX: is there a triple with this index, as 11 and 12 give one? 1 for yes: its species a < b < c are laid into
 * `values`, a first, as far as there are places. 0 for no, beyond the 41,664 triples of 64 species: `values` stays. Nothing is refused: this is a
 * question, and its answers are none of the numbers above.
 */
size_t koodhaxil_triple(size_t index, size_t *values, size_t values_length);

#ifdef __cplusplus
}
#endif

#endif
