/* A garage in C: enters a vehicle with its test, axles, curves and notes, deletes it, enters another and asks a twig.
 * host/c/run builds and runs it, and compares what it prints with host/c/garage.stdout. */
#include <stdio.h>
#include <stdlib.h>

#include "jiszteruk.h"

enum name { GARAGE, VEHICLE, TEST, AXLE, CURVE, NOTE };

static const char *const WORDS[] = {"garage", "vehicle", "test", "axle", "curve", "note"};

enum { RECORDS = 32, MATCHES = 32 };

/* A label outside the store. */
struct label {
    uint16_t words[JISZTERUK_LABEL_WORDS];
};

static uint8_t table[JISZTERUK_TABLE_BYTES];
static uint16_t store[RECORDS * JISZTERUK_RECORD_WORDS];
static size_t count;
static size_t answer[JISZTERUK_ANSWER_WORDS];

/* The components joined by dots, the root as a single dot. */
static void print_label(const uint16_t *words)
{
    if (words[0] == 0)
        printf(".");
    for (int i = 1; i <= words[0]; i++)
        printf(i == 1 ? "%d" : ".%d", words[i]);
}

/* Whether a call was taken; a refusal is printed. */
static int taken(uint8_t number)
{
    if (number != JISZTERUK_TAKEN)
        printf("refused %d at %zu\n", number, answer[JISZTERUK_ANSWER_PLACE]);
    return number == JISZTERUK_TAKEN;
}

/* Ends the program where a call that it can't do without is refused. */
static void must(uint8_t number)
{
    if (!taken(number))
        exit(EXIT_FAILURE);
}

/* A new store with a garage as its root. */
static struct label open_garage(void)
{
    struct label root = {{0}};
    printf("new store: ");
    must(jiszteruk_new_store(store, sizeof store / sizeof *store, GARAGE, 0, 0, answer, JISZTERUK_ANSWER_WORDS));
    count = answer[JISZTERUK_ANSWER_VALUE];
    print_label(root.words);
    printf(" garage\n");
    return root;
}

/* Enters an element below a parent and gives its label. */
static struct label enter(struct label parent, enum name name)
{
    struct label given;
    printf("enter %s below ", WORDS[name]);
    print_label(parent.words);
    printf(": ");
    must(jiszteruk_enter(table, sizeof table, store, sizeof store / sizeof *store, count,
                         parent.words, JISZTERUK_LABEL_WORDS, (uint8_t)name, 0, 0,
                         given.words, JISZTERUK_LABEL_WORDS, answer, JISZTERUK_ANSWER_WORDS));
    count = answer[JISZTERUK_ANSWER_VALUE];
    print_label(given.words);
    printf("\n");
    return given;
}

/* Deletes an element and all below it. A refusal leaves store and count as they were. */
static void delete_element(struct label label)
{
    printf("delete ");
    print_label(label.words);
    printf(": ");
    if (!taken(jiszteruk_delete(table, sizeof table, store, sizeof store / sizeof *store, count,
                                label.words, JISZTERUK_LABEL_WORDS, answer, JISZTERUK_ANSWER_WORDS)))
        return;
    printf("%zu records gone\n", count - answer[JISZTERUK_ANSWER_VALUE]);
    count = answer[JISZTERUK_ANSWER_VALUE];
}

/* Writes the stream of a name, or of all for any name, and answers how many labels it has. */
static size_t cut(uint8_t name, uint16_t *out, size_t out_len)
{
    must(jiszteruk_cut(table, sizeof table, store, sizeof store / sizeof *store, count, name, out, out_len,
                       answer, JISZTERUK_ANSWER_WORDS));
    return answer[JISZTERUK_ANSWER_VALUE];
}

/* Prints every label in use, in label order, with the path that it decodes to. */
static void print_store(void)
{
    static uint16_t labels[RECORDS * JISZTERUK_LABEL_WORDS];
    size_t n = cut(JISZTERUK_ANY_NAME, labels, sizeof labels / sizeof *labels);
    printf("%zu in use\n", n);
    for (size_t i = 0; i < n; i++) {
        const uint16_t *label = labels + i * JISZTERUK_LABEL_WORDS;
        uint8_t path[JISZTERUK_PATH_NAMES];
        must(jiszteruk_decode(table, sizeof table, GARAGE, label, JISZTERUK_LABEL_WORDS, path, sizeof path,
                              answer, JISZTERUK_ANSWER_WORDS));
        printf("  ");
        print_label(label);
        for (int d = 0; d <= label[0]; d++)
            printf(" %s", WORDS[path[d]]);
        printf("\n");
    }
}

/* Asks for each vehicle with an axle and a curve somewhere below it. The leaves are nodes 1 and 2, so the axles'
 * stream stands first in the buffer and the curves' behind it. */
static void ask(void)
{
    static const uint8_t twig[] = {
        JISZTERUK_NO_PARENT, JISZTERUK_EDGE_DESCENDANT, VEHICLE, 0,
        0, JISZTERUK_EDGE_DESCENDANT, AXLE, 0,
        0, JISZTERUK_EDGE_DESCENDANT, CURVE, 0,
    };
    enum { NODES = sizeof twig / JISZTERUK_NODE_BYTES, LEAVES = 2, ROOM = LEAVES * RECORDS * JISZTERUK_LABEL_WORDS };
    static uint16_t streams[ROOM], matches[MATCHES * NODES * JISZTERUK_LABEL_WORDS];
    size_t counts[LEAVES];
    printf("//vehicle[//axle]//curve: ");
    counts[0] = cut(AXLE, streams, ROOM);
    size_t axles = counts[0] * JISZTERUK_LABEL_WORDS;
    counts[1] = cut(CURVE, streams + axles, ROOM - axles);
    size_t all = axles + counts[1] * JISZTERUK_LABEL_WORDS;
    must(jiszteruk_match_twig(table, sizeof table, GARAGE, twig, sizeof twig, counts, LEAVES, streams, all,
                              matches, sizeof matches / sizeof *matches, answer, JISZTERUK_ANSWER_WORDS));
    size_t n = answer[JISZTERUK_ANSWER_VALUE];
    printf("%zu axles, %zu curves, %zu matches\n", counts[0], counts[1], n);
    for (size_t i = 0; i < n * NODES; i++) {
        printf(i % NODES == 0 ? "  " : " ");
        print_label(matches + i * JISZTERUK_LABEL_WORDS);
        if (i % NODES == NODES - 1)
            printf("\n");
    }
}

int main(void)
{
    must(jiszteruk_bench_table(table, sizeof table));
    struct label root = open_garage();

    struct label first = enter(root, VEHICLE);
    struct label test = enter(first, TEST);
    struct label front = enter(test, AXLE);
    struct label rear = enter(test, AXLE);
    enter(front, CURVE);
    enter(front, CURVE);
    enter(rear, CURVE);
    enter(test, CURVE);
    enter(test, NOTE);
    enter(first, NOTE);
    print_store();
    ask();

    delete_element(first);
    delete_element(first);
    print_store();
    ask();

    struct label second = enter(root, VEHICLE);
    test = enter(second, TEST);
    front = enter(test, AXLE);
    rear = enter(test, AXLE);
    enter(front, CURVE);
    enter(rear, CURVE);
    enter(test, CURVE);
    print_store();
    ask();
    return EXIT_SUCCESS;
}
