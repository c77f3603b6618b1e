/* The work of the program diagram_bench, done by BuDDy: the same operations in the same order, with the same pseudo-random rules.
 *
 *   diagrams ROUNDS NODES CACHE [each]
 *
 * NODES and CACHE are the sizes that BuDDy starts with. With `each` its memory of sub-results is emptied before every operation, as a
 * diagram store does; else it is emptied only between rounds, with a garbage collection that takes all that the round made.
 * Switch i is at level 23 - i, so the highest switch is at the root, as in a diagram store. */
#include <bdd.h>
#include <stdint.h>
#include <stdio.h>
#include <stdlib.h>
#include <string.h>
#include <time.h>

/* exported by the library, though not declared in bdd.h */
extern void bdd_operator_reset(void);

enum { SWITCHES = 24, HALF = 12, ROW = 14, RULES = 60, ATTEMPTS = 1000, MOST = 100000 };

static int each;
static unsigned long asked;
static BDD results[MOST];
static int held;

/* every answer stays held until the end of the round */
static BDD hold(BDD r) {
    if (held == MOST) {
        fprintf(stderr, "too many answers\n");
        exit(1);
    }
    results[held++] = bdd_addref(r);
    asked++;
    return r;
}

static BDD apply(BDD a, BDD b, int op) {
    if (each)
        bdd_operator_reset();
    return hold(bdd_apply(a, b, op));
}

static BDD on(uint32_t i) { return hold(bdd_ithvar(SWITCHES - 1 - i)); }
static BDD both(BDD a, BDD b) { return apply(a, b, bddop_and); }
static BDD either(BDD a, BDD b) { return apply(a, b, bddop_or); }
static BDD not(BDD a) { return apply(bddtrue, a, bddop_diff); }

static BDD equal(uint32_t i, uint32_t j) {
    BDD a = on(i);
    BDD b = on(j);
    BDD together = both(a, b);
    BDD any = either(a, b);
    BDD off = not(any);
    return either(together, off);
}

static BDD equivalences(void) {
    BDD all = bddtrue;
    for (uint32_t i = 0; i < HALF; i++) {
        BDD same = equal(i, i + HALF);
        all = both(all, same);
    }
    return all;
}

static BDD majority(void) {
    BDD row[ROW];
    row[0] = bddtrue;
    for (int j = 1; j < ROW; j++)
        row[j] = bddfalse;
    for (uint32_t i = 0; i < SWITCHES; i++) {
        BDD x = on(i);
        for (int j = ROW - 1; j >= 1; j--) {
            BDD more = both(x, row[j - 1]);
            row[j] = either(more, row[j]);
        }
    }
    return row[ROW - 1];
}

static uint32_t state;

static uint32_t roll(uint32_t sides) {
    state ^= state << 13;
    state ^= state >> 17;
    state ^= state << 5;
    return state % sides;
}

static BDD rule(void) {
    uint32_t kind = roll(3);
    BDD a = on(roll(SWITCHES));
    if (kind == 2) {
        uint32_t more = roll(3) + 1;
        for (uint32_t i = 0; i < more; i++) {
            BDD next = on(roll(SWITCHES));
            a = either(a, next);
        }
        return a;
    }
    BDD b = on(roll(SWITCHES));
    if (kind == 1)
        return not(both(a, b));
    return either(not(a), b);
}

static BDD rules(void) {
    BDD all = bddtrue;
    int kept = 0;
    state = 88675123;
    for (int i = 0; i < ATTEMPTS && kept < RULES; i++) {
        BDD next = both(all, rule());
        if (next != bddfalse) {
            all = next;
            kept++;
        }
    }
    return all;
}

static void release(void) {
    while (held > 0)
        bdd_delref(results[--held]);
    bdd_gbc();
}

static double now(void) {
    struct timespec t;
    clock_gettime(CLOCK_MONOTONIC, &t);
    return t.tv_sec + t.tv_nsec / 1e9;
}

static void show(const char *name, BDD (*work)(void), int rounds) {
    asked = 0;
    BDD answer = work();
    printf("%s: %lu operations, %d cells held, %d in the answer, %.0f configurations", name, asked, bdd_anodecount(results, held) + 2,
           bdd_nodecount(answer), bdd_satcount(answer));
    release();
    if (rounds > 0) {
        asked = 0;
        double working = 0;
        double start = now();
        for (int i = 0; i < rounds; i++) {
            double began = now();
            work();
            working += now() - began;
            release();
        }
        printf(", %.0f operations a second (%.0f without the release)", asked / (now() - start), asked / working);
    }
    printf("\n");
}

int main(int argc, char **argv) {
    int rounds = argc > 1 ? atoi(argv[1]) : 0;
    int nodes = argc > 2 ? atoi(argv[2]) : 100000;
    int cache = argc > 3 ? atoi(argv[3]) : 10000;
    each = argc > 4 && strcmp(argv[4], "each") == 0;
    bdd_init(nodes, cache);
    bdd_gbc_hook(NULL);
    bdd_setvarnum(SWITCHES);
    show("equivalences", equivalences, rounds);
    show("majority", majority, rounds);
    show("rules", rules, rounds);
    bdd_done();
    return 0;
}
