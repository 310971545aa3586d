/* The library's times beside those of plain C for the same jobs, and of glpk for the list: sheets of five marks in their stored form, the search for lists with
   either combinations, which may be covered and need not, lists that are checked, and PLA texts, one table.

   Each job is done on each sheet in every round, by each version in turn. Of a sheet the least processor time counts, so that what else runs on the
   machine shows little; mean and worst are over the sheets. All replies and all that was written are compared; glpk tells only the length of the list. */
#define _POSIX_C_SOURCE 199309L
#include "by_glpk.h"
#include "plain_seek.h"
#include "plain_vault.h"
#include <stdio.h>
#include <stdlib.h>
#include <string.h>
#include <time.h>

enum { CLASSES = 20000, HARD = 15, ROOMS = 4, PAIRS = 2000, HARD_PAIRS = 5, SHEETS = 500, TEXTS = 3, LINES = 1000000, VERSIONS = 4 };

struct form {
    uint32_t class, room; /* the room has the class and the either combinations */
    uint8_t bytes[VAULT_FORM_SIZE];
    size_t n;
    uint64_t c, seconds;
    const char *text; /* a PLA text, if there is one */
    size_t text_size;
    const uint8_t *list; /* a list that is checked, if there is one */
    size_t lines;
};

static struct form random_classes[CLASSES], hard[HARD], pairs[ROOMS * PAIRS], hard_pairs[HARD_PAIRS], texts[TEXTS], million;

typedef struct vault_reply job(const struct form *f, uint8_t *out);

/* The processor's time for this program. */
static double now(void)
{
    struct timespec t;
    clock_gettime(CLOCK_PROCESS_CPUTIME_ID, &t);
    return (double)t.tv_sec * 1e9 + (double)t.tv_nsec;
}

static uint32_t draw(void)
{
    static uint64_t state = 88172645463325252u;
    state ^= state << 13;
    state ^= state >> 7;
    state ^= state << 17;
    return (uint32_t)(state >> 16);
}

/* A random set of combinations. */
static uint32_t draw_set(double density)
{
    uint32_t bound = (uint32_t)(density * 4294967295.0), set = 0;
    for (int c = 0; c < 32; c++)
        set |= (uint32_t)(draw() <= bound) << c;
    return set;
}

/* ---- the sheets */

static void make(struct form *f, uint32_t class, uint32_t held)
{
    uint8_t *p = f->bytes;
    f->class = f->room = class;
    *p++ = 5;
    *p++ = (uint8_t)__builtin_popcount(class);
    *p++ = 0;
    for (int c = 0; c < 32; c++)
        if (class >> c & 1)
            *p++ = (uint8_t)c;
    *p++ = 0; /* no either combinations */
    *p++ = 0;
    *p++ = (uint8_t)__builtin_popcount(held);
    *p++ = 0;
    for (int c = 0; c < 32; c++)
        if (held >> c & 1) {
            uint32_t s = 1 + draw() % 100000000;
            *p++ = (uint8_t)c;
            for (int i = 0; i < 4; i++)
                *p++ = (uint8_t)(s >> 8 * i);
        }
    f->n = (size_t)(p - f->bytes);
    f->c = draw() % 32;
    f->seconds = 1 + draw() % VAULT_MOST_AMOUNT;
}

/* Random classes of densities 0.2 to 1, and those that a search for bad ones found. */
static void make_classes(void)
{
    static const uint32_t known[HARD] = {0xf66fdbbf, 0xb7eddbb7, 0xd7ebbdd7, 0xbe7ddbb7, 0xf99f9ffe, 0x9ff9f97f, 0xebd77eeb, 0x977f7fff,
                                         0xffffffff, 0xfffefffe, 0x69969669, 0x7f97ed7f, 0xffffbfff, 0xfddf6dda, 0xffd76bd6};
    for (int i = 0; i < CLASSES; i++) {
        uint32_t class = draw_set(0.2 + 0.8 * (i % SHEETS) / (SHEETS - 1));
        make(&random_classes[i], class, draw());
    }
    for (int i = 0; i < HARD; i++)
        make(&hard[i], known[i], 0);
}

/* Random rooms, of one density each row, with classes of several densities in them, and pairs that were hard for earlier searches. */
static void make_pairs(void)
{
    static const double room[ROOMS] = {0.5, 0.75, 0.9, 1}, class[4] = {0.25, 0.5, 0.75, 0.9};
    static const uint32_t known[HARD_PAIRS][2] = {
        {0x98866118, 0xbfd6e7ff}, {0x967d2dd2, 0x977f7fff}, {0x6ff63009, 0x6ff7ffbf}, {0xe7feaf76, 0xe7ffaff7}, {0x7ffbffdf, 0x7fffffdf}};
    for (int i = 0; i < ROOMS * PAIRS; i++) {
        pairs[i].room = draw_set(room[i / PAIRS]);
        pairs[i].class = pairs[i].room & draw_set(class[i % 4]);
    }
    for (int i = 0; i < HARD_PAIRS; i++) {
        hard_pairs[i].class = known[i][0];
        hard_pairs[i].room = known[i][1];
    }
}

/* PLA texts: every cube of five marks once, and then one of them again and again. */
static int make_texts(void)
{
    static const int cubes[TEXTS] = {243, 10000, 100000};
    for (int i = 0; i < TEXTS; i++) {
        size_t room = 32 + (size_t)cubes[i] * 8;
        char *text = malloc(room), *p = text;
        if (text == NULL)
            return 0;
        p += snprintf(p, room, ".i 5\n.o 1\n.p %d\n", cubes[i]);
        for (int k = 0; k < cubes[i]; k++, p += 8) {
            int b = i == 0 ? k : 121;
            for (int j = 5; j-- > 0; b /= 3)
                p[j] = "01-"[b % 3];
            memcpy(p + 5, " 1\n", 3);
        }
        memcpy(p, ".e\n", 3);
        texts[i].text = text;
        texts[i].text_size = (size_t)(p + 3 - text);
    }
    return 1;
}

/* Lists to check: for the first classes their own, and a million lines of which the last is none, so that all of them are passed. */
static void make_lists(void)
{
    static uint8_t own[SHEETS][VAULT_LIST_SIZE], many[LINES];
    for (int i = 0; i < SHEETS; i++) {
        struct form *f = &random_classes[i];
        f->list = own[i];
        f->lines = (size_t)vault_list(f->bytes, f->n, own[i], VAULT_LIST_SIZE).value;
    }
    for (int i = 0; i < LINES; i++)
        many[i] = (uint8_t)(i % VAULT_MOST_LINES);
    many[LINES - 1] = VAULT_MOST_LINES;
    make(&million, 0xffffffff, 0);
    million.list = many;
    million.lines = LINES;
}

/* ---- the jobs: by the library, by plain C in the same steps, by plain C that keeps no numbers, by glpk */

/* crates/seek_c: a slice is a pointer and a length */
size_t seek_shortest(size_t marks, uint32_t need, uint32_t room, uint8_t *area, size_t length);

static struct vault_reply value(size_t n)
{
    struct vault_reply r = {VAULT_DONE, 0, n};
    return r;
}

/* Fault and place in one number, to be compared. */
static struct vault_reply verdict(struct vault_verdict v)
{
    struct vault_reply r = {v.answer, v.place, v.at * 8 + v.fault};
    return r;
}

#define JOB(name, call) \
    static struct vault_reply name(const struct form *f, uint8_t *out) { return (void)out, call; }
JOB(list, vault_list(f->bytes, f->n, out, VAULT_LIST_SIZE))
JOB(list_s, tables_list(f->bytes, f->n, out, VAULT_LIST_SIZE))
JOB(list_p, plain_list(f->bytes, f->n, out, VAULT_LIST_SIZE))
#ifdef GLPK
JOB(list_g, value(glpk_length(f->class)))
#else
#define list_g NULL
#endif
JOB(search, value(seek_shortest(5, f->class, f->room, out, VAULT_LIST_SIZE)))
JOB(search_s, value(plain_shortest(5, f->class, f->room, out, &(uint64_t){0}) + 1)) /* as the library's tells it */
JOB(receive, vault_receive(f->bytes, f->n, f->c, f->seconds, out, VAULT_FORM_SIZE))
JOB(receive_s, tables_receive(f->bytes, f->n, f->c, f->seconds, out, VAULT_FORM_SIZE))
JOB(receive_p, plain_receive(f->bytes, f->n, f->c, f->seconds, out, VAULT_FORM_SIZE))
JOB(total, vault_total(f->bytes, f->n))
JOB(total_s, tables_total(f->bytes, f->n))
JOB(total_p, plain_total(f->bytes, f->n))
JOB(size, vault_class_size(f->bytes, f->n))
JOB(size_s, tables_class_size(f->bytes, f->n))
JOB(size_p, plain_class_size(f->bytes, f->n))
JOB(copy, vault_copy(f->bytes, f->n, out, VAULT_FORM_SIZE))
JOB(copy_s, tables_copy(f->bytes, f->n, out, VAULT_FORM_SIZE))
JOB(copy_p, plain_copy(f->bytes, f->n, out, VAULT_FORM_SIZE))
JOB(check, verdict(vault_check_list(f->bytes, f->n, f->list, f->lines)))
JOB(check_s, verdict(tables_check_list(f->bytes, f->n, f->list, f->lines)))
JOB(check_p, verdict(plain_check_list(f->bytes, f->n, f->list, f->lines)))
JOB(pla_write, vault_write_pla(f->bytes, f->n, out, VAULT_PLA_SIZE))
JOB(pla_write_s, tables_write_pla(f->bytes, f->n, out, VAULT_PLA_SIZE))
JOB(pla_write_p, plain_write_pla(f->bytes, f->n, out, VAULT_PLA_SIZE))
JOB(pla_read, vault_read_pla(f->text, f->text_size, out, VAULT_FORM_SIZE))
JOB(pla_read_s, tables_read_pla(f->text, f->text_size, out, VAULT_FORM_SIZE))
JOB(pla_read_p, plain_read_pla(f->text, f->text_size, out, VAULT_FORM_SIZE))

#define MS 1e6
#define US 1e3
#define A_BYTE 0
#define A_LINE (-1)

struct row {
    const char *name;
    double unit; /* in nanoseconds; A_BYTE: nanoseconds for each byte of the text; A_LINE: for each line of the list */
    const struct form *forms;
    int n, rounds, times; /* how often a job is done on a sheet in a row, before the next sheet */
    job *jobs[VERSIONS];
};

static const struct row rows[] = {
    {"list, 20,000 random classes, ms", MS, random_classes, CLASSES, 5, 1, {list, list_s, list_p, list_g}},
    {"list, 15 hard classes, ms", MS, hard, HARD, 100, 1, {list, list_s, list_p, list_g}},
    {"with either, room 1/2, ms", MS, pairs, PAIRS, 5, 1, {search, search_s, NULL, NULL}},
    {"with either, room 3/4, ms", MS, &pairs[PAIRS], PAIRS, 5, 1, {search, search_s, NULL, NULL}},
    {"with either, room 9/10, ms", MS, &pairs[2 * PAIRS], PAIRS, 5, 1, {search, search_s, NULL, NULL}},
    {"with either, room all, ms", MS, &pairs[3 * PAIRS], PAIRS, 5, 1, {search, search_s, NULL, NULL}},
    {"with either, 5 hard pairs, ms", MS, hard_pairs, HARD_PAIRS, 100, 1, {search, search_s, NULL, NULL}},
    {"one change (receive), us", US, random_classes, SHEETS, 10, 100, {receive, receive_s, receive_p, NULL}},
    {"total, us", US, random_classes, SHEETS, 10, 100, {total, total_s, total_p, NULL}},
    {"class size, us", US, random_classes, SHEETS, 10, 100, {size, size_s, size_p, NULL}},
    {"read and write (copy), us", US, random_classes, SHEETS, 10, 100, {copy, copy_s, copy_p, NULL}},
    {"check of a list that fits, us", US, random_classes, SHEETS, 10, 100, {check, check_s, check_p, NULL}},
    {"check of a million, ns a line", A_LINE, &million, 1, 50, 1, {check, check_s, check_p, NULL}},
    {"list as PLA, 500 classes, ms", MS, random_classes, SHEETS, 10, 1, {pla_write, pla_write_s, pla_write_p, NULL}},
    {"PLA of 243 cubes, us", US, &texts[0], 1, 100, 10, {pla_read, pla_read_s, pla_read_p, NULL}},
    {"    the same, ns a byte", A_BYTE, &texts[0], 1, 100, 10, {pla_read, pla_read_s, pla_read_p, NULL}},
    {"PLA of 10,000 cubes, ns a byte", A_BYTE, &texts[1], 1, 50, 1, {pla_read, pla_read_s, pla_read_p, NULL}},
    {"PLA of 100,000 cubes, ns a byte", A_BYTE, &texts[2], 1, 20, 1, {pla_read, pla_read_s, pla_read_p, NULL}},
};

/* ---- the table */

/* How many replies, or areas, are not the library's; glpk's areas do not count. */
static int differ(const struct row *r, int v)
{
    int wrong = 0;
    for (int i = 0; r->jobs[v] != NULL && i < r->n; i++) {
        uint8_t x[VAULT_FORM_SIZE] = {0}, y[VAULT_FORM_SIZE] = {0};
        struct vault_reply a = r->jobs[0](&r->forms[i], x), b = r->jobs[v](&r->forms[i], y);
        wrong += a.answer != b.answer || a.place != b.place || a.value != b.value || (v < 3 && memcmp(x, y, sizeof x) != 0);
    }
    return wrong;
}

/* In units. */
static double once(job *j, const struct form *f, int times, double unit)
{
    uint8_t out[VAULT_FORM_SIZE];
    double from = now();
    for (int i = 0; i < times; i++)
        j(f, out);
    return (now() - from) / times / (unit == A_BYTE ? (double)f->text_size : unit == A_LINE ? (double)f->lines : unit);
}

/* Prints the row, and returns how much differed. */
static int measure(const struct row *r)
{
    static double least[VERSIONS][CLASSES];
    double library = 0;
    int wrong = 0;
    for (int k = 0; k < r->rounds; k++)
        for (int v = 0; v < VERSIONS; v++)
            for (int i = 0; r->jobs[v] != NULL && i < r->n; i++) {
                double took = once(r->jobs[v], &r->forms[i], r->times, r->unit);
                least[v][i] = k == 0 || took < least[v][i] ? took : least[v][i];
            }
    printf("%-33s", r->name);
    for (int v = 0; v < VERSIONS; v++) {
        double sum = 0, worst = 0;
        for (int i = 0; r->jobs[v] != NULL && i < r->n; i++) {
            sum += least[v][i];
            worst = least[v][i] > worst ? least[v][i] : worst;
        }
        if (v == 0)
            printf("%8.3f%8.3f", (library = sum) / r->n, worst);
        else if (r->jobs[v] != NULL)
            printf("%10.3f%8.3f%7.2f", sum / r->n, worst, library / sum);
        else
            printf("%10s%8s%7s", "-", "-", "-");
        wrong += differ(r, v);
    }
    printf("\n");
    if (wrong != 0)
        printf("    %d replies DIFFER\n", wrong);
    return wrong;
}

/* The search of plain C counts them; it lays the same boxes as the library's. */
static void boxes_laid(const char *name, const struct form *f, int n)
{
    uint64_t sum = 0, most = 0;
    const struct form *worst = f;
    for (int i = 0; i < n; i++) {
        uint8_t out[VAULT_LIST_SIZE];
        uint64_t laid = 0;
        plain_shortest(5, f[i].class, f[i].room, out, &laid);
        sum += laid;
        worst = laid > most ? &f[i] : worst;
        most = laid > most ? laid : most;
    }
    printf("boxes laid by the search, %s: %.0f on average, %llu at most (class %08x, room %08x)\n", name, (double)sum / n, (unsigned long long)most,
           worst->class, worst->room);
}

int main(void)
{
    int wrong = 0;
    make_classes();
    make_pairs();
    make_lists();
    if (!make_texts()) {
        fprintf(stderr, "no memory\n");
        return 1;
    }
    printf("%-33s%16s%25s%25s%25s\n", "", "library", "C, same steps", "C, no numbers kept", "glpk, length only");
    printf("%-33s%8s%8s", "", "mean", "worst");
    for (int v = 1; v < VERSIONS; v++)
        printf("%10s%8s%7s", "mean", "worst", "ratio");
    printf("\n");
    for (size_t i = 0; i < sizeof rows / sizeof *rows; i++)
        wrong += measure(&rows[i]);
    boxes_laid("random classes", random_classes, CLASSES);
    boxes_laid("hard classes", hard, HARD);
    boxes_laid("random pairs with either", pairs, ROOMS * PAIRS);
    boxes_laid("hard pairs with either", hard_pairs, HARD_PAIRS);
    return wrong != 0;
}
