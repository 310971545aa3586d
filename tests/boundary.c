/* Every entry at its limits, through vault.h: each answer that it can give, areas of every length around the one that is needed, empty areas with
   a null pointer and without, numbers above 2^32, guard bytes around what is lent, the known sheets, sheets with either combinations, carrier profiles of
   every one and every two groups, old forms, lists with every fault at every place, every beginning of a running time with every byte behind it, PLA texts
   line by line and byte by byte, and calls from threads with small stacks.
   Prints the first that failed and the number of checks; the exit status is 0 only if none failed. */
#define _DEFAULT_SOURCE
#include "vault.h"
#include <pthread.h>
#include <stdio.h>
#include <stdlib.h>
#include <string.h>
#include <sys/mman.h>
#include <unistd.h>

static int checks, faults;

static void check(int good, const char *what, long which)
{
    checks++;
    if (!good && faults++ < 50) /* a fault may show in a million checks */
        printf("FAILED: %s (%ld)\n", what, which);
}

static int is(struct vault_reply r, uint64_t answer, uint64_t place, uint64_t value)
{
    return r.answer == answer && r.place == place && r.value == value;
}

/* ---- an area between guard bytes */

enum { GUARD = 64, ROOM = 300 };

struct area {
    uint8_t bytes[GUARD + ROOM + GUARD], was[GUARD + ROOM + GUARD];
    uint8_t *p;
    size_t n;
};

static struct area *lent(size_t n)
{
    static struct area a;
    static uint8_t salt;
    salt++;
    for (size_t i = 0; i < sizeof a.bytes; i++)
        a.bytes[i] = (uint8_t)(i * 7 + salt);
    memcpy(a.was, a.bytes, sizeof a.bytes);
    a.p = a.bytes + GUARD;
    a.n = n;
    return &a;
}

static int untouched(const struct area *a)
{
    return memcmp(a->bytes, a->was, sizeof a->bytes) == 0;
}

/* Exactly these bytes at the front, and nothing else anywhere. */
static int holds(struct area *a, const uint8_t *want, size_t n)
{
    memcpy(a->was + GUARD, want, n);
    return untouched(a);
}

/* ---- the calls that write, as one */

enum entry { OPEN, OPEN_PROFILE, ENTER, LEAVE, MAKE_EITHER, RECEIVE, WITHDRAW, COPY, LIST, WRITE_PLA, READ_PLA, FROM_FORM1 };
static const char *const names[] = {"vault_open",        "vault_open_profile", "vault_enter",    "vault_leave",
                                    "vault_make_either", "vault_receive",      "vault_withdraw", "vault_copy",
                                    "vault_list",        "vault_write_pla",    "vault_read_pla", "vault_from_form1"};

/* What is lent to be read is a sheet, or the groups of a profile, or a text; x is the combination, or the marks. */
struct call {
    enum entry entry;
    const uint8_t *sheet;
    size_t size;
    uint64_t x, y;
};

static struct vault_reply made(const struct call *c, uint8_t *out, size_t n)
{
    switch (c->entry) {
    case OPEN: return vault_open(c->x, out, n);
    case OPEN_PROFILE: return vault_open_profile(c->x, c->sheet, c->size, out, n);
    case ENTER: return vault_enter(c->sheet, c->size, c->x, out, n);
    case LEAVE: return vault_leave(c->sheet, c->size, c->x, out, n);
    case MAKE_EITHER: return vault_make_either(c->sheet, c->size, c->x, out, n);
    case RECEIVE: return vault_receive(c->sheet, c->size, c->x, c->y, out, n);
    case WITHDRAW: return vault_withdraw(c->sheet, c->size, c->x, c->y, out, n);
    case COPY: return vault_copy(c->sheet, c->size, out, n);
    case LIST: return vault_list(c->sheet, c->size, out, n);
    case WRITE_PLA: return vault_write_pla(c->sheet, c->size, out, n);
    case READ_PLA: return vault_read_pla(c->sheet, c->size, out, n);
    default: return vault_from_form1(c->sheet, c->size, out, n);
    }
}

/* A call that writes `want` into every area of at least `needs` bytes, and is answered 5 with every shorter one. */
static void writes(struct call c, const uint8_t *want, size_t n, size_t needs)
{
    for (size_t room = 0; room <= ROOM; room++) {
        struct area *a = lent(room);
        struct vault_reply r = made(&c, a->p, a->n);
        int good = room < needs ? is(r, VAULT_ROOM, 0, 0) && untouched(a) : is(r, VAULT_DONE, 0, n) && holds(a, want, n);
        check(good, names[c.entry], (long)room);
    }
    check(is(made(&c, NULL, 0), VAULT_ROOM, 0, 0), names[c.entry], -1);
}

/* A call that is refused with every area, also with none. */
static void refuses(struct call c, uint64_t answer, uint64_t place)
{
    for (size_t room = 0; room <= ROOM; room++) {
        struct area *a = lent(room);
        check(is(made(&c, a->p, a->n), answer, place, 0) && untouched(a), names[c.entry], (long)room);
    }
    check(is(made(&c, NULL, 0), answer, place, 0), names[c.entry], -1);
}

/* ---- sheets */

/* Whether a line contains a combination, by its digits from the lowest mark up. */
static int has(uint64_t marks, uint64_t b, uint64_t c)
{
    int in = 1;
    for (uint64_t i = 0; i < marks; i++, b /= 3, c /= 2)
        in = in && (b % 3 == 2 || b % 3 == c % 2);
    return in;
}

/* A section of combinations, its count in front, and where the next one begins. */
static size_t section(uint8_t *form, size_t n, uint32_t set)
{
    size_t from = n;
    n += 2;
    for (int c = 0; c < 32; c++)
        if (set >> c & 1)
            form[n++] = (uint8_t)c;
    form[from] = (uint8_t)(n - from - 2);
    form[from + 1] = 0;
    return n;
}

/* The form of a sheet that holds nothing; and of one without either combinations. */
static size_t drawn_with(uint8_t form[VAULT_FORM_SIZE], uint64_t marks, uint32_t class, uint32_t either)
{
    form[0] = (uint8_t)marks;
    return section(form, section(form, section(form, 1, class), either), 0);
}

static size_t drawn(uint8_t form[VAULT_FORM_SIZE], uint64_t marks, uint32_t class)
{
    return drawn_with(form, marks, class, 0);
}

/* The sample sheet: class 1, 2, 3 of two marks; 240, 150 and 600 seconds under 0, 1 and 3. And its old form, without a section of either combinations. */
static const uint8_t sample[] = {2, 3, 0, 1, 2, 3, 0, 0, 3, 0, 0, 0xf0, 0, 0, 0, 1, 0x96, 0, 0, 0, 3, 0x58, 2, 0, 0};
static const uint8_t sample1[] = {2, 3, 0, 1, 2, 3, 3, 0, 0, 0xf0, 0, 0, 0, 1, 0x96, 0, 0, 0, 3, 0x58, 2, 0, 0};

/* Every standing, of two marks: 1 is in, 3 either, 0 and 2 out; 240 and 150 seconds under 0 and 1. */
static const uint8_t mixed[] = {2, 1, 0, 1, 1, 0, 3, 2, 0, 0, 0xf0, 0, 0, 0, 1, 0x96, 0, 0, 0};

/* Under a profile: a can has one of the marks 0, 1 and 2, nitrate, acetate and polyester, so that 0, 3, 5, 6 and 7 are either. As it is opened; with nitrate
   in the class; with nitrate and acetate there; that with 240 seconds under nitrate; and with polyester either. */
static const uint8_t carriers[] = {3, 0, 0, 5, 0, 0, 3, 5, 6, 7, 0, 0, 1, 0, 7};
static const uint8_t nitrate[] = {3, 1, 0, 1, 5, 0, 0, 3, 5, 6, 7, 0, 0, 1, 0, 7};
static const uint8_t two[] = {3, 2, 0, 1, 2, 5, 0, 0, 3, 5, 6, 7, 0, 0, 1, 0, 7};
static const uint8_t stocked[] = {3, 2, 0, 1, 2, 5, 0, 0, 3, 5, 6, 7, 1, 0, 1, 0xf0, 0, 0, 0, 1, 0, 7};
static const uint8_t no_polyester[] = {3, 2, 0, 1, 2, 6, 0, 0, 3, 4, 5, 6, 7, 0, 0, 1, 0, 7};

/* Under two groups, as it is opened: one of the marks 0 and 1, and one of 2 and 3, so that all are either but 5, 6, 9 and 10. */
static const uint8_t paired[] = {4, 0, 0, 12, 0, 0, 1, 2, 3, 4, 7, 8, 11, 12, 13, 14, 15, 0, 0, 2, 0, 3, 12};

/* One mark, nothing in; 4,000,000,000 and 3,999,964,001 seconds under 1; and the first with 0 either. */
static const uint8_t full[] = {1, 0, 0, 0, 0, 1, 0, 1, 0x00, 0x28, 0x6b, 0xee};
static const uint8_t nearly[] = {1, 0, 0, 0, 0, 1, 0, 1, 0x61, 0x9b, 0x6a, 0xee};
static const uint8_t full_either[] = {1, 0, 0, 1, 0, 0, 1, 0, 1, 0x00, 0x28, 0x6b, 0xee};

/* Combinations that no sheet of two marks has. */
static const uint64_t above[] = {4, 5, 255, 256, UINT64_C(0x100000000), UINT64_C(0x100000002), UINT64_MAX};

static void opening(void)
{
    for (uint64_t m = 1; m <= 5; m++) {
        uint8_t want[7] = {(uint8_t)m, 0, 0, 0, 0, 0, 0};
        writes((struct call){OPEN, NULL, 0, m, 0}, want, 7, 7);
    }
    static const uint64_t wrong[] = {0, 6, 255, 256 + 1, UINT64_C(0x100000001), UINT64_C(0x8000000000000001), UINT64_MAX};
    for (size_t i = 0; i < sizeof wrong / sizeof *wrong; i++)
        refuses((struct call){OPEN, NULL, 0, wrong[i], 0}, VAULT_MARKS, 0);
}

static void class_changes(void)
{
    static const uint8_t in0[] = {2, 4, 0, 0, 1, 2, 3, 0, 0, 3, 0, 0, 0xf0, 0, 0, 0, 1, 0x96, 0, 0, 0, 3, 0x58, 2, 0, 0};
    static const uint8_t out2[] = {2, 2, 0, 1, 3, 0, 0, 3, 0, 0, 0xf0, 0, 0, 0, 1, 0x96, 0, 0, 0, 3, 0x58, 2, 0, 0};
    writes((struct call){ENTER, sample, sizeof sample, 0, 0}, in0, sizeof in0, sizeof in0);
    writes((struct call){LEAVE, sample, sizeof sample, 2, 0}, out2, sizeof out2, sizeof out2);
    for (uint64_t c = 1; c <= 3; c++)
        refuses((struct call){ENTER, sample, sizeof sample, c, 0}, VAULT_STANDING, 0);
    refuses((struct call){LEAVE, sample, sizeof sample, 0, 0}, VAULT_STANDING, 0);
    for (size_t i = 0; i < sizeof above / sizeof *above; i++) {
        refuses((struct call){ENTER, sample, sizeof sample, above[i], 0}, VAULT_COMBINATION, 0);
        refuses((struct call){LEAVE, sample, sizeof sample, above[i], 0}, VAULT_COMBINATION, 0);
    }
}

/* From each standing to the two others, and no further. */
static void either_changes(void)
{
    static const uint8_t in_to_either[] = {2, 2, 0, 1, 3, 1, 0, 2, 3, 0, 0, 0xf0, 0, 0, 0, 1, 0x96, 0, 0, 0, 3, 0x58, 2, 0, 0};
    static const uint8_t out_to_either[] = {2, 1, 0, 1, 2, 0, 2, 3, 2, 0, 0, 0xf0, 0, 0, 0, 1, 0x96, 0, 0, 0};
    static const uint8_t either_to_in[] = {2, 2, 0, 1, 3, 0, 0, 2, 0, 0, 0xf0, 0, 0, 0, 1, 0x96, 0, 0, 0};
    static const uint8_t either_to_out[] = {2, 1, 0, 1, 0, 0, 2, 0, 0, 0xf0, 0, 0, 0, 1, 0x96, 0, 0, 0};
    static const uint8_t both[] = {1, 0, 0, 2, 0, 0, 1, 0, 0}, one[] = {1, 0, 0, 1, 0, 1, 0, 0}, in_one[] = {1, 1, 0, 0, 1, 0, 1, 0, 0};
    writes((struct call){MAKE_EITHER, sample, sizeof sample, 2, 0}, in_to_either, sizeof in_to_either, sizeof in_to_either);
    writes((struct call){MAKE_EITHER, mixed, sizeof mixed, 2, 0}, out_to_either, sizeof out_to_either, sizeof out_to_either);
    writes((struct call){ENTER, mixed, sizeof mixed, 3, 0}, either_to_in, sizeof either_to_in, sizeof either_to_in);
    writes((struct call){LEAVE, mixed, sizeof mixed, 3, 0}, either_to_out, sizeof either_to_out, sizeof either_to_out);
    writes((struct call){ENTER, in_to_either, sizeof in_to_either, 2, 0}, sample, sizeof sample, sizeof sample);
    writes((struct call){LEAVE, out_to_either, sizeof out_to_either, 2, 0}, mixed, sizeof mixed, sizeof mixed);
    writes((struct call){MAKE_EITHER, one, sizeof one, 0, 0}, both, sizeof both, sizeof both);
    writes((struct call){LEAVE, both, sizeof both, 0, 0}, one, sizeof one, sizeof one);
    writes((struct call){ENTER, both, sizeof both, 0, 0}, in_one, sizeof in_one, sizeof in_one);
    /* the standing already had; what holds seconds, be it in the class or out; no combination */
    refuses((struct call){MAKE_EITHER, mixed, sizeof mixed, 3, 0}, VAULT_STANDING, 0);
    refuses((struct call){MAKE_EITHER, both, sizeof both, 1, 0}, VAULT_STANDING, 0);
    refuses((struct call){ENTER, mixed, sizeof mixed, 1, 0}, VAULT_STANDING, 0);
    refuses((struct call){LEAVE, mixed, sizeof mixed, 2, 0}, VAULT_STANDING, 0);
    refuses((struct call){MAKE_EITHER, mixed, sizeof mixed, 0, 0}, VAULT_EITHER, 0);
    refuses((struct call){MAKE_EITHER, mixed, sizeof mixed, 1, 0}, VAULT_EITHER, 0);
    refuses((struct call){MAKE_EITHER, sample, sizeof sample, 3, 0}, VAULT_EITHER, 0);
    refuses((struct call){MAKE_EITHER, full, sizeof full, 1, 0}, VAULT_EITHER, 0);
    for (size_t i = 0; i < sizeof above / sizeof *above; i++)
        refuses((struct call){MAKE_EITHER, mixed, sizeof mixed, above[i], 0}, VAULT_COMBINATION, 0);
    check(VAULT_EITHER == 12, "the number of an either combination", VAULT_EITHER);
}

/* No time comes to an either combination: after 2 and 4, before 8. */
static void either_movements(void)
{
    static const uint64_t wrong[] = {0, 36000, UINT64_C(0x100000001), UINT64_MAX};
    for (size_t i = 0; i < sizeof wrong / sizeof *wrong; i++) {
        refuses((struct call){RECEIVE, mixed, sizeof mixed, 3, wrong[i]}, VAULT_AMOUNT, 0);
        refuses((struct call){WITHDRAW, mixed, sizeof mixed, 3, wrong[i]}, VAULT_AMOUNT, 0);
        refuses((struct call){RECEIVE, full_either, sizeof full_either, 0, wrong[i]}, VAULT_AMOUNT, 0);
    }
    refuses((struct call){RECEIVE, mixed, sizeof mixed, 3, 1}, VAULT_EITHER, 0);
    refuses((struct call){RECEIVE, mixed, sizeof mixed, 3, 35999}, VAULT_EITHER, 0);
    refuses((struct call){RECEIVE, mixed, sizeof mixed, 7, 1}, VAULT_COMBINATION, 0);
    refuses((struct call){RECEIVE, full_either, sizeof full_either, 0, 1}, VAULT_EITHER, 0);
    refuses((struct call){RECEIVE, full_either, sizeof full_either, 1, 1}, VAULT_ABOVE, 0);
    refuses((struct call){RECEIVE, full_either, sizeof full_either, 2, 1}, VAULT_COMBINATION, 0);
    refuses((struct call){WITHDRAW, mixed, sizeof mixed, 3, 1}, VAULT_BELOW, 0);
    refuses((struct call){WITHDRAW, mixed, sizeof mixed, 3, 35999}, VAULT_BELOW, 0);
}

static void movements(void)
{
    static const uint8_t more[] = {2, 3, 0, 1, 2, 3, 0, 0, 3, 0, 0, 0xf0, 0, 0, 0, 1, 0x96, 0, 0, 0, 3, 0x59, 2, 0, 0};
    static const uint8_t most[] = {2, 3, 0, 1, 2, 3, 0, 0, 4, 0, 0, 0xf0, 0, 0, 0, 1, 0x96, 0, 0, 0, 2, 0x9f, 0x8c, 0, 0, 3, 0x58, 2, 0, 0};
    static const uint8_t less[] = {2, 3, 0, 1, 2, 3, 0, 0, 3, 0, 0, 0xef, 0, 0, 0, 1, 0x96, 0, 0, 0, 3, 0x58, 2, 0, 0};
    static const uint8_t none[] = {2, 3, 0, 1, 2, 3, 0, 0, 2, 0, 0, 0xf0, 0, 0, 0, 3, 0x58, 2, 0, 0};
    static const uint64_t wrong[] = {0, 36000, 65536 + 1, UINT64_C(0x100000001), UINT64_C(0x8000000000000001), UINT64_MAX};
    writes((struct call){RECEIVE, sample, sizeof sample, 3, 1}, more, sizeof more, sizeof more);
    writes((struct call){RECEIVE, sample, sizeof sample, 2, 35999}, most, sizeof most, sizeof most);
    writes((struct call){WITHDRAW, sample, sizeof sample, 0, 1}, less, sizeof less, sizeof less);
    writes((struct call){WITHDRAW, sample, sizeof sample, 1, 150}, none, sizeof none, sizeof none);
    refuses((struct call){WITHDRAW, sample, sizeof sample, 1, 151}, VAULT_BELOW, 0);
    refuses((struct call){WITHDRAW, sample, sizeof sample, 2, 1}, VAULT_BELOW, 0);
    for (enum entry e = RECEIVE; e <= WITHDRAW; e++) {
        for (size_t i = 0; i < sizeof wrong / sizeof *wrong; i++)
            refuses((struct call){e, sample, sizeof sample, 1, wrong[i]}, VAULT_AMOUNT, 0);
        refuses((struct call){e, sample, sizeof sample, 4, 0}, VAULT_COMBINATION, 0);
        refuses((struct call){e, sample, sizeof sample, UINT64_C(0x100000001), 1}, VAULT_COMBINATION, 0);
    }
    /* the limit on held seconds: reached, and one second more */
    writes((struct call){RECEIVE, nearly, sizeof nearly, 1, 35999}, full, sizeof full, sizeof full);
    refuses((struct call){RECEIVE, full, sizeof full, 1, 1}, VAULT_ABOVE, 0);
    refuses((struct call){RECEIVE, full, sizeof full, 0, 35999}, VAULT_ABOVE, 0);
}

/* Bytes that are no sheet, and what reading them answers. */
struct bad {
    uint8_t bytes[20];
    size_t n;
    uint64_t answer, place;
};

/* No entry that reads a sheet reads these, whatever else it is given. */
static void unreadable_sheets(const struct bad *bad, size_t rows)
{
    for (size_t i = 0; i < rows; i++) {
        const uint8_t *t = bad[i].bytes;
        size_t n = bad[i].n;
        for (enum entry e = ENTER; e <= WRITE_PLA; e++)
            refuses((struct call){e, t, n, 99, 0}, bad[i].answer, bad[i].place);
        check(is(vault_class_size(t, n), bad[i].answer, bad[i].place, 0), "vault_class_size refuses", (long)i);
        check(is(vault_total(t, n), bad[i].answer, bad[i].place, 0), "vault_total refuses", (long)i);
        check(is(vault_outside(t, n, 0), bad[i].answer, bad[i].place, 0), "vault_outside refuses", (long)i);
        check(is(vault_either(t, n, 0), bad[i].answer, bad[i].place, 0), "vault_either refuses", (long)i);
        check(is(vault_held(t, n, 0), bad[i].answer, bad[i].place, 0), "vault_held refuses", (long)i);
        struct vault_verdict v = vault_check_list(t, n, sample, sizeof sample);
        check(v.answer == bad[i].answer && v.place == bad[i].place && v.fault == 0 && v.at == 0, "vault_check_list refuses", (long)i);
    }
}

static void reading(void)
{
    static const struct bad bad[] = {
        {{0}, 0, 10, 0},
        {{0}, 1, 1, 0},
        {{6, 0, 0, 0, 0, 0, 0}, 7, 1, 0},
        {{1}, 1, 10, 1},
        /* the class */
        {{1, 0}, 2, 10, 2},
        {{1, 3, 0}, 3, 10, 1},
        {{1, 3}, 2, 10, 2},
        {{1, 0, 1}, 3, 10, 1},
        {{1, 1, 0}, 3, 10, 3},
        {{1, 1, 0, 2}, 4, 10, 3},
        {{1, 2, 0, 1, 1}, 5, 10, 4},
        {{1, 2, 0, 1, 0, 0, 0, 0, 0}, 9, 10, 4},
        /* the either combinations */
        {{1, 0, 0}, 3, 10, 3},
        {{1, 0, 0, 1}, 4, 10, 4},
        {{1, 0, 0, 3}, 4, 10, 4},
        {{1, 0, 0, 3, 0}, 5, 10, 3},
        {{1, 0, 0, 0, 1}, 5, 10, 3},
        {{1, 0, 0, 1, 0}, 5, 10, 5},
        {{1, 0, 0, 1, 0, 2}, 6, 10, 5},
        {{1, 0, 0, 2, 0, 1, 1}, 7, 10, 6},
        {{1, 0, 0, 2, 0, 1, 0}, 7, 10, 6},
        {{1, 0, 0, 2, 0, 0}, 6, 10, 6},
        /* one that is in the class: the first, a later one; before what is missing behind it */
        {{1, 1, 0, 0, 1, 0, 0}, 7, 10, 6},
        {{1, 1, 0, 1, 1, 0, 1, 0, 0}, 9, 10, 6},
        {{1, 1, 0, 1, 2, 0, 0, 1, 0, 0}, 10, 10, 7},
        {{1, 1, 0, 0, 2, 0, 0}, 7, 10, 6},
        {{1, 2, 0, 0, 1, 1, 0, 0}, 8, 10, 7},
        {{2, 1, 0, 2, 2, 0, 1, 2}, 8, 10, 7},
        {{2, 2, 0, 0, 3, 2, 0, 1, 3, 0, 0}, 11, 10, 8},
        {{2, 1, 0, 2, 3, 0, 0, 1, 2, 0, 0}, 11, 10, 8},
        /* what is held */
        {{1, 0, 0, 0, 0}, 5, 10, 5},
        {{1, 0, 0, 0, 0, 0}, 6, 10, 6},
        {{1, 0, 0, 0, 0, 3, 0}, 7, 10, 5},
        {{1, 0, 0, 0, 0, 0, 1}, 7, 10, 5},
        {{1, 0, 0, 0, 0, 1, 0}, 7, 10, 7},
        {{1, 0, 0, 0, 0, 1, 0, 2}, 8, 10, 7},
        {{1, 0, 0, 0, 0, 1, 0, 1, 1, 0, 0}, 11, 10, 11},
        {{1, 0, 0, 0, 0, 1, 0, 1, 0, 0, 0, 0}, 12, 10, 8},
        {{1, 0, 0, 0, 0, 2, 0, 0, 0, 0, 0, 0}, 12, 10, 8},
        {{1, 0, 0, 0, 0, 1, 0, 1, 1, 0x28, 0x6b, 0xee}, 12, 10, 8},
        {{1, 0, 0, 0, 0, 2, 0, 0, 1, 0, 0, 0, 1, 0x00, 0x28, 0x6b, 0xee}, 17, 10, 13},
        {{1, 0, 0, 0, 0, 2, 0, 1, 1, 0, 0, 0, 1, 1, 0, 0, 0}, 17, 10, 12},
        /* one that is either: at the combination, whatever its seconds are, and before they are there */
        {{1, 0, 0, 1, 0, 1, 1, 0, 1, 1, 0, 0, 0}, 13, 10, 8},
        {{1, 0, 0, 1, 0, 1, 1, 0, 1, 0, 0, 0, 0}, 13, 10, 8},
        {{1, 0, 0, 1, 0, 1, 1, 0, 1}, 9, 10, 8},
        {{1, 0, 0, 1, 0, 1, 2, 0, 0, 5, 0, 0, 0, 1, 1, 0, 0, 0}, 18, 10, 13},
        {{1, 0, 0, 2, 0, 0, 1, 1, 0, 0, 1, 0, 0, 0}, 14, 10, 9},
        {{2, 1, 0, 2, 1, 0, 0, 1, 0, 0, 1, 0, 0, 0}, 14, 10, 9},
    };
    unreadable_sheets(bad, sizeof bad / sizeof *bad);
    for (enum entry e = ENTER; e <= FROM_FORM1; e++)
        refuses((struct call){e, NULL, 0, 0, 1}, VAULT_UNREADABLE, 0);
    for (size_t n = 0; n < sizeof sample; n++)
        check(is(vault_total(sample, n), VAULT_UNREADABLE, n, 0), "a sheet that ends early", (long)n);
    for (size_t n = 0; n < sizeof mixed; n++)
        check(is(vault_either(mixed, n, 0), VAULT_UNREADABLE, n, 0), "a sheet with either combinations that ends early", (long)n);
    check(is(vault_total(NULL, 0), VAULT_UNREADABLE, 0, 0) && is(vault_class_size(NULL, 0), VAULT_UNREADABLE, 0, 0) &&
              is(vault_outside(NULL, 0, 0), VAULT_UNREADABLE, 0, 0) && is(vault_either(NULL, 0, 0), VAULT_UNREADABLE, 0, 0) &&
              is(vault_held(NULL, 0, 0), VAULT_UNREADABLE, 0, 0),
          "no sheet", 0);
}

/* The section of what is held: a second more than its number under each combination of a set. */
static size_t held_section(uint8_t *form, size_t n, uint32_t set)
{
    size_t from = n;
    n += 2;
    for (int c = 0; c < 32; c++)
        if (set >> c & 1) {
            form[n++] = (uint8_t)c;
            form[n++] = (uint8_t)(c + 1);
            form[n++] = 0;
            form[n++] = 0;
            form[n++] = 0;
        }
    form[from] = (uint8_t)((n - from - 2) / 5);
    form[from + 1] = 0;
    return n;
}

/* The longest form: all in the class, all held; and the longest old one, which is the same sheet. */
static size_t longest(uint8_t form[VAULT_FORM_SIZE])
{
    form[0] = 5;
    return held_section(form, section(form, section(form, 1, 0xffffffff), 0), 0xffffffff);
}

static size_t longest1(uint8_t form[VAULT_FORM1_SIZE])
{
    form[0] = 5;
    return held_section(form, section(form, 1, 0xffffffff), 0xffffffff);
}

/* Three standings by turns, five marks: 0, 3, .. are in, 1, 4, .. either, 2, 5, .. out; and something held under each that is not either. */
enum { THIRD = 0x49249249 };

static size_t thirds(uint8_t form[VAULT_FORM_SIZE])
{
    form[0] = 5;
    uint32_t either = (uint32_t)THIRD << 1;
    return held_section(form, section(form, section(form, 1, THIRD), either), ~either);
}

static void copying(void)
{
    uint8_t form[VAULT_FORM_SIZE];
    size_t n = longest(form);
    check(n == 199 && n <= VAULT_FORM_SIZE, "the longest form", (long)n);
    writes((struct call){COPY, form, n, 0, 0}, form, n, n);
    writes((struct call){COPY, sample, sizeof sample, 0, 0}, sample, sizeof sample, sizeof sample);
    writes((struct call){COPY, mixed, sizeof mixed, 0, 0}, mixed, sizeof mixed, sizeof mixed);
    writes((struct call){COPY, full, sizeof full, 0, 0}, full, sizeof full, sizeof full);
    writes((struct call){COPY, full_either, sizeof full_either, 0, 0}, full_either, sizeof full_either, sizeof full_either);
    check(is(vault_class_size(form, n), VAULT_DONE, 0, 32), "its class", 0);
    check(is(vault_total(form, n), VAULT_DONE, 0, 528), "its total", 0);
    n = drawn_with(form, 5, 0, 0xffffffff);
    writes((struct call){COPY, form, n, 0, 0}, form, n, n);
    check(is(vault_class_size(form, n), VAULT_DONE, 0, 0) && is(vault_total(form, n), VAULT_DONE, 0, 0), "all either: nothing in the class", 0);
    n = thirds(form);
    writes((struct call){COPY, form, n, 0, 0}, form, n, n);
    /* 0, 3, .., 30: eleven of them, which hold 1 + 4 + .. + 31 seconds */
    check(is(vault_class_size(form, n), VAULT_DONE, 0, 11) && is(vault_total(form, n), VAULT_DONE, 0, 176), "every standing by turns", 0);
}

/* ---- old forms */

/* The bytes of an old form, to today's form, which these are. */
static void converts(const uint8_t *old, size_t size, const uint8_t *want, size_t n)
{
    writes((struct call){FROM_FORM1, old, size, 0, 0}, want, n, n);
    check(n == size + 2, "today's form has two bytes more", (long)size);
}

/* All that may be wrong with an old form, at its offset there. */
static void faulty_old_forms(void)
{
    static const struct bad bad[] = {
        {{0}, 0, 10, 0},
        {{0}, 1, 1, 0},
        {{6, 0, 0, 0, 0}, 5, 1, 0},
        {{255, 0, 0, 0, 0}, 5, 1, 0},
        {{1}, 1, 10, 1},
        {{1, 0}, 2, 10, 2},
        {{1, 3, 0}, 3, 10, 1},
        {{1, 3}, 2, 10, 2},
        {{1, 0, 1}, 3, 10, 1},
        {{1, 1, 0}, 3, 10, 3},
        {{1, 1, 0, 2}, 4, 10, 3},
        {{1, 2, 0, 1, 1}, 5, 10, 4},
        {{1, 2, 0, 1, 0, 0, 0}, 7, 10, 4},
        {{1, 0, 0}, 3, 10, 3},
        {{1, 0, 0, 1}, 4, 10, 4},
        {{1, 0, 0, 3, 0}, 5, 10, 3},
        {{1, 0, 0, 0, 1}, 5, 10, 3},
        {{1, 0, 0, 1, 0}, 5, 10, 5},
        {{1, 0, 0, 1, 0, 2}, 6, 10, 5},
        {{1, 0, 0, 1, 0, 1, 1, 0, 0}, 9, 10, 9},
        {{1, 0, 0, 1, 0, 1, 0, 0, 0, 0}, 10, 10, 6},
        {{1, 0, 0, 2, 0, 0, 0, 0, 0, 0}, 10, 10, 6},
        {{1, 0, 0, 1, 0, 1, 1, 0x28, 0x6b, 0xee}, 10, 10, 6},
        {{1, 0, 0, 2, 0, 0, 1, 0, 0, 0, 1, 0x00, 0x28, 0x6b, 0xee}, 15, 10, 11},
        {{1, 0, 0, 2, 0, 1, 1, 0, 0, 0, 1, 1, 0, 0, 0}, 15, 10, 10},
        {{1, 0, 0, 0, 0, 0}, 6, 10, 5},
        /* an opened sheet in today's form has two bytes left over; one with 0 either has a held combination whose seconds end early */
        {{1, 0, 0, 0, 0, 0, 0}, 7, 10, 5},
        {{1, 0, 0, 1, 0, 0, 0, 0}, 8, 10, 8},
    };
    for (size_t i = 0; i < sizeof bad / sizeof *bad; i++)
        refuses((struct call){FROM_FORM1, bad[i].bytes, bad[i].n, 0, 0}, bad[i].answer, bad[i].place);
    for (size_t n = 0; n < sizeof sample1; n++)
        refuses((struct call){FROM_FORM1, sample1, n, 0, 0}, VAULT_UNREADABLE, n);
}

static void old_forms(void)
{
    static const uint8_t full1[] = {1, 0, 0, 1, 0, 1, 0x00, 0x28, 0x6b, 0xee};
    /* both an old form and today's: 131,585 seconds under 0, or 0, 1 and 2 either; and in each a second under 3 and one under 4 */
    static const uint8_t both[] = {3, 0, 0, 3, 0, 0, 1, 2, 2, 0, 3, 1, 0, 0, 0, 4, 1, 0, 0, 0};
    static const uint8_t both_now[] = {3, 0, 0, 0, 0, 3, 0, 0, 1, 2, 2, 0, 3, 1, 0, 0, 0, 4, 1, 0, 0, 0};
    uint8_t old[VAULT_FORM1_SIZE + 1], form[VAULT_FORM_SIZE];
    for (uint8_t m = 1; m <= 5; m++)
        converts((const uint8_t[]){m, 0, 0, 0, 0}, 5, (const uint8_t[]){m, 0, 0, 0, 0, 0, 0}, 7);
    converts(sample1, sizeof sample1, sample, sizeof sample);
    converts(full1, sizeof full1, full, sizeof full);
    size_t n = longest1(old);
    check(n == VAULT_FORM1_SIZE, "the longest old form", (long)n);
    converts(old, n, form, longest(form));
    old[n] = 0;
    refuses((struct call){FROM_FORM1, old, n + 1, 0, 0}, VAULT_UNREADABLE, n);
    converts(both, sizeof both, both_now, sizeof both_now);
    writes((struct call){COPY, both, sizeof both, 0, 0}, both, sizeof both, sizeof both);
    check(is(vault_held(both, sizeof both, 26), VAULT_DONE, 0, 2) && is(vault_either(both, sizeof both, 26), VAULT_DONE, 0, 3), "today's form", 0);
    check(is(vault_held(both_now, sizeof both_now, 26), VAULT_DONE, 0, 131587), "the old form of the same bytes", 0);
    faulty_old_forms();
    /* neither reading takes the other's sheets: an either combination 240; bytes left over; seconds above the limit */
    refuses((struct call){COPY, sample1, sizeof sample1, 0, 0}, VAULT_UNREADABLE, 9);
    refuses((struct call){FROM_FORM1, sample, sizeof sample, 0, 0}, VAULT_UNREADABLE, 8);
    refuses((struct call){FROM_FORM1, mixed, sizeof mixed, 0, 0}, VAULT_UNREADABLE, 7);
}

static void listing(void)
{
    static const struct {
        uint64_t marks;
        int size;
        uint8_t class[32];
        size_t lines;
        uint8_t list[8];
    } known[] = {
        {1, 0, {0}, 0, {0}},
        {1, 1, {0}, 1, {0}},
        {1, 2, {0, 1}, 1, {2}},
        {2, 2, {0, 3}, 2, {0, 4}},
        {2, 3, {0, 1, 2}, 2, {2, 3}},
        {2, 3, {1, 2, 3}, 2, {1, 5}},
        {2, 4, {0, 1, 2, 3}, 1, {8}},
        {3, 4, {1, 2, 4, 7}, 4, {1, 3, 9, 13}},
        {3, 6, {1, 2, 3, 4, 5, 6}, 3, {7, 21, 11}},
        {5, 32, {0, 1, 2, 3, 4, 5, 6, 7, 8, 9, 10, 11, 12, 13, 14, 15, 16, 17, 18, 19, 20, 21, 22, 23, 24, 25, 26, 27, 28, 29, 30, 31}, 1, {242}},
        {5, 15, {5, 6, 7, 10, 11, 12, 13, 18, 19, 22, 23, 26, 27, 28, 30}, 6, {10, 14, 194, 38, 104, 123}},
    };
    for (size_t i = 0; i < sizeof known / sizeof *known; i++) {
        uint8_t form[2][VAULT_FORM_SIZE];
        size_t n = (size_t)vault_open(known[i].marks, form[0], VAULT_FORM_SIZE).value;
        int now = 0;
        for (int k = 0; k < known[i].size; k++, now = !now)
            n = (size_t)vault_enter(form[now], n, known[i].class[k], form[!now], VAULT_FORM_SIZE).value;
        writes((struct call){LIST, form[now], n, 0, 0}, known[i].list, known[i].lines, VAULT_LIST_ROOM(known[i].marks));
        check(is(vault_class_size(form[now], n), VAULT_DONE, 0, (uint64_t)known[i].size), "class size", (long)i);
        check(is(vault_total(form[now], n), VAULT_DONE, 0, 0), "nothing held", (long)i);
    }
}

/* Lists of sheets with either combinations, worked out by hand. A line has such a combination only where that makes the list shorter: a line of more
   combinations has a larger number. */
static void listing_either(void)
{
    static const struct {
        uint64_t marks;
        uint32_t class, either;
        size_t lines;
        uint8_t list[4];
    } known[] = {
        {1, 0x1, 0x2, 1, {0}},
        {1, 0x2, 0x1, 1, {1}},
        {1, 0x0, 0x3, 0, {0}},
        {2, 0x2, 0x8, 1, {1}},
        {2, 0xe, 0x1, 1, {8}},
        {2, 0x9, 0x2, 2, {0, 4}},
        {2, 0x9, 0x6, 1, {8}},
        {2, 0x6, 0x1, 2, {1, 3}},
        {2, 0x6, 0x9, 1, {8}},
        /* 001 and --0, in this order: the lowest combination of --0 in the class is 2, though it has 0 too */
        {3, 0x56, 0x01, 2, {1, 24}},
        /* one of three carriers: that it is the first or the second is one line, --0 */
        {3, 0x14, 0xe9, 1, {24}},
        {3, 0x96, 0x69, 1, {26}},
        {3, 0x16, 0x01, 3, {1, 3, 9}},
        /* 1 to 6, with 0, with 7, and with both */
        {3, 0x7e, 0x01, 3, {7, 21, 11}},
        {3, 0x7e, 0x80, 3, {1, 5, 17}},
        {3, 0x7e, 0x81, 1, {26}},
        {5, 0x00000001, 0xfffffffe, 1, {0}},
        {5, 0x80000000, 0x7fffffff, 1, {121}},
        {5, 0x80000001, 0x7ffffffe, 1, {242}},
        {5, 0x00000000, 0xffffffff, 0, {0}},
        /* 000's function that is not defined everywhere: 001-1, 01100, 1---0, 10011, as many lines as there */
        {5, 0x544c10a0, 0xa333c31f, 4, {16, 36, 159, 85}},
    };
    uint8_t form[VAULT_FORM_SIZE];
    for (size_t i = 0; i < sizeof known / sizeof *known; i++) {
        size_t n = drawn_with(form, known[i].marks, known[i].class, known[i].either);
        writes((struct call){LIST, form, n, 0, 0}, known[i].list, known[i].lines, VAULT_LIST_ROOM(known[i].marks));
        check(vault_check_list(form, n, known[i].list, known[i].lines).fault == VAULT_FITS, "it fits", (long)i);
    }
    writes((struct call){LIST, mixed, sizeof mixed, 0, 0}, (const uint8_t[]){1}, 1, 2);
}

/* The kept numbers of every line of a sheet with every standing, by the digits of its number. */
static void lines_of_thirds(void)
{
    uint8_t form[VAULT_FORM_SIZE];
    size_t n = thirds(form);
    for (uint64_t b = 0; b < VAULT_LINES(5); b++) {
        uint64_t outside = 0, either = 0, held = 0;
        for (uint64_t c = 0; c < 32; c++) {
            outside += has(5, b, c) && c % 3 == 2;
            either += has(5, b, c) && c % 3 == 1;
            held += has(5, b, c) && c % 3 != 1 ? c + 1 : 0;
        }
        check(is(vault_outside(form, n, b), VAULT_DONE, 0, outside), "vault_outside of every standing", (long)b);
        check(is(vault_either(form, n, b), VAULT_DONE, 0, either), "vault_either of every standing", (long)b);
        check(is(vault_held(form, n, b), VAULT_DONE, 0, held), "vault_held of every standing", (long)b);
    }
}

/* Of the sheet of two marks with every standing, written out. */
static void lines_of_mixed(void)
{
    static const uint64_t outside[9] = {1, 0, 1, 1, 0, 1, 2, 0, 2}, either[9] = {0, 0, 0, 0, 1, 1, 0, 1, 1};
    static const uint64_t held[9] = {240, 150, 390, 0, 0, 0, 240, 150, 390};
    for (uint64_t b = 0; b < VAULT_LINES(2); b++) {
        check(is(vault_outside(mixed, sizeof mixed, b), VAULT_DONE, 0, outside[b]), "vault_outside of two marks", (long)b);
        check(is(vault_either(mixed, sizeof mixed, b), VAULT_DONE, 0, either[b]), "vault_either of two marks", (long)b);
        check(is(vault_held(mixed, sizeof mixed, b), VAULT_DONE, 0, held[b]), "vault_held of two marks", (long)b);
        check(is(vault_either(sample, sizeof sample, b), VAULT_DONE, 0, 0), "vault_either of the sample", (long)b);
    }
    check(is(vault_class_size(mixed, sizeof mixed), VAULT_DONE, 0, 1), "its class", 0);
    check(is(vault_total(mixed, sizeof mixed), VAULT_DONE, 0, 150), "its total", 0);
}

/* The kept numbers of every line, by the digits of its number; and 0 for a number that is no line. */
static void lines(void)
{
    uint8_t form[VAULT_FORM_SIZE];
    size_t n = longest(form);
    for (uint64_t b = 0; b < VAULT_LINES(5); b++) {
        uint64_t held = 0;
        for (uint64_t c = 0; c < 32; c++)
            held += has(5, b, c) ? c + 1 : 0;
        check(is(vault_held(form, n, b), VAULT_DONE, 0, held), "vault_held", (long)b);
        check(is(vault_outside(form, n, b), VAULT_DONE, 0, 0), "vault_outside", (long)b);
        check(is(vault_either(form, n, b), VAULT_DONE, 0, 0), "vault_either", (long)b);
    }
    lines_of_thirds();
    lines_of_mixed();
    static const uint64_t outside[9] = {1, 0, 1, 0, 0, 0, 1, 0, 1}, held[9] = {240, 150, 390, 0, 600, 600, 240, 750, 990};
    for (uint64_t b = 0; b < VAULT_LINES(2); b++) {
        check(is(vault_outside(sample, sizeof sample, b), VAULT_DONE, 0, outside[b]), "vault_outside of the sample", (long)b);
        check(is(vault_held(sample, sizeof sample, b), VAULT_DONE, 0, held[b]), "vault_held of the sample", (long)b);
    }
    static const uint64_t beyond[] = {9, 10, 80, 242, 243, 255, 256, 4096, UINT64_C(0x100000000), UINT64_C(0x100000008), UINT64_MAX};
    for (size_t i = 0; i < sizeof beyond / sizeof *beyond; i++) {
        check(is(vault_outside(sample, sizeof sample, beyond[i]), VAULT_DONE, 0, 0), "no line", (long)i);
        check(is(vault_held(sample, sizeof sample, beyond[i]), VAULT_DONE, 0, 0), "no line", (long)i);
        check(is(vault_either(mixed, sizeof mixed, beyond[i]), VAULT_DONE, 0, 0), "no line", (long)i);
    }
    check(is(vault_class_size(sample, sizeof sample), VAULT_DONE, 0, 3), "class size of the sample", 0);
    check(is(vault_total(sample, sizeof sample), VAULT_DONE, 0, 750), "total of the sample", 0);
    check(VAULT_LINES(1) == 3 && VAULT_LINES(3) == 27 && VAULT_LINES(4) == 81 && VAULT_LINES(5) == VAULT_MOST_LINES, "VAULT_LINES", 0);
}

static void comparing(void)
{
    static const uint8_t a[] = {1, 5}, b[] = {2, 3}, c[] = {1, 5, 0}, d[] = {1, 255};
    check(is(vault_before(a, 2, b, 2), 0, 0, 0) && is(vault_before(b, 2, a, 2), 0, 0, 1), "first difference", 0);
    check(is(vault_before(a, 2, c, 3), 0, 0, 0) && is(vault_before(c, 3, a, 2), 0, 0, 1), "a beginning", 0);
    check(is(vault_before(b, 2, c, 3), 0, 0, 0) && is(vault_before(c, 3, b, 2), 0, 0, 1), "fewer lines", 0);
    check(is(vault_before(a, 2, d, 2), 0, 0, 0) && is(vault_before(d, 2, a, 2), 0, 0, 1), "second place", 0);
    check(is(vault_before(a, 2, a, 2), 0, 0, 0) && is(vault_before(a, 2, c, 2), 0, 0, 0), "equal", 0);
    check(is(vault_before(NULL, 0, a, 2), 0, 0, 0) && is(vault_before(a, 2, NULL, 0), 0, 0, 1), "an empty list", 0);
    check(is(vault_before(NULL, 0, NULL, 0), 0, 0, 0) && is(vault_before(a, 0, NULL, 0), 0, 0, 0), "two empty lists", 0);
}

/* ---- lists that others drew */

/* The combinations of each line, a bit for each; none of a number that is no line. */
static uint32_t sets[VAULT_MOST_MARKS + 1][256];

static void fill_sets(void)
{
    for (uint64_t m = 1; m <= VAULT_MOST_MARKS; m++)
        for (uint64_t b = 0; b < VAULT_LINES(m); b++)
            for (uint64_t c = 0; c < VAULT_COMBINATIONS(m); c++)
                sets[m][b] |= (uint32_t)has(m, b, c) << c;
}

static int judged(struct vault_verdict v, uint64_t answer, uint64_t place, uint64_t fault, uint64_t at)
{
    return v.answer == answer && v.place == place && v.fault == fault && v.at == at;
}

/* What is wrong with a short list, from the rules: fault by fault, and every two lines for themselves. */
static struct vault_verdict recounted(uint64_t marks, uint32_t class, uint32_t either, const uint8_t *list, size_t n)
{
    const uint32_t *set = sets[marks];
    uint32_t covered = 0;
    for (size_t i = 0; i < n; i++)
        if (list[i] >= VAULT_LINES(marks))
            return (struct vault_verdict){VAULT_DONE, 0, VAULT_NO_BOX, i};
    for (size_t i = 0; i < n; i++)
        for (size_t j = 0; j < i; j++)
            if ((set[list[i]] & set[list[j]]) != 0)
                return (struct vault_verdict){VAULT_DONE, 0, VAULT_OVERLAP, i};
    for (size_t i = 0; i < n; i++)
        if ((set[list[i]] & ~(class | either)) != 0)
            return (struct vault_verdict){VAULT_DONE, 0, VAULT_LEAVES, i};
    for (size_t i = 0; i < n; i++)
        covered |= set[list[i]];
    for (uint64_t c = 0; c < VAULT_COMBINATIONS(marks); c++)
        if ((class & ~covered) >> c & 1)
            return (struct vault_verdict){VAULT_DONE, 0, VAULT_UNCOVERED, c};
    return (struct vault_verdict){VAULT_DONE, 0, VAULT_FITS, 0};
}

/* The verdict on a list of up to ROOM lines, which stands between guard bytes. List and sheet stay as they are. */
static struct vault_verdict verdict(const uint8_t *form, size_t size, const uint8_t *list, size_t n)
{
    uint8_t was[ROOM];
    struct area *a = lent(n);
    memcpy(a->p, list, n);
    memcpy(was, form, size);
    struct vault_verdict v = vault_check_list(form, size, a->p, n);
    check(holds(a, list, n) && memcmp(was, form, size) == 0, "list and sheet stay", (long)n);
    return v;
}

/* A list of a class is told as it is recounted, with either combinations and without. */
static void recount_with(uint64_t marks, uint32_t class, uint32_t either, const uint8_t *list, size_t n, const char *what)
{
    uint8_t form[VAULT_FORM_SIZE];
    size_t size = drawn_with(form, marks, class, either);
    struct vault_verdict v = verdict(form, size, list, n), want = recounted(marks, class, either, list, n);
    check(judged(v, VAULT_DONE, 0, want.fault, want.at), what, (long)class);
}

static void recount(uint64_t marks, uint32_t class, const uint8_t *list, size_t n, const char *what)
{
    recount_with(marks, class, 0, list, n, what);
}

/* The rows say what is meant; each is recounted too. */
static void known_lists(void)
{
    static const struct {
        uint64_t marks;
        uint32_t class;
        size_t n;
        uint8_t list[8];
        uint64_t fault, at;
    } t[] = {
        /* the kind first, then the place */
        {2, 0xe, 3, {5, 5, 9}, VAULT_NO_BOX, 2},
        {2, 0xe, 4, {9, 5, 5, 255}, VAULT_NO_BOX, 0},
        {2, 0xe, 3, {0, 1, 1}, VAULT_OVERLAP, 2},
        {2, 0xe, 3, {8, 0, 1}, VAULT_OVERLAP, 1},
        {2, 0xe, 2, {5, 0}, VAULT_LEAVES, 1},
        {2, 0xe, 1, {0}, VAULT_LEAVES, 0},
        {2, 0xe, 1, {5}, VAULT_UNCOVERED, 1},
        {2, 0xe, 1, {1}, VAULT_UNCOVERED, 2},
        /* in any order, and longer than need be */
        {2, 0xe, 2, {1, 5}, VAULT_FITS, 0},
        {2, 0xe, 2, {5, 1}, VAULT_FITS, 0},
        {2, 0xe, 2, {3, 7}, VAULT_FITS, 0},
        {2, 0xe, 3, {4, 3, 1}, VAULT_FITS, 0},
        {2, 0xe, 2, {7, 5}, VAULT_OVERLAP, 1},
        {2, 0xe, 3, {4, 3, 3}, VAULT_OVERLAP, 2},
        {2, 0xf, 1, {8}, VAULT_FITS, 0},
        {2, 0xf, 4, {4, 1, 3, 0}, VAULT_FITS, 0},
        {2, 0xf, 4, {4, 1, 3, 8}, VAULT_OVERLAP, 3},
        /* the later of the two, though the earlier is the one that leaves the class; two that do not stand side by side */
        {2, 0xe, 2, {8, 1}, VAULT_OVERLAP, 1},
        {2, 0xf, 3, {2, 3, 1}, VAULT_OVERLAP, 2},
        {3, 0xff, 4, {6, 10, 18, 13}, VAULT_OVERLAP, 2},
        /* none */
        {1, 0, 0, {0}, VAULT_FITS, 0},
        {5, 0, 0, {0}, VAULT_FITS, 0},
        {1, 2, 0, {0}, VAULT_UNCOVERED, 1},
        {5, 0x80000000, 0, {0}, VAULT_UNCOVERED, 31},
        {5, 0xffffffff, 0, {0}, VAULT_UNCOVERED, 0},
        {1, 0, 1, {0}, VAULT_LEAVES, 0},
        {1, 0, 1, {3}, VAULT_NO_BOX, 0},
        /* the first function of 000 by its own list, and by one line of it less */
        {5, 0x5ccc3ce0, 6, {10, 14, 194, 38, 104, 123}, VAULT_FITS, 0},
        {5, 0x5ccc3ce0, 5, {123, 104, 194, 14, 10}, VAULT_UNCOVERED, 12},
        {5, 0xffffffff, 1, {242}, VAULT_FITS, 0},
        {5, 0xffffffff, 1, {243}, VAULT_NO_BOX, 0},
        {5, 0xfffffffe, 1, {242}, VAULT_LEAVES, 0},
        {5, 0x7fffffff, 1, {242}, VAULT_LEAVES, 0},
    };
    for (size_t i = 0; i < sizeof t / sizeof *t; i++) {
        uint8_t form[VAULT_FORM_SIZE];
        size_t size = drawn(form, t[i].marks, t[i].class);
        check(judged(verdict(form, size, t[i].list, t[i].n), VAULT_DONE, 0, t[i].fault, t[i].at), "a known list", (long)i);
        recount(t[i].marks, t[i].class, t[i].list, t[i].n, "a known list recounted");
    }
    check(judged(vault_check_list(sample, sizeof sample, NULL, 0), VAULT_DONE, 0, VAULT_UNCOVERED, 1), "no list", 0);
    check(judged(vault_check_list(full, sizeof full, NULL, 0), VAULT_DONE, 0, VAULT_FITS, 0), "no list, and an empty class", 0);
    check(judged(vault_check_list(sample, sizeof sample, (const uint8_t[]){5, 1}, 2), VAULT_DONE, 0, VAULT_FITS, 0), "what is held does not count", 0);
    check(judged(vault_check_list(sample, sizeof sample, sample, sizeof sample), VAULT_DONE, 0, VAULT_NO_BOX, 11), "a sheet is its own list", 0);
}

/* The same of sheets with either combinations, which no two lines may share. */
static void known_lists_with_either(void)
{
    static const struct {
        uint64_t marks;
        uint32_t class, either;
        size_t n;
        uint8_t list[4];
        uint64_t fault, at;
    } t[] = {
        /* 1 is in, 3 either: with it, without it, by itself; twice is a fault, and alone it does not do */
        {2, 0x2, 0x8, 1, {1}, VAULT_FITS, 0},
        {2, 0x2, 0x8, 1, {7}, VAULT_FITS, 0},
        {2, 0x2, 0x8, 2, {1, 4}, VAULT_FITS, 0},
        {2, 0x2, 0x8, 2, {4, 1}, VAULT_FITS, 0},
        {2, 0x2, 0x8, 2, {7, 4}, VAULT_OVERLAP, 1},
        {2, 0x2, 0x8, 2, {4, 7}, VAULT_OVERLAP, 1},
        {2, 0x2, 0x8, 3, {1, 4, 4}, VAULT_OVERLAP, 2},
        {2, 0x2, 0x8, 1, {4}, VAULT_UNCOVERED, 1},
        {2, 0x2, 0x8, 0, {0}, VAULT_UNCOVERED, 1},
        {2, 0x2, 0x8, 2, {1, 5}, VAULT_LEAVES, 1},
        {2, 0x2, 0x8, 1, {8}, VAULT_LEAVES, 0},
        {2, 0x2, 0x8, 2, {4, 9}, VAULT_NO_BOX, 1},
        /* all are either: any lines that are apart */
        {2, 0x0, 0xf, 0, {0}, VAULT_FITS, 0},
        {2, 0x0, 0xf, 1, {8}, VAULT_FITS, 0},
        {2, 0x0, 0xf, 2, {0, 4}, VAULT_FITS, 0},
        {2, 0x0, 0xf, 2, {8, 0}, VAULT_OVERLAP, 1},
        /* 0 is either: in a line, or not, but not in two */
        {2, 0xe, 0x1, 1, {8}, VAULT_FITS, 0},
        {2, 0xe, 0x1, 2, {1, 5}, VAULT_FITS, 0},
        {2, 0xe, 0x1, 2, {6, 7}, VAULT_FITS, 0},
        {2, 0xe, 0x1, 3, {2, 6, 4}, VAULT_OVERLAP, 1},
        {2, 0xe, 0x1, 1, {2}, VAULT_UNCOVERED, 2},
        /* one of three carriers, not the third */
        {3, 0x14, 0xe9, 1, {24}, VAULT_FITS, 0},
        {3, 0x14, 0xe9, 2, {24, 22}, VAULT_FITS, 0},
        {3, 0x14, 0xe9, 2, {9, 3}, VAULT_FITS, 0},
        {3, 0x14, 0xe9, 1, {26}, VAULT_LEAVES, 0},
        {3, 0x14, 0xe9, 1, {22}, VAULT_UNCOVERED, 2},
        {5, 0x00000001, 0x7ffffffe, 1, {242}, VAULT_LEAVES, 0},
        {5, 0x00000001, 0xfffffffe, 1, {242}, VAULT_FITS, 0},
    };
    for (size_t i = 0; i < sizeof t / sizeof *t; i++) {
        uint8_t form[VAULT_FORM_SIZE];
        size_t size = drawn_with(form, t[i].marks, t[i].class, t[i].either);
        check(judged(verdict(form, size, t[i].list, t[i].n), VAULT_DONE, 0, t[i].fault, t[i].at), "a known list with either combinations", (long)i);
        recount_with(t[i].marks, t[i].class, t[i].either, t[i].list, t[i].n, "and recounted");
    }
    check(judged(vault_check_list(mixed, sizeof mixed, NULL, 0), VAULT_DONE, 0, VAULT_UNCOVERED, 1), "no list, and an either combination", 0);
}

/* Every list of up to so many lines, each one of n values, for a sheet. */
static void every_list_of(uint64_t marks, uint32_t class, uint32_t either, const uint8_t *values, size_t n, size_t most)
{
    for (size_t k = 0, lists = 1; k <= most; k++, lists *= n)
        for (size_t number = 0; number < lists; number++) {
            uint8_t list[8];
            for (size_t i = 0, x = number; i < k; i++, x /= n)
                list[i] = values[x % n];
            recount_with(marks, class, either, list, k, "every list");
        }
}

/* Every class of the marks, with every set of either combinations beside it that is within these. */
static void every_list(uint64_t marks, uint32_t within, const uint8_t *values, size_t n, size_t most)
{
    uint32_t sheets = UINT32_C(1) << VAULT_COMBINATIONS(marks);
    for (uint32_t class = 0; class < sheets; class++)
        for (uint32_t either = 0; either < sheets; either++)
            if ((either & class) == 0 && (either & ~within) == 0)
                every_list_of(marks, class, either, values, n, most);
}

/* Every byte value by itself, in front of a line and behind it: with the class that the line makes, a combination less, one more, none and all. */
static void every_value(uint64_t marks)
{
    uint32_t all = (uint32_t)((UINT64_C(1) << VAULT_COMBINATIONS(marks)) - 1);
    for (uint32_t b = 0; b < 256; b++) {
        uint32_t own = sets[marks][b];
        uint32_t classes[] = {own, own & (own - 1), own & (own >> 1), own | ((own << 1) & all), ~own & all, 0, all};
        for (size_t i = 0; i < sizeof classes / sizeof *classes; i++) {
            uint8_t list[] = {0, (uint8_t)b, (uint8_t)(VAULT_LINES(marks) - 2)};
            recount(marks, classes[i], list + 1, 1, "every value");
            recount(marks, classes[i], list, 2, "every value behind a line");
            recount(marks, classes[i], list + 1, 2, "every value before a line");
            recount(marks, classes[i], list, 3, "every value between lines");
            recount_with(marks, classes[i] & own, ~classes[i] & own, list + 1, 1, "every value, some of it either");
            recount_with(marks, classes[i] & ~own, own, list, 3, "every value, all of it either");
        }
    }
}

/* Every two lines, with the class that they make: they fit, or overlap at 1. Then with a line between them, which may overlap either. */
static void every_two(uint64_t marks)
{
    for (uint32_t a = 0; a < VAULT_LINES(marks); a++)
        for (uint32_t b = 0; b < VAULT_LINES(marks); b++) {
            uint8_t form[VAULT_FORM_SIZE], list[] = {(uint8_t)a, (uint8_t)b};
            uint8_t three[] = {(uint8_t)a, (uint8_t)((a * 5 + b * 7) % VAULT_LINES(marks)), (uint8_t)b};
            uint32_t class = sets[marks][a] | sets[marks][b];
            int apart = (sets[marks][a] & sets[marks][b]) == 0;
            struct vault_verdict v = verdict(form, drawn(form, marks, class), list, 2);
            check(judged(v, VAULT_DONE, 0, apart ? VAULT_FITS : VAULT_OVERLAP, apart ? 0 : 1), "two lines", (long)(a * 243 + b));
            recount(marks, class, three, 3, "three lines");
            recount_with(marks, sets[marks][b] & ~sets[marks][a], sets[marks][a], list, 2, "two lines, the first of them either");
            recount_with(marks, sets[marks][a], class & ~sets[marks][a], three, 3, "three lines, and the last of them either");
        }
}

/* Ten lines of a combination each, and two faults put among them, at every two places: the one whose kind comes first is told, wherever it stands. */
static void two_faults(void)
{
    enum { LINES = 10 };
    static const uint8_t numbers[] = {0, 1, 3, 4, 9, 10, 12, 13, 27, 28}; /* the lines of 0 to 9 alone */
    static const uint8_t wrong[][2] = {{243, 255}, {12, 10}, {242, 229}, {81, 121}}; /* no boxes; the same as two of the ten; all; outside */
    static const uint32_t classes[] = {0x3ff, 0xffff, 0xc000ffff, 0x3fe, 0};
    for (size_t k = 0; k < sizeof classes / sizeof *classes; k++)
        for (size_t kinds = 0; kinds < 4 * 4 * 4; kinds++)
            for (size_t places = 0; places < (LINES + 1) * (LINES + 2); places++) {
                size_t p = places % (LINES + 1), q = places / (LINES + 1), n = LINES;
                uint8_t list[LINES + 2];
                memcpy(list, numbers, LINES);
                memmove(list + p + 1, list + p, n++ - p);
                list[p] = wrong[kinds / 16][kinds % 2];
                memmove(list + q + 1, list + q, n++ - q);
                list[q] = wrong[kinds / 4 % 4][kinds / 2 % 2];
                recount(5, classes[k], list, n, "two faults");
                recount(5, classes[k], list, n - 1, "two faults, and the last line gone");
                recount(5, classes[k], list + 1, n - 1, "two faults, and the first line gone");
            }
}

/* The lines of all single combinations, upwards or downwards. */
static void singles(uint64_t marks, int down, uint8_t *list)
{
    uint32_t size = VAULT_COMBINATIONS(marks);
    for (uint32_t b = 0; b < VAULT_LINES(marks); b++)
        for (uint32_t c = 0; c < size; c++)
            if (sets[marks][b] == UINT32_C(1) << c)
                list[down ? size - 1 - c : c] = (uint8_t)b;
}

/* They fit; each two that are gone are told, each one that is there twice, each that is outside the class, and each line behind them all. */
static void every_gap(uint64_t marks, int down)
{
    uint8_t list[VAULT_MOST_COMBINATIONS + 1], other[VAULT_MOST_COMBINATIONS];
    uint32_t size = VAULT_COMBINATIONS(marks), all = (uint32_t)((UINT64_C(1) << size) - 1);
    singles(marks, down, list);
    recount(marks, all, list, size, "all combinations");
    for (uint32_t i = 0; i < size; i++)
        for (uint32_t j = i; j < size; j++) {
            uint32_t n = 0;
            for (uint32_t k = 0; k < size; k++)
                if (k != i && k != j)
                    other[n++] = list[k];
            recount(marks, all, other, n, "two combinations left out");
            memcpy(other, list, size);
            other[j] = list[i];
            recount(marks, all, other, size, "a combination twice");
            recount(marks, all & ~(UINT32_C(1) << i | UINT32_C(1) << j), list, size, "two combinations outside");
            recount_with(marks, all & ~(UINT32_C(1) << i), UINT32_C(1) << i, other, size, "a combination twice, and either");
        }
    for (uint32_t b = 0; b < 256; b++) {
        list[size] = (uint8_t)b;
        recount(marks, all, list, size + 1, "a line behind them all");
    }
}

/* A long list, all of one line but for one number: alone it says where that stands, whatever the length. */
static void long_lists(void)
{
    enum { LONG = 1000000 };
    static const size_t lengths[] = {33, 243, 244, 255, 256, 257, 512, 65535, 65536, 65537, 131072, LONG};
    uint8_t form[VAULT_FORM_SIZE], *list = malloc(LONG);
    if (list == NULL) {
        printf("no memory\n");
        exit(2);
    }
    for (uint64_t m = 1; m <= 5; m++) {
        size_t size = drawn(form, m, 1);
        uint8_t beyond = (uint8_t)VAULT_LINES(m);
        memset(list, 0, LONG);
        for (size_t i = 0; i < sizeof lengths / sizeof *lengths; i++) {
            size_t n = lengths[i], places[] = {0, 1, n / 2, n - 2, n - 1};
            check(judged(vault_check_list(form, size, list, n), VAULT_DONE, 0, VAULT_OVERLAP, 1), "one line, many times", (long)n);
            for (size_t k = 0; k < sizeof places / sizeof *places; k++) {
                list[places[k]] = beyond;
                check(judged(vault_check_list(form, size, list, n), VAULT_DONE, 0, VAULT_NO_BOX, places[k]), "no box in a long list", (long)places[k]);
                list[places[k]] = 0;
            }
        }
        list[0] = beyond - 1; /* the line of all */
        check(judged(vault_check_list(form, size, list, LONG), VAULT_DONE, 0, VAULT_OVERLAP, 1), "all, and many times a part of it", (long)m);
    }
    free(list);
}

/* Zeros, so many that there may be no room for their addresses: then that is said, and there are none. Only the first page can be written to. */
static uint8_t *zeros(size_t n, const char *what)
{
    size_t page = (size_t)sysconf(_SC_PAGESIZE);
    uint8_t *p = mmap(NULL, n, PROT_READ, MAP_PRIVATE | MAP_ANONYMOUS, -1, 0);
    if (p != MAP_FAILED && mprotect(p, page, PROT_READ | PROT_WRITE) == 0)
        return p;
    printf("boundary: %s not tried: there is no room for its addresses\n", what);
    return NULL;
}

/* A length whose low 32 bits are 0, and one with 1 there, of which the first number is no box. */
static void longest_list(void)
{
    size_t n = ((size_t)1 << 32) + 1;
    uint8_t *list = zeros(n, "a list of 2^32 lines is");
    if (list == NULL)
        return;
    list[0] = 255;
    check(judged(vault_check_list(sample, sizeof sample, list, n - 1), VAULT_DONE, 0, VAULT_NO_BOX, 0), "2^32 lines", 0);
    list[0] = 0;
    list[1] = 9;
    check(judged(vault_check_list(sample, sizeof sample, list, n), VAULT_DONE, 0, VAULT_NO_BOX, 1), "2^32 lines and one", 0);
    munmap(list, n);
}

/* A sheet that cannot be read is answered as vault_class_size answers it, whatever the list. One that can is not refused. */
static void unread(const uint8_t *bytes, size_t n, long which)
{
    static const uint8_t lists[][3] = {{1, 5, 0}, {255, 255, 255}, {0, 0, 0}, {8, 8, 8}};
    struct vault_reply r = vault_class_size(bytes, n);
    for (size_t i = 0; i < sizeof lists / sizeof *lists; i++)
        for (size_t k = 0; k <= 3; k++) {
            struct vault_verdict v = verdict(bytes, n, lists[i], k);
            check(v.answer == r.answer && v.place == r.place && (r.answer == VAULT_DONE || (v.fault == 0 && v.at == 0)), "a spoiled sheet", which);
        }
    if (r.answer != VAULT_DONE)
        check(judged(vault_check_list(bytes, n, NULL, 0), r.answer, r.place, 0, 0), "a spoiled sheet and no list", which);
}

/* A sheet with any byte at any place, and with any number of its bytes. */
static void spoiled_sheet(const uint8_t *sheet, size_t size)
{
    uint8_t bytes[VAULT_FORM_SIZE];
    for (size_t at = 0; at < size; at++)
        for (int byte = 0; byte < 256; byte++) {
            memcpy(bytes, sheet, size);
            bytes[at] = (uint8_t)byte;
            unread(bytes, size, (long)at);
        }
    memcpy(bytes, sheet, size);
    bytes[size] = 0;
    for (size_t n = 0; n <= size + 1; n++)
        unread(bytes, n, (long)n);
}

static void spoiled_sheets(void)
{
    spoiled_sheet(sample, sizeof sample);
    spoiled_sheet(mixed, sizeof mixed);
    spoiled_sheet(stocked, sizeof stocked);
    check(judged(vault_check_list(NULL, 0, NULL, 0), VAULT_UNREADABLE, 0, 0, 0), "no sheet and no list", 0);
    check(judged(vault_check_list(NULL, 0, sample, 3), VAULT_UNREADABLE, 0, 0, 0), "no sheet", 0);
}

static void checking(void)
{
    static const uint8_t few[] = {0, 1, 2, 3, 255}, some[] = {0, 1, 2, 3, 4, 5, 6, 7, 8, 9, 255};
    uint8_t all[256];
    for (int b = 0; b < 256; b++)
        all[b] = (uint8_t)b;
    fill_sets();
    known_lists();
    known_lists_with_either();
    every_list(1, 0, all, 256, 2);
    every_list(1, 0x3, few, sizeof few, 5);
    every_list(2, 0, some, sizeof some, 4);
    every_list(2, 0xf, some, sizeof some, 3);
    for (uint64_t m = 1; m <= 5; m++) {
        every_value(m);
        every_two(m);
        every_gap(m, 0);
        every_gap(m, 1);
    }
    two_faults();
    long_lists();
    longest_list();
    spoiled_sheets();
}

/* ---- running times */

static int alike(struct vault_time a, struct vault_time b)
{
    return a.answer == b.answer && a.place == b.place && a.value == b.value && a.form == b.form;
}

/* A text between guard bytes is read so, and stays. */
static void reads(const char *text, size_t n, struct vault_time want)
{
    struct area *a = lent(n);
    memcpy(a->p, text, n);
    check(alike(vault_read_time(a->p, n), want) && holds(a, (const uint8_t *)text, n), text, (long)n);
}

struct time {
    const char *text;
    struct vault_time want;
};

static void texts_of_times(const struct time *t, size_t n)
{
    for (size_t i = 0; i < n; i++)
        reads(t[i].text, strlen(t[i].text), t[i].want);
}

#define TIMES(rows) texts_of_times(rows, sizeof rows / sizeof *rows)

static void readable_times(void)
{
    static const struct time t[] = {
        {"0:00", {0, 0, 0, 1}},        {"0:01", {0, 0, 1, 1}},        {"0:59", {0, 0, 59, 1}},       {"1:00", {0, 0, 60, 1}},
        {"1:30", {0, 0, 90, 1}},       {"9:07", {0, 0, 547, 1}},      {"9:59", {0, 0, 599, 1}},      {"10:00", {0, 0, 600, 1}},
        {"59:59", {0, 0, 3599, 1}},    {"60:00", {0, 0, 3600, 1}},    {"90:00", {0, 0, 5400, 1}},    {"99:59", {0, 0, 5999, 1}},
        {"100:00", {0, 0, 6000, 1}},   {"599:59", {0, 0, 35999, 1}},  {"1:00:00", {0, 0, 3600, 2}},  {"1:00:01", {0, 0, 3601, 2}},
        {"1:01:00", {0, 0, 3660, 2}},  {"1:30:00", {0, 0, 5400, 2}},  {"1:30:59", {0, 0, 5459, 2}},  {"2:03:04", {0, 0, 7384, 2}},
        {"5:59:59", {0, 0, 21599, 2}}, {"6:00:00", {0, 0, 21600, 2}}, {"9:00:00", {0, 0, 32400, 2}}, {"9:59:59", {0, 0, 35999, 2}},
    };
    TIMES(t);
}

static void faulty_times(void)
{
    static const struct time t[] = {
        /* minutes and seconds */
        {"", {10, 0, 0, 0}},
        {"5", {10, 1, 0, 0}},
        {"599", {10, 3, 0, 0}},
        {"5:", {10, 2, 0, 0}},
        {"1:3", {10, 3, 0, 0}},
        {"12:3", {10, 4, 0, 0}},
        {"5:6", {10, 2, 0, 0}},
        {"5:60", {10, 2, 0, 0}},
        {"5:599", {10, 4, 0, 0}},
        {"600:00", {10, 2, 0, 0}},
        {"6000:00", {10, 2, 0, 0}},
        {"5990:00", {10, 3, 0, 0}},
        {"1000:00", {10, 3, 0, 0}},
        {"012:30", {10, 1, 0, 0}},
        {"00:00", {10, 1, 0, 0}},
        {":30", {10, 0, 0, 0}},
        {"5::59", {10, 2, 0, 0}},
        /* hours: cut, a number too large, a digit too many or too few */
        {"1:30:", {10, 5, 0, 0}},
        {"1:30:0", {10, 6, 0, 0}},
        {"1:30:5", {10, 6, 0, 0}},
        {"1:30:6", {10, 5, 0, 0}},
        {"1:30:60", {10, 5, 0, 0}},
        {"1:30:99", {10, 5, 0, 0}},
        {"1:60:00", {10, 2, 0, 0}},
        {"1:99:00", {10, 2, 0, 0}},
        {"1:5:00", {10, 3, 0, 0}},
        {"1:300:00", {10, 4, 0, 0}},
        {"1:00:000", {10, 7, 0, 0}},
        {"1:00:00:", {10, 7, 0, 0}},
        {"1:00:00:00", {10, 7, 0, 0}},
        /* hours that are not 1 to 9: as far as minutes go */
        {"0:00:00", {10, 4, 0, 0}},
        {"0:59:59", {10, 4, 0, 0}},
        {"00:00:00", {10, 1, 0, 0}},
        {"01:00:00", {10, 1, 0, 0}},
        {"10:00:", {10, 5, 0, 0}},
        {"10:00:00", {10, 5, 0, 0}},
        {"12:30:00", {10, 5, 0, 0}},
        {"99:59:59", {10, 5, 0, 0}},
        {"100:00:00", {10, 6, 0, 0}},
        {"599:59:59", {10, 6, 0, 0}},
        {"600:00:00", {10, 2, 0, 0}},
        {":00:00", {10, 0, 0, 0}},
        /* two colons in a row */
        {"::", {10, 0, 0, 0}},
        {"1::", {10, 2, 0, 0}},
        {"1::00:00", {10, 2, 0, 0}},
        {"1:30::00", {10, 5, 0, 0}},
        {"1:30:00::", {10, 7, 0, 0}},
        /* spaces, signs, other bytes */
        {" 5:59", {10, 0, 0, 0}},
        {"5 :59", {10, 1, 0, 0}},
        {"5:59\n", {10, 4, 0, 0}},
        {"5:5x", {10, 3, 0, 0}},
        {" 1:30:00", {10, 0, 0, 0}},
        {"1 :30:00", {10, 1, 0, 0}},
        {"1: 30:00", {10, 2, 0, 0}},
        {"1:30 :00", {10, 4, 0, 0}},
        {"1:30: 00", {10, 5, 0, 0}},
        {"1:30:0 ", {10, 6, 0, 0}},
        {"1:30:00 ", {10, 7, 0, 0}},
        {"1:30:00\n", {10, 7, 0, 0}},
        {"1:30:00\r", {10, 7, 0, 0}},
        {"-5:59", {10, 0, 0, 0}},
        {"5:-1", {10, 2, 0, 0}},
        {"+1:30:00", {10, 0, 0, 0}},
        {"-1:30:00", {10, 0, 0, 0}},
        {"1:+3:00", {10, 2, 0, 0}},
        {"1:-3:00", {10, 2, 0, 0}},
        {"1:30:+1", {10, 5, 0, 0}},
        {"1:30:-1", {10, 5, 0, 0}},
        {"1.30.00", {10, 1, 0, 0}},
        {"1:30.00", {10, 4, 0, 0}},
        {"1:30;00", {10, 4, 0, 0}},
        {"1:30/00", {10, 4, 0, 0}},
        {"1:30:/0", {10, 5, 0, 0}},
        {"1h30:00", {10, 1, 0, 0}},
        {"l:30:00", {10, 0, 0, 0}},
        {"1:3O:00", {10, 3, 0, 0}},
        /* bytes that are not ASCII: those of a time with the high bit on, digits of other scripts, a wide colon, a byte-order mark */
        {"\xb1:30:00", {10, 0, 0, 0}},
        {"1\xba" "30:00", {10, 1, 0, 0}},
        {"1:\xb3" "0:00", {10, 2, 0, 0}},
        {"1:30\xba" "00", {10, 4, 0, 0}},
        {"1:30:0\xb0", {10, 6, 0, 0}},
        {"1:30:00\xa0", {10, 7, 0, 0}},
        {"\xd9\xa1:30:00", {10, 0, 0, 0}},
        {"1:3\xd9\xa0:00", {10, 3, 0, 0}},
        {"1\xef\xbc\x9a" "30:00", {10, 1, 0, 0}},
        {"\xef\xbb\xbf" "1:30:00", {10, 0, 0, 0}},
    };
    TIMES(t);
}

/* The length counts, and nothing else: zero bytes, and lengths of which the low bits are those of a readable text. */
static void lengths_of_times(void)
{
    static const struct vault_time minutes = {VAULT_DONE, 0, 90, VAULT_IN_MINUTES};
    static char text[(1 << 16) + 8];
    check(alike(vault_read_time(NULL, 0), (struct vault_time){VAULT_UNREADABLE, 0, 0, VAULT_NO_TIME}), "no text", 0);
    reads("1:30:00", 4, minutes);
    reads("1:30:00", 5, (struct vault_time){VAULT_UNREADABLE, 5, 0, VAULT_NO_TIME});
    reads("1:30\0", 4, minutes);
    reads("1:30\0", 5, (struct vault_time){VAULT_UNREADABLE, 4, 0, VAULT_NO_TIME});
    reads("5:5\0", 4, (struct vault_time){VAULT_UNREADABLE, 3, 0, VAULT_NO_TIME});
    reads("\0" "1:30", 5, (struct vault_time){VAULT_UNREADABLE, 0, 0, VAULT_NO_TIME});
    reads("1:30\0" "00", 7, (struct vault_time){VAULT_UNREADABLE, 4, 0, VAULT_NO_TIME});
    reads("1:30:\0" "0", 7, (struct vault_time){VAULT_UNREADABLE, 5, 0, VAULT_NO_TIME});
    reads("1:30:00\0", 8, (struct vault_time){VAULT_UNREADABLE, 7, 0, VAULT_NO_TIME});
    for (size_t i = 0; i < 5; i++) {
        static const uint64_t place[] = {1, 3, 3, 2, 0};
        memset(text, "0156:"[i], ROOM);
        reads(text, ROOM, (struct vault_time){VAULT_UNREADABLE, place[i], 0, VAULT_NO_TIME});
    }
    memset(text, '0', sizeof text);
    memcpy(text, "1:30:00", 7);
    for (size_t high = 1 << 8; high <= 1 << 16; high <<= 8)
        for (size_t n = high; n <= high + 7; n++)
            check(alike(vault_read_time(text, n), (struct vault_time){VAULT_UNREADABLE, 7, 0, VAULT_NO_TIME}), "a long text", (long)n);
}

/* All the readable texts there are, put one after another into a tree whose nodes are their beginnings. */
enum { BEGINNINGS = 76981 };

static struct beginning {
    uint32_t longer[11]; /* the beginning with a byte more, one of 0 to 9 and the colon, which is the next byte; 0: none */
    uint64_t value, form; /* of the text itself; form 0: it is a beginning only */
} beginnings[BEGINNINGS];

/* Reads by the tree: as far as there is a longer beginning. */
static struct vault_time told(const uint8_t *text, size_t n)
{
    const struct beginning *b = beginnings;
    size_t k = 0;
    for (; k < n && text[k] >= '0' && text[k] <= ':' && b->longer[text[k] - '0'] != 0; k++)
        b = beginnings + b->longer[text[k] - '0'];
    if (k < n || b->form == VAULT_NO_TIME)
        return (struct vault_time){VAULT_UNREADABLE, k, 0, VAULT_NO_TIME};
    return (struct vault_time){VAULT_DONE, 0, b->value, b->form};
}

static uint32_t made_of(const char *text, uint64_t value, uint64_t form, uint32_t nodes)
{
    struct beginning *b = beginnings;
    for (; *text != '\0'; text++) {
        uint32_t *longer = &b->longer[*text - '0'];
        if (*longer == 0 && nodes < BEGINNINGS)
            *longer = nodes++;
        b = beginnings + *longer;
    }
    b->value = value;
    b->form = form;
    return nodes;
}

static void grow(void)
{
    char text[32];
    uint32_t nodes = 1;
    for (uint64_t t = 0; t < 600 * 60; t++) {
        snprintf(text, sizeof text, "%d:%02d", (int)(t / 60), (int)(t % 60));
        nodes = made_of(text, t, VAULT_IN_MINUTES, nodes);
    }
    for (uint64_t t = 1 * 3600; t < 10 * 3600; t++) {
        snprintf(text, sizeof text, "%d:%02d:%02d", (int)(t / 3600), (int)(t / 60 % 60), (int)(t % 60));
        nodes = made_of(text, t, VAULT_IN_HOURS, nodes);
    }
    check(nodes == BEGINNINGS, "the beginnings of all running times", (long)nodes);
}

/* A beginning, which stands in the text, with each byte behind it; then so every longer one. */
static void a_byte_more(const struct beginning *b, char *text, size_t n)
{
    int good = 1, wrong = 0;
    for (int byte = 0; byte < 256; byte++) {
        text[n] = (char)byte;
        if (!alike(vault_read_time(text, n + 1), told((const uint8_t *)text, n + 1))) {
            good = 0;
            wrong = byte;
        }
    }
    text[n] = '\0';
    check(good, text, wrong);
    for (size_t i = 0; i < 11; i++)
        if (b->longer[i] != 0) {
            text[n] = (char)('0' + i);
            a_byte_more(beginnings + b->longer[i], text, n + 1);
        }
}

/* A text, and each of its beginnings with the rest standing behind it: that is not lent, and may not count. */
static void each_end(const char *text)
{
    int good = 1;
    size_t n = strlen(text);
    for (size_t k = 0; k <= n; k++)
        good = good && alike(vault_read_time(text, k), told((const uint8_t *)text, k));
    check(good, text, (long)n);
}

/* Numbers in their range and beyond it, with two digits or as many as they need. */
static void ranges(void)
{
    static const char *const forms[] = {"%d:%02d", "%d:%d", "%02d:%02d"};
    static const char *const longer[] = {"%d:%02d:%02d", "%d:%02d:%d", "%d:%d:%02d", "%02d:%02d:%02d"};
    static const int hours[] = {0, 1, 2, 3, 4, 5, 6, 7, 8, 9, 10, 11, 12, 60, 99, 100, 599, 600};
    char text[48];
    for (size_t f = 0; f < sizeof forms / sizeof *forms; f++)
        for (int m = 0; m < 1010; m++)
            for (int s = 0; s < 101; s++) {
                snprintf(text, sizeof text, forms[f], m, s);
                each_end(text);
            }
    for (size_t f = 0; f < sizeof longer / sizeof *longer; f++)
        for (size_t h = 0; h < sizeof hours / sizeof *hours; h++)
            for (int t = 0; t < 101 * 101; t++) {
                snprintf(text, sizeof text, longer[f], hours[h], t / 101, t % 101);
                each_end(text);
            }
}

static void times(void)
{
    char text[16];
    readable_times();
    faulty_times();
    lengths_of_times();
    grow();
    check(alike(vault_read_time("", 0), told((const uint8_t *)"", 0)), "an empty text", 0);
    a_byte_more(beginnings, text, 0);
    ranges();
}

/* ---- PLA texts */

/* Text of so many bytes draws this class. */
static void draws(const char *text, size_t size, uint64_t marks, uint32_t class)
{
    uint8_t form[VAULT_FORM_SIZE];
    size_t n = drawn(form, marks, class);
    writes((struct call){READ_PLA, (const uint8_t *)text, size, 0, 0}, form, n, n);
}

/* A text that is read, and draws a class (answer 0), or that is refused. */
struct text {
    const char *text;
    uint64_t answer, place;
    uint64_t marks;
    uint32_t class;
};

static void texts(const struct text *t, size_t n)
{
    for (size_t i = 0; i < n; i++, t++) {
        int before = faults;
        size_t size = strlen(t->text);
        if (t->answer == VAULT_DONE)
            draws(t->text, size, t->marks, t->class);
        else
            refuses((struct call){READ_PLA, (const uint8_t *)t->text, size, 0, 0}, t->answer, t->place);
        if (faults != before)
            printf("    the text:\n%s\n", t->text);
    }
}

#define TEXTS(rows) texts(rows, sizeof rows / sizeof *rows)

/* `.i 2` and `.o 1`, which end at 10. */
#define HEAD ".i 2\n.o 1\n"

static void texts_that_draw(void)
{
    static const struct text t[] = {
        {HEAD ".p 2\n01 1\n1- 1\n.e\n", 0, 0, 2, 0xe},
        {HEAD, 0, 0, 2, 0},
        {".i 2\n.o 1", 0, 0, 2, 0},
        {".i 1\n.o 1\n0 1\n", 0, 0, 1, 1},
        {".i 1\n.o 1\n1 1\n", 0, 0, 1, 2},
        {".i 1\n.o 1\n- 1\n", 0, 0, 1, 3},
        {".i 3\n.o 1\n100 1\n", 0, 0, 3, 0x10},
        {".i 3\n.o 1\n001 1\n", 0, 0, 3, 0x2},
        {".i 3\n.o 1\n1-0 1\n", 0, 0, 3, 0x50},
        {".i 4\n.o 1\n1--- 1\n", 0, 0, 4, 0xff00},
        {".i 5\n.o 1\n----- 1\n", 0, 0, 5, 0xffffffff},
        {".i 5\n.o 1\n11111 1\n00000 1\n", 0, 0, 5, 0x80000001},
        {".i 5\n.o 1\n1--10 1\n", 0, 0, 5, 0x44440000},
        /* spaces, tabs, blank lines, comments */
        {"\n\n" HEAD "\n01 1\n\n", 0, 0, 2, 2},
        {" .i 2\n\t.o 1\n 01 1\n", 0, 0, 2, 2},
        {".i 2 \n.o 1\t\n01 1  \n", 0, 0, 2, 2},
        {".i\t2\n.o \t 1\n01\t\t1\n.p   1\n", 0, 0, 2, 2},
        {" \n\t\n \t \n" HEAD " \n", 0, 0, 2, 0},
        {"# a class\n" HEAD "01 1\n", 0, 0, 2, 2},
        {".i 2# two\n.o 1#\n01 1#1\n.p 1 #2\n", 0, 0, 2, 2},
        {".i 2 #.i 3\n.o 1\n#01 1\n  # .e\n10 1", 0, 0, 2, 4},
        {HEAD "01 1\n##\n#", 0, 0, 2, 2},
        {HEAD "# \r\v\f\x01\x7f\x80\xff .end ## 01 0\n11 1\n", 0, 0, 2, 8},
        /* the end */
        {HEAD "01 1\n.e\n11 1\n", 0, 0, 2, 2},
        {HEAD "01 1\n.e", 0, 0, 2, 2},
        {HEAD "01 1\n \t.e\t\n", 0, 0, 2, 2},
        {HEAD "01 1\n.e junk\n", 0, 0, 2, 2},
        {HEAD "01 1\n.e#x\njunk\n", 0, 0, 2, 2},
        {HEAD "01 1\n.e .e .i 9\n.i 9\n.p 7\n\r", 0, 0, 2, 2},
        {HEAD ".e\n.e\n", 0, 0, 2, 0},
        {HEAD ".p 1\n01 1\n.e\n01 1\n", 0, 0, 2, 2},
        /* .p anywhere, and every cube line counts */
        {".p 1\n" HEAD "01 1\n", 0, 0, 2, 2},
        {".i 2\n.p 1\n.o 1\n01 1\n", 0, 0, 2, 2},
        {HEAD "01 1\n.p 2\n11 1\n", 0, 0, 2, 0xa},
        {HEAD "01 1\n.p 1", 0, 0, 2, 2},
        {HEAD "01 1\n.p 1\n.e\n.p 1\n", 0, 0, 2, 2},
        {HEAD ".p 0\n", 0, 0, 2, 0},
        {HEAD ".p 3\n01 1\n01 1\n01 1\n", 0, 0, 2, 2},
        {HEAD ".p 3\n-1 1\n1- 1\n11 1\n", 0, 0, 2, 0xe},
        {HEAD ".p 10\n00 1\n00 1\n00 1\n00 1\n00 1\n00 1\n00 1\n00 1\n00 1\n00 1\n", 0, 0, 2, 1},
        {HEAD "01 1\n#.p 2\n", 0, 0, 2, 2},
    };
    TEXTS(t);
}

static void unreadable_lines(void)
{
    static const struct text t[] = {
        {"", 10, 0, 0, 0},
        /* .i: one number, without needless zeros; once */
        {".i\n.o 1\n", 10, 0, 0, 0},
        {".i2\n.o 1\n", 10, 0, 0, 0},
        {".i4\n", 10, 0, 0, 0},
        {".i 02\n.o 1\n", 10, 0, 0, 0},
        {".i 00\n", 10, 0, 0, 0},
        {".i 07\n", 10, 0, 0, 0},
        {".i 2 2\n", 10, 0, 0, 0},
        {".i 9 9\n", 10, 0, 0, 0},
        {".i +2\n", 10, 0, 0, 0},
        {".i -2\n", 10, 0, 0, 0},
        {".i 2.\n", 10, 0, 0, 0},
        {".i 0x2\n", 10, 0, 0, 0},
        {".i 9x\n", 10, 0, 0, 0},
        {".i /\n", 10, 0, 0, 0},
        {".i :\n", 10, 0, 0, 0},
        {".I 2\n", 10, 0, 0, 0},
        {"i 2\n", 10, 0, 0, 0},
        {". i 2\n", 10, 0, 0, 0},
        {"..i 2\n", 10, 0, 0, 0},
        {".i#2\n", 10, 0, 0, 0},
        {"\n\n.i x\n", 10, 2, 0, 0},
        {"# c\n  .i x\n", 10, 4, 0, 0},
        {".i 2\n.i 2\n", 10, 5, 0, 0},
        {".i 2\n.i 9\n", 10, 5, 0, 0},
        {".i 2\n.i 0\n", 10, 5, 0, 0},
        {HEAD "01 1\n.i 2\n", 10, 15, 0, 0},
        /* .o: 1 alone; once, behind .i */
        {".o 1\n.i 2\n", 10, 0, 0, 0},
        {"\n.o 1\n", 10, 1, 0, 0},
        {".i 2\n.o 2\n", 10, 5, 0, 0},
        {".i 2\n.o 0\n", 10, 5, 0, 0},
        {".i 2\n.o 01\n", 10, 5, 0, 0},
        {".i 2\n.o 11\n", 10, 5, 0, 0},
        {".i 2\n.o\n", 10, 5, 0, 0},
        {".i 2\n.o1\n", 10, 5, 0, 0},
        {".i 2\n.o 1 1\n", 10, 5, 0, 0},
        {".i 2\n.O 1\n", 10, 5, 0, 0},
        {HEAD ".o 1\n", 10, 10, 0, 0},
        {HEAD "01 1\n.o 1\n", 10, 15, 0, 0},
        /* .p: one number, without needless zeros; once */
        {HEAD ".p\n", 10, 10, 0, 0},
        {HEAD ".p0\n", 10, 10, 0, 0},
        {HEAD ".p 00\n", 10, 10, 0, 0},
        {HEAD ".p 01\n01 1\n", 10, 10, 0, 0},
        {HEAD ".p 0 0\n", 10, 10, 0, 0},
        {HEAD ".p -0\n", 10, 10, 0, 0},
        {HEAD ".p 0\n.p 0\n", 10, 15, 0, 0},
        {".p 1\n" HEAD "01 1\n.p 1\n", 10, 20, 0, 0},
        {".p 9\n.p x\n" HEAD, 10, 5, 0, 0},
        /* cubes: behind .o, of as many signs as there are inputs, a gap, and 1 */
        {"01 1\n" HEAD, 10, 0, 0, 0},
        {".i 2\n01 1\n.o 1\n", 10, 5, 0, 0},
        {HEAD "0 1\n", 10, 10, 0, 0},
        {HEAD "010 1\n", 10, 10, 0, 0},
        {HEAD "01 1\n011 1\n", 10, 15, 0, 0},
        {HEAD "01\n", 10, 10, 0, 0},
        {HEAD "011\n", 10, 10, 0, 0},
        {".i 4\n.o 1\n0101\n", 10, 10, 0, 0},
        {".i 3\n.o 1\n0101\n", 10, 10, 0, 0},
        {HEAD "01 0\n", 10, 10, 0, 0},
        {HEAD "01 -\n", 10, 10, 0, 0},
        {HEAD "01 ~\n", 10, 10, 0, 0},
        {HEAD "01 2\n", 10, 10, 0, 0},
        {HEAD "01 11\n", 10, 10, 0, 0},
        {HEAD "01 01\n", 10, 10, 0, 0},
        {HEAD "01 1 1\n", 10, 10, 0, 0},
        {HEAD "0 1 1\n", 10, 10, 0, 0},
        {HEAD "02 1\n", 10, 10, 0, 0},
        {HEAD "0x 1\n", 10, 10, 0, 0},
        {HEAD "0~ 1\n", 10, 10, 0, 0},
        {HEAD "01|1\n", 10, 10, 0, 0},
        {HEAD "0#1 1\n", 10, 10, 0, 0},
        {HEAD "01 #1\n", 10, 10, 0, 0},
        {HEAD "1\n", 10, 10, 0, 0},
        {".i 5\n.o 1\n---- 1\n", 10, 10, 0, 0},
        {".i 5\n.o 1\n------ 1\n", 10, 10, 0, 0},
        /* the end, glued; other keywords; other bytes */
        {HEAD ".end\n", 10, 10, 0, 0},
        {HEAD ".ex\n", 10, 10, 0, 0},
        {HEAD ".e.\n", 10, 10, 0, 0},
        {HEAD ".E\n", 10, 10, 0, 0},
        {HEAD "e\n", 10, 10, 0, 0},
        {HEAD ". e\n", 10, 10, 0, 0},
        {HEAD "01 1 .e\n", 10, 10, 0, 0},
        {HEAD ".\n", 10, 10, 0, 0},
        {HEAD ".ilb a b\n", 10, 10, 0, 0},
        {HEAD ".ob z\n", 10, 10, 0, 0},
        {HEAD ".type f\n", 10, 10, 0, 0},
        {".i 2\r\n.o 1\r\n", 10, 0, 0, 0},
        {HEAD "01 1\r\n", 10, 10, 0, 0},
        {HEAD "\r\n", 10, 10, 0, 0},
        {HEAD ".e\r\n", 10, 10, 0, 0},
        {HEAD "01\v1\n", 10, 10, 0, 0},
        {HEAD "\f\n", 10, 10, 0, 0},
        {HEAD "01\xa0" "1\n", 10, 10, 0, 0},
        {"\xef\xbb\xbf" HEAD, 10, 0, 0, 0},
    };
    TEXTS(t);
}

/* Which of several answers comes. */
static void order_of_answers(void)
{
    static const struct text t[] = {
        /* inputs not 1 to 5: at once, and before every fault behind it */
        {".i 0\n.o 1\n", 1, 0, 0, 0},
        {".i 6\n.o 1\n", 1, 0, 0, 0},
        {".i 9", 1, 0, 0, 0},
        {".i 10\n", 1, 0, 0, 0},
        {".i 50\n", 1, 0, 0, 0},
        {".i 6\njunk\n", 1, 0, 0, 0},
        {".i 6\n.i 2\n.o 2\n", 1, 0, 0, 0},
        {".i 6#5\n.e\n", 1, 0, 0, 0},
        {"\n  .p 7\n.i 0\n.p 7\n", 1, 0, 0, 0},
        {".i 6\n.o 1\n.p 9\n010101 1\n", 1, 0, 0, 0},
        /* but not before those in front of it, nor if it is skipped */
        {"junk\n.i 6\n", 10, 0, 0, 0},
        {".o 1\n.i 6\n", 10, 0, 0, 0},
        {".p 1\n.p 1\n.i 6\n", 10, 5, 0, 0},
        {".e\n.i 6\n", 10, 8, 0, 0},
        /* numbers of any length */
        {".i 99999999999999999999\n", 1, 0, 0, 0},
        {".i 18446744073709551618\n.o 1\n", 1, 0, 0, 0},
        {".i 4294967298\n.o 1\n", 1, 0, 0, 0},
        {".i 65538\n", 1, 0, 0, 0},
        {".i 258\n", 1, 0, 0, 0},
        {".i 36893488147419103234\n", 1, 0, 0, 0},
        {".i 340282366920938463463374607431768211458\n", 1, 0, 0, 0},
        {HEAD ".p 18446744073709551617\n01 1\n", 10, 10, 0, 0},
        {HEAD ".p 18446744073709551616\n", 10, 10, 0, 0},
        {HEAD ".p 18446744073709551615\n", 10, 10, 0, 0},
        {HEAD ".p 36893488147419103233\n01 1\n", 10, 10, 0, 0},
        {HEAD ".p 340282366920938463463374607431768211457\n01 1\n", 10, 10, 0, 0},
        {HEAD ".p 4294967297\n01 1\n", 10, 10, 0, 0},
        {HEAD ".p 65537\n01 1\n", 10, 10, 0, 0},
        {HEAD ".p 257\n01 1\n", 10, 10, 0, 0},
        {HEAD ".p 99999999999999999999\n", 10, 10, 0, 0},
        /* .i or .o never comes: the length, of the whole input */
        {"\n", 10, 1, 0, 0},
        {"# nothing", 10, 9, 0, 0},
        {".i 2\n", 10, 5, 0, 0},
        {".i 2", 10, 4, 0, 0},
        {".i 2\n.e\n.o 1\n", 10, 13, 0, 0},
        {".e\n" HEAD, 10, 13, 0, 0},
        {".e", 10, 2, 0, 0},
        {".p 5\n", 10, 5, 0, 0},
        {".p 5\n.i 2\n.e\n", 10, 13, 0, 0},
        /* .p, last of all: above and below */
        {HEAD ".p 1\n", 10, 10, 0, 0},
        {HEAD ".p 0\n01 1\n", 10, 10, 0, 0},
        {HEAD ".p 2\n01 1\n", 10, 10, 0, 0},
        {HEAD ".p 2\n01 1\n01 1\n01 1\n", 10, 10, 0, 0},
        {HEAD ".p 2\n01 1\n.e\n01 1\n", 10, 10, 0, 0},
        {".p 7\n" HEAD "01 1\n", 10, 0, 0, 0},
        {"\n  .p 7\n" HEAD "01 1\n", 10, 1, 0, 0},
        {HEAD "01 1\n.p 7", 10, 15, 0, 0},
        {HEAD ".p 7\n01 1\n01 0\n", 10, 20, 0, 0},
        {HEAD ".p 7\n01 1\n.p 1\n", 10, 20, 0, 0},
        {HEAD ".p 0\n# 01 1\n", 0, 0, 2, 0},
    };
    TEXTS(t);
    static const char zero[] = HEAD "01\0" "1\n", behind[] = HEAD "01 1\0\n", comment[] = HEAD "01 1 #\0\n10 1\n.e\0";
    refuses((struct call){READ_PLA, (const uint8_t *)zero, sizeof zero - 1, 0, 0}, VAULT_UNREADABLE, 10);
    refuses((struct call){READ_PLA, (const uint8_t *)behind, sizeof behind - 1, 0, 0}, VAULT_UNREADABLE, 10);
    refuses((struct call){READ_PLA, (const uint8_t *)comment, sizeof comment - 1, 0, 0}, VAULT_UNREADABLE, 23);
    draws(comment, sizeof comment - 2, 2, 6);
    refuses((struct call){READ_PLA, (const uint8_t *)"\0", 1, 0, 0}, VAULT_UNREADABLE, 0);
}

/* A text that ends after each of its bytes: where it can be read, and otherwise the place. */
static void texts_that_end_early(void)
{
    static const char text[] = HEAD ".p 2\n01 1\n1- 1\n.e\n";
    static const int place[] = {0, 0, 0, 0, 4, 5, 5, 5, 5, -1, -1, 10, 10, 10, 10, 10, 15, 15, 15, 10, 10, 20, 20, 20, -1, -1, 25, -1, -1};
    _Static_assert(sizeof text == sizeof place / sizeof *place, "a place for each length");
    for (size_t n = 0; n < sizeof text; n++)
        if (place[n] < 0)
            draws(text, n, 2, n > 20 ? 0xe : 0);
        else
            refuses((struct call){READ_PLA, (const uint8_t *)text, n, 0, 0}, VAULT_UNREADABLE, (uint64_t)place[n]);
}

/* What reading the text with another byte at one place answers, and the size of the class. */
static void byte_at(const char *text, size_t at, int byte, uint64_t answer, uint64_t place, uint64_t combinations)
{
    uint8_t changed[64], form[VAULT_FORM_SIZE];
    size_t n = strlen(text);
    memcpy(changed, text, n);
    changed[at] = (uint8_t)byte;
    struct vault_reply r = vault_read_pla(changed, n, form, sizeof form);
    check(is(r, answer, place, answer == VAULT_DONE ? 7 + combinations : 0), text, byte);
}

/* Every byte at each place of a line that means something. `?` stands for it. */
static void bytes_of_a_line(void)
{
    for (int b = 0; b < 256; b++) {
        int gap = b == ' ' || b == '\t', stop = b == '\n' || b == '#', digit = b >= '0' && b <= '9';
        byte_at(".i 2?\n.o 1\n", 4, b, gap || stop ? 0 : digit ? 1 : 10, 0, 0);
        byte_at(".i ?\n.o 1\n", 3, b, b >= '1' && b <= '5' ? 0 : digit ? 1 : 10, 0, 0);
        byte_at(".i?2\n.o 1\n", 2, b, gap ? 0 : 10, 0, 0);
        byte_at("?.i 2\n.o 1\n", 0, b, gap || b == '\n' ? 0 : 10, b == '#' ? 6 : 0, 0);
        byte_at(HEAD "?01 1\n", 10, b, gap || stop ? 0 : 10, gap || stop ? 0 : 10, b == '#' ? 0 : 1);
        byte_at(HEAD "01?1\n", 12, b, gap ? 0 : 10, gap ? 0 : 10, 1);
        byte_at(HEAD "0? 1\n", 11, b, b == '0' || b == '1' || b == '-' ? 0 : 10, b == '0' || b == '1' || b == '-' ? 0 : 10, b == '-' ? 2 : 1);
        byte_at(HEAD "01 ?\n", 13, b, b == '1' ? 0 : 10, b == '1' ? 0 : 10, 1);
        byte_at(HEAD "01 1?\n", 14, b, gap || stop ? 0 : 10, gap || stop ? 0 : 10, 1);
        byte_at(HEAD "01 1#?\n", 15, b, 0, 0, 1);
        byte_at(HEAD "01 1\n.e?\n", 17, b, gap || stop ? 0 : 10, gap || stop ? 0 : 15, 1);
        byte_at(HEAD "01 1\n.e ?", 18, b, 0, 0, 1);
        byte_at(HEAD "01 1\n.p ?", 18, b, b == '1' ? 0 : 10, b == '1' ? 0 : 15, 1);
        byte_at(HEAD "01 1?", 14, b, gap || stop ? 0 : 10, gap || stop ? 0 : 10, 1);
    }
}

/* A text in parts that are put one behind the other. */
struct long_text {
    char *bytes;
    size_t n;
};

static struct long_text begun(void)
{
    struct long_text t = {malloc(4 << 20), 0};
    if (t.bytes == NULL) {
        printf("no memory\n");
        exit(2);
    }
    return t;
}

static void add(struct long_text *t, const char *part, size_t times)
{
    for (size_t n = strlen(part); times-- > 0; t->n += n)
        memcpy(t->bytes + t->n, part, n);
}

/* Reads a long text once, into an area of the size that is wanted, and forgets it. */
static void long_text(struct long_text t, uint64_t answer, uint64_t place, uint32_t class, const char *what)
{
    uint8_t form[VAULT_FORM_SIZE];
    size_t n = drawn(form, 5, class);
    struct area *a = lent(n);
    struct vault_reply r = vault_read_pla(t.bytes, t.n, a->p, a->n);
    check(answer == VAULT_DONE ? is(r, 0, 0, n) && holds(a, form, n) : is(r, answer, place, 0) && untouched(a), what, (long)t.n);
    if (answer == VAULT_DONE) {
        a = lent(n - 1);
        check(is(vault_read_pla(t.bytes, t.n, a->p, a->n), VAULT_ROOM, 0, 0) && untouched(a), what, -1);
    }
    free(t.bytes);
}

static void long_texts(void)
{
    static const char *const counts[] = {"100000", "99999", "100001"};
    struct long_text t;
    for (int i = 0; i < 3; i++) {
        t = begun();
        add(&t, ".i 5\n.o 1\n.p ", 1);
        add(&t, counts[i], 1);
        add(&t, "\n", 1);
        add(&t, "10-01 1\n", 100000);
        long_text(t, i == 0 ? 0 : 10, 10, 0x220000, "a hundred thousand cubes");
    }
    for (int i = 0; i < 2; i++) {
        t = begun();
        add(&t, ".i 5\n.o 1\n#", 1);
        add(&t, "\xff .e \r", 200000);
        add(&t, i == 0 ? "\n00000 1" : "\n00000 2", 1);
        long_text(t, i == 0 ? 0 : 10, 12 + 200000 * 6, 1, "a long comment");
    }
    for (int i = 0; i < 3; i++) {
        t = begun();
        add(&t, ".i 5\n.o 1\n.p 1", 1);
        add(&t, "0", 500000);
        add(&t, i == 0 ? "\n" : i == 1 ? "x\n" : "\n.i", 1);
        long_text(t, 10, i == 2 ? 14 + 500000 + 1 : 10, 0, "a number of many digits");
    }
    t = begun();
    add(&t, ".i 5", 1);
    add(&t, "0", 500000);
    long_text(t, 1, 0, 0, "as many inputs");
    t = begun();
    add(&t, "\t \n", 300000);
    add(&t, ".i 5\n.o 1\n", 1);
    add(&t, " ", 300000);
    add(&t, "1----", 1);
    add(&t, "\t", 300000);
    add(&t, "1", 1);
    long_text(t, 0, 0, 0xffff0000, "wide gaps");
    t = begun();
    add(&t, ".i 5\n.o 1\n", 1);
    add(&t, "1", 300000);
    add(&t, " 1\n", 1);
    long_text(t, 10, 10, 0, "a wide cube");
}

static size_t pattern(char *to, uint64_t marks, uint64_t b)
{
    for (uint64_t i = marks; i-- > 0; b /= 3)
        to[i] = "01-"[b % 3];
    return (size_t)marks;
}

/* Each cube of each number of inputs by itself: its combinations are those that are not outside; and all of them in one text. */
static void every_cube(void)
{
    for (uint64_t m = 1; m <= 5; m++) {
        char text[32], all[4096];
        uint8_t form[VAULT_FORM_SIZE];
        int head = snprintf(text, sizeof text, ".i %d\n.o 1\n", (int)m), n = snprintf(all, sizeof all, ".p %d\n%s", (int)VAULT_LINES(m), text);
        for (uint64_t b = 0; b < VAULT_LINES(m); b++) {
            size_t size = (size_t)head + pattern(text + head, m, b);
            memcpy(text + size, " 1", 2);
            n += snprintf(all + n, sizeof all - (size_t)n, "%.*s\n", (int)m + 2, text + head);
            struct vault_reply r = vault_read_pla(text, size + 2, form, sizeof form);
            uint8_t want[VAULT_FORM_SIZE];
            size_t k = drawn(want, m, sets[m][b]);
            check(is(r, VAULT_DONE, 0, k) && memcmp(form, want, k) == 0, "a cube", (long)b);
        }
        draws(all, (size_t)n, m, (uint32_t)((UINT64_C(1) << VAULT_COMBINATIONS(m)) - 1));
    }
}

/* The text of a sheet is written exactly if there is room for it, and a sheet of this class is read back. */
static void text_with(const uint8_t *form, size_t n, const char *want, uint32_t class)
{
    size_t size = strlen(want);
    uint8_t back[VAULT_FORM_SIZE], as[VAULT_FORM_SIZE];
    writes((struct call){WRITE_PLA, form, n, 0, 0}, (const uint8_t *)want, size, size);
    struct vault_reply r = vault_read_pla(want, size, back, sizeof back);
    check(is(r, VAULT_DONE, 0, drawn(as, form[0], class)) && memcmp(back, as, (size_t)r.value) == 0, "a text read back", (long)n);
}

/* Of a sheet without either combinations it is the sheet's own class, and its text is the same. */
static void text_of(const uint8_t *form, size_t n, const char *want, uint32_t class)
{
    size_t size = strlen(want);
    uint8_t back[VAULT_FORM_SIZE], again[VAULT_PLA_SIZE];
    text_with(form, n, want, class);
    size_t k = drawn(back, form[0], class);
    check(is(vault_write_pla(back, k, again, sizeof again), VAULT_DONE, 0, size) && memcmp(again, want, size) == 0, "written again", (long)n);
}

static void writing_texts(void)
{
    static const struct {
        uint64_t marks;
        uint32_t class;
        const char *text;
    } known[] = {
        {1, 0, ".i 1\n.o 1\n.p 0\n.e\n"},
        {1, 1, ".i 1\n.o 1\n.p 1\n0 1\n.e\n"},
        {1, 2, ".i 1\n.o 1\n.p 1\n1 1\n.e\n"},
        {1, 3, ".i 1\n.o 1\n.p 1\n- 1\n.e\n"},
        {2, 0x9, ".i 2\n.o 1\n.p 2\n00 1\n11 1\n.e\n"},
        {2, 0x7, ".i 2\n.o 1\n.p 2\n0- 1\n10 1\n.e\n"},
        {2, 0xe, ".i 2\n.o 1\n.p 2\n01 1\n1- 1\n.e\n"},
        {2, 0xf, ".i 2\n.o 1\n.p 1\n-- 1\n.e\n"},
        {3, 0x96, ".i 3\n.o 1\n.p 4\n001 1\n010 1\n100 1\n111 1\n.e\n"},
        {3, 0x7e, ".i 3\n.o 1\n.p 3\n0-1 1\n-10 1\n10- 1\n.e\n"},
        {5, 0, ".i 5\n.o 1\n.p 0\n.e\n"},
        {5, 0xffffffff, ".i 5\n.o 1\n.p 1\n----- 1\n.e\n"},
        {5, 0x5ccc3ce0, ".i 5\n.o 1\n.p 6\n00101 1\n0011- 1\n-101- 1\n0110- 1\n10-1- 1\n111-0 1\n.e\n"},
        {5, 0x69969669,
         ".i 5\n.o 1\n.p 16\n00000 1\n00011 1\n00101 1\n00110 1\n01001 1\n01010 1\n01100 1\n01111 1\n10001 1\n10010 1\n10100 1\n10111 1\n11000 1\n"
         "11011 1\n11101 1\n11110 1\n.e\n"},
    };
    uint8_t form[VAULT_FORM_SIZE];
    for (size_t i = 0; i < sizeof known / sizeof *known; i++)
        text_of(form, drawn(form, known[i].marks, known[i].class), known[i].text, known[i].class);
    check(strlen(known[13].text) == VAULT_PLA_SIZE, "the longest text", (long)strlen(known[13].text));
    /* what is held does not show, and the longest form has the shortest list */
    text_of(sample, sizeof sample, known[6].text, 0xe);
    text_of(form, longest(form), known[11].text, 0xffffffff);
    text_of(full, sizeof full, known[0].text, 0);
}

/* What is read back has in its class the either combinations of the lines, too, and no other. */
static void writing_texts_with_either(void)
{
    static const struct {
        uint64_t marks;
        uint32_t class, either;
        const char *text;
        uint32_t back;
    } known[] = {
        {1, 0x1, 0x2, ".i 1\n.o 1\n.p 1\n0 1\n.e\n", 0x1},
        {1, 0x0, 0x3, ".i 1\n.o 1\n.p 0\n.e\n", 0x0},
        {2, 0x2, 0x8, ".i 2\n.o 1\n.p 1\n01 1\n.e\n", 0x2},
        {2, 0xe, 0x1, ".i 2\n.o 1\n.p 1\n-- 1\n.e\n", 0xf},
        {3, 0x14, 0xe9, ".i 3\n.o 1\n.p 1\n--0 1\n.e\n", 0x55},
        {3, 0x56, 0x01, ".i 3\n.o 1\n.p 2\n001 1\n--0 1\n.e\n", 0x57},
        {3, 0x7e, 0x80, ".i 3\n.o 1\n.p 3\n001 1\n01- 1\n1-- 1\n.e\n", 0xfe},
        {5, 0x80000001, 0x7ffffffe, ".i 5\n.o 1\n.p 1\n----- 1\n.e\n", 0xffffffff},
        {5, 0, 0xffffffff, ".i 5\n.o 1\n.p 0\n.e\n", 0},
    };
    uint8_t form[VAULT_FORM_SIZE];
    for (size_t i = 0; i < sizeof known / sizeof *known; i++)
        text_with(form, drawn_with(form, known[i].marks, known[i].class, known[i].either), known[i].text, known[i].back);
    text_with(mixed, sizeof mixed, known[2].text, 0x2);
}

static void pla(void)
{
    texts_that_draw();
    unreadable_lines();
    order_of_answers();
    texts_that_end_early();
    bytes_of_a_line();
    long_texts();
    every_cube();
    writing_texts();
    writing_texts_with_either();
}

/* ---- carrier profiles */

struct profile {
    uint64_t marks;
    size_t n;
    uint8_t groups[2];
};

/* Whether groups are a profile, mark by mark. */
static int is_profile(uint64_t marks, const uint8_t *groups, size_t n)
{
    int named[8] = {0}, good = n == 1 || n == 2;
    for (size_t k = 0; good && k < n; k++) {
        int size = 0;
        for (unsigned i = 0; i < 8; i++)
            if (groups[k] >> i & 1) {
                good = good && i < marks && !named[i];
                named[i] = 1;
                size++;
            }
        good = good && size >= 2;
    }
    return good;
}

/* The combinations that break a profile: none of the marks of some group is on, or a second one. */
static uint32_t breaking(uint64_t marks, const uint8_t *groups, size_t n)
{
    uint32_t set = 0;
    for (uint32_t c = 0; c < VAULT_COMBINATIONS(marks); c++)
        for (size_t k = 0; k < n; k++) {
            uint32_t on = c & groups[k];
            if (on == 0 || (on & (on - 1)) != 0)
                set |= UINT32_C(1) << c;
        }
    return set;
}

/* The form of a sheet under a profile that holds nothing, whether its standings fit it or not; and of an opened one. */
static size_t drawn_under(uint8_t form[VAULT_FORM_SIZE], const struct profile *p, uint32_t class, uint32_t either)
{
    size_t n = drawn_with(form, p->marks, class, either);
    form[n++] = (uint8_t)p->n;
    form[n++] = 0;
    memcpy(form + n, p->groups, p->n);
    return n + p->n;
}

static size_t opened_under(uint8_t form[VAULT_FORM_SIZE], const struct profile *p)
{
    return drawn_under(form, p, 0, breaking(p->marks, p->groups, p->n));
}

/* All profiles there are: 1, 4, 17 and 76 of two to five marks. */
static struct profile every_profile[98];
static size_t profiles;

static void add_profile(struct profile p)
{
    if (!is_profile(p.marks, p.groups, p.n))
        return;
    if (profiles < sizeof every_profile / sizeof *every_profile)
        every_profile[profiles] = p;
    profiles++;
}

static void find_profiles(void)
{
    static const size_t upto[] = {0, 0, 1, 5, 22, 98};
    for (uint64_t m = 1; m <= 5; m++) {
        for (unsigned pair = 0; pair < 32 * 32; pair++) {
            if (pair < 32)
                add_profile((struct profile){m, 1, {(uint8_t)pair, 0}});
            add_profile((struct profile){m, 2, {(uint8_t)(pair % 32), (uint8_t)(pair / 32)}});
        }
        check(profiles == upto[m], "the number of profiles", (long)m);
    }
}

/* Openings, written out. */
static void known_profiles(void)
{
    static const struct {
        struct profile p;
        size_t size;
        uint8_t form[40];
    } t[] = {
        {{2, 1, {3}}, 12, {2, 0, 0, 2, 0, 0, 3, 0, 0, 1, 0, 3}},
        {{3, 1, {3}}, 14, {3, 0, 0, 4, 0, 0, 3, 4, 7, 0, 0, 1, 0, 3}},
        {{3, 1, {5}}, 14, {3, 0, 0, 4, 0, 0, 2, 5, 7, 0, 0, 1, 0, 5}},
        {{3, 1, {6}}, 14, {3, 0, 0, 4, 0, 0, 1, 6, 7, 0, 0, 1, 0, 6}},
        {{4, 1, {15}}, 22, {4, 0, 0, 12, 0, 0, 3, 5, 6, 7, 9, 10, 11, 12, 13, 14, 15, 0, 0, 1, 0, 15}},
        /* the groups in the order in which they were named */
        {{4, 2, {12, 3}}, 23, {4, 0, 0, 12, 0, 0, 1, 2, 3, 4, 7, 8, 11, 12, 13, 14, 15, 0, 0, 2, 0, 12, 3}},
        {{4, 2, {5, 10}}, 23, {4, 0, 0, 12, 0, 0, 1, 2, 4, 5, 7, 8, 10, 11, 13, 14, 15, 0, 0, 2, 0, 5, 10}},
        {{5, 1, {31}}, 37, {5,  0,  0,  27, 0,  0,  3,  5,  6,  7,  9,  10, 11, 12, 13, 14, 15, 17, 18,
                            19, 20, 21, 22, 23, 24, 25, 26, 27, 28, 29, 30, 31, 0,  0,  1,  0,  31}},
        {{5, 2, {7, 24}}, 37, {5,  0,  0,  26, 0,  0,  1,  2,  3,  4,  5,  6,  7, 8, 11, 13, 14, 15, 16,
                               19, 21, 22, 23, 24, 25, 26, 27, 28, 29, 30, 31, 0, 0, 2,  0,  7,  24}},
    };
    for (size_t i = 0; i < sizeof t / sizeof *t; i++)
        writes((struct call){OPEN_PROFILE, t[i].p.groups, t[i].p.n, t[i].p.marks, 0}, t[i].form, t[i].size, t[i].size);
    writes((struct call){OPEN_PROFILE, (const uint8_t[]){7}, 1, 3, 0}, carriers, sizeof carriers, sizeof carriers);
    writes((struct call){OPEN_PROFILE, (const uint8_t[]){3, 12}, 2, 4, 0}, paired, sizeof paired, sizeof paired);
    check(VAULT_PROFILE == 13, "the number of a faulty profile", VAULT_PROFILE);
}

/* Each fault of a profile, in every room; and marks that are none come before. */
static void faulty_profiles(void)
{
    static const struct {
        uint64_t marks;
        size_t n;
        uint8_t groups[4];
    } t[] = {
        /* not one or two groups */
        {3, 0, {7}},
        {4, 3, {3, 12, 0}},
        {5, 3, {3, 12, 16}},
        {4, 4, {3, 12, 3, 12}},
        /* fewer than two marks */
        {3, 1, {0}},
        {3, 1, {4}},
        {3, 2, {3, 0}},
        {3, 2, {0, 3}},
        {3, 2, {3, 4}},
        {3, 2, {4, 3}},
        {2, 1, {2}},
        {1, 1, {1}},
        /* a mark twice */
        {3, 2, {3, 6}},
        {3, 2, {7, 7}},
        {4, 2, {15, 3}},
        {5, 2, {7, 28}},
        /* a mark that there is not */
        {1, 1, {3}},
        {2, 1, {7}},
        {3, 1, {15}},
        {4, 1, {24}},
        {4, 2, {3, 28}},
        {4, 2, {28, 3}},
        {5, 1, {63}},
        {5, 1, {0xff}},
        {5, 1, {0xe0}},
        {5, 2, {31, 0x60}},
        {5, 2, {0x83, 12}},
    };
    static const uint64_t wrong[] = {0, 6, 7, 255, 256 + 3, UINT64_C(0x100000003), UINT64_C(0x8000000000000003), UINT64_MAX};
    for (size_t i = 0; i < sizeof t / sizeof *t; i++)
        refuses((struct call){OPEN_PROFILE, t[i].groups, t[i].n, t[i].marks, 0}, VAULT_PROFILE, 0);
    refuses((struct call){OPEN_PROFILE, NULL, 0, 3, 0}, VAULT_PROFILE, 0);
    for (size_t i = 0; i < sizeof wrong / sizeof *wrong; i++) {
        refuses((struct call){OPEN_PROFILE, (const uint8_t[]){7}, 1, wrong[i], 0}, VAULT_MARKS, 0);
        refuses((struct call){OPEN_PROFILE, (const uint8_t[]){0xff, 0xff, 0xff}, 3, wrong[i], 0}, VAULT_MARKS, 0);
        refuses((struct call){OPEN_PROFILE, NULL, 0, wrong[i], 0}, VAULT_MARKS, 0);
    }
}

/* An opening as it is recounted: into an area that just suffices, and one that is a byte too short; a refused one into a long one. */
static void opens(uint64_t marks, const uint8_t *groups, size_t n)
{
    uint8_t form[VAULT_FORM_SIZE] = {0};
    struct profile p = {marks, n, {n > 0 ? groups[0] : 0, n > 1 ? groups[1] : 0}};
    int opened = marks >= 1 && marks <= 5, good = opened && is_profile(marks, groups, n);
    size_t size = good ? opened_under(form, &p) : 0;
    struct area *a = lent(good ? size : ROOM);
    struct vault_reply r = vault_open_profile(marks, groups, n, a->p, a->n);
    check(is(r, good ? VAULT_DONE : opened ? VAULT_PROFILE : VAULT_MARKS, 0, size) && holds(a, form, size), "an opening under groups", (long)marks);
    if (good) {
        a = lent(size - 1);
        check(is(vault_open_profile(marks, groups, n, a->p, a->n), VAULT_ROOM, 0, 0) && untouched(a), "a byte too short", (long)marks);
    }
}

/* Every one and every two groups. */
static void every_opening(uint64_t marks)
{
    uint8_t groups[2];
    opens(marks, groups, 0);
    opens(marks, NULL, 0);
    for (int first = 0; first < 256; first++) {
        groups[0] = (uint8_t)first;
        opens(marks, groups, 1);
        for (int second = 0; second < 256; second++) {
            groups[1] = (uint8_t)second;
            opens(marks, groups, 2);
        }
    }
}

/* Many groups, of which the first one or two would be a profile, and so many that the low bits of their number are those of one or two. */
static void many_groups(void)
{
    enum { LONG = 1000000 };
    static const size_t lengths[] = {3, 4, 5, 32, 255, 256, 257, 258, 513, 514, 65535, 65536, 65537, 65538, 131073, 131074, LONG};
    uint8_t *groups = malloc(LONG);
    size_t n = ((size_t)1 << 32) + 2;
    if (groups == NULL) {
        printf("no memory\n");
        exit(2);
    }
    for (int second = 0; second < 256; second++) {
        memset(groups, second, LONG);
        groups[0] = 3;
        for (size_t i = 0; i < sizeof lengths / sizeof *lengths; i++)
            opens((uint64_t)(second % 7), groups, lengths[i]);
    }
    free(groups);
    groups = zeros(n, "2^32 groups are");
    if (groups == NULL)
        return;
    groups[0] = 3;
    groups[1] = 12;
    for (size_t less = 0; less <= 2; less++)
        opens(4, groups, n - less);
    opens(6, groups, n);
    munmap(groups, n);
}

/* What changes a sheet keeps its profile; written out. */
static void changes_of_carriers(void)
{
    static const uint8_t less[] = {3, 2, 0, 1, 2, 5, 0, 0, 3, 5, 6, 7, 1, 0, 1, 0xef, 0, 0, 0, 1, 0, 7};
    static const uint8_t three[] = {3, 3, 0, 1, 2, 4, 5, 0, 0, 3, 5, 6, 7, 0, 0, 1, 0, 7};
    static const uint8_t in10[] = {4, 1, 0, 10, 12, 0, 0, 1, 2, 3, 4, 7, 8, 11, 12, 13, 14, 15, 0, 0, 2, 0, 3, 12};
    static const uint8_t either5[] = {4, 0, 0, 13, 0, 0, 1, 2, 3, 4, 5, 7, 8, 11, 12, 13, 14, 15, 0, 0, 2, 0, 3, 12};
    writes((struct call){ENTER, carriers, sizeof carriers, 1, 0}, nitrate, sizeof nitrate, sizeof nitrate);
    writes((struct call){ENTER, nitrate, sizeof nitrate, 2, 0}, two, sizeof two, sizeof two);
    writes((struct call){LEAVE, nitrate, sizeof nitrate, 1, 0}, carriers, sizeof carriers, sizeof carriers);
    writes((struct call){RECEIVE, two, sizeof two, 1, 240}, stocked, sizeof stocked, sizeof stocked);
    writes((struct call){WITHDRAW, stocked, sizeof stocked, 1, 1}, less, sizeof less, sizeof less);
    writes((struct call){WITHDRAW, stocked, sizeof stocked, 1, 240}, two, sizeof two, sizeof two);
    writes((struct call){MAKE_EITHER, two, sizeof two, 4, 0}, no_polyester, sizeof no_polyester, sizeof no_polyester);
    writes((struct call){LEAVE, no_polyester, sizeof no_polyester, 4, 0}, two, sizeof two, sizeof two);
    writes((struct call){ENTER, no_polyester, sizeof no_polyester, 4, 0}, three, sizeof three, sizeof three);
    writes((struct call){ENTER, paired, sizeof paired, 10, 0}, in10, sizeof in10, sizeof in10);
    writes((struct call){MAKE_EITHER, paired, sizeof paired, 5, 0}, either5, sizeof either5, sizeof either5);
    writes((struct call){COPY, carriers, sizeof carriers, 0, 0}, carriers, sizeof carriers, sizeof carriers);
    writes((struct call){COPY, stocked, sizeof stocked, 0, 0}, stocked, sizeof stocked, sizeof stocked);
    writes((struct call){COPY, no_polyester, sizeof no_polyester, 0, 0}, no_polyester, sizeof no_polyester, sizeof no_polyester);
    writes((struct call){COPY, paired, sizeof paired, 0, 0}, paired, sizeof paired, sizeof paired);
}

/* The same standings without a profile may change. */
static void changes_without_profile(void)
{
    static const uint8_t in0[] = {3, 1, 0, 0, 4, 0, 3, 5, 6, 7, 0, 0}, out7[] = {3, 0, 0, 4, 0, 0, 3, 5, 6, 0, 0};
    size_t n = sizeof carriers - 3;
    writes((struct call){COPY, carriers, n, 0, 0}, carriers, n, n);
    writes((struct call){ENTER, carriers, n, 0, 0}, in0, sizeof in0, sizeof in0);
    writes((struct call){LEAVE, carriers, n, 7, 0}, out7, sizeof out7, sizeof out7);
    refuses((struct call){MAKE_EITHER, carriers, n, 7, 0}, VAULT_STANDING, 0);
}

/* What breaks the profile stays either: 12 comes after 2 and before 3. What does not is refused as on any sheet. */
static void refusals_of_carriers(void)
{
    static const uint8_t broken[] = {0, 3, 5, 6, 7}, full_under[] = {2, 0, 0, 2, 0, 0, 3, 1, 0, 1, 0x00, 0x28, 0x6b, 0xee, 1, 0, 3};
    static const uint64_t beyond[] = {8, 9, 255, 256, 256 + 3, UINT64_C(0x100000000), UINT64_C(0x100000003), UINT64_MAX};
    for (enum entry e = ENTER; e <= MAKE_EITHER; e++) {
        for (size_t i = 0; i < sizeof broken; i++)
            refuses((struct call){e, stocked, sizeof stocked, broken[i], 0}, VAULT_EITHER, 0);
        for (size_t i = 0; i < sizeof beyond / sizeof *beyond; i++)
            refuses((struct call){e, stocked, sizeof stocked, beyond[i], 0}, VAULT_COMBINATION, 0);
        refuses((struct call){e, full_under, sizeof full_under, 0, 0}, VAULT_EITHER, 0);
        refuses((struct call){e, paired, sizeof paired, 7, 0}, VAULT_EITHER, 0);
    }
    refuses((struct call){ENTER, stocked, sizeof stocked, 2, 0}, VAULT_STANDING, 0);
    refuses((struct call){LEAVE, stocked, sizeof stocked, 4, 0}, VAULT_STANDING, 0);
    refuses((struct call){MAKE_EITHER, no_polyester, sizeof no_polyester, 4, 0}, VAULT_STANDING, 0);
    refuses((struct call){MAKE_EITHER, stocked, sizeof stocked, 1, 0}, VAULT_EITHER, 0);
    for (size_t i = 0; i < sizeof broken; i++) {
        refuses((struct call){RECEIVE, stocked, sizeof stocked, broken[i], 0}, VAULT_AMOUNT, 0);
        refuses((struct call){RECEIVE, stocked, sizeof stocked, broken[i], 1}, VAULT_EITHER, 0);
        refuses((struct call){WITHDRAW, stocked, sizeof stocked, broken[i], 36000}, VAULT_AMOUNT, 0);
        refuses((struct call){WITHDRAW, stocked, sizeof stocked, broken[i], 1}, VAULT_BELOW, 0);
    }
    refuses((struct call){RECEIVE, no_polyester, sizeof no_polyester, 4, 1}, VAULT_EITHER, 0);
    refuses((struct call){RECEIVE, stocked, sizeof stocked, 8, 0}, VAULT_COMBINATION, 0);
    refuses((struct call){RECEIVE, full_under, sizeof full_under, 3, 1}, VAULT_EITHER, 0);
    refuses((struct call){RECEIVE, full_under, sizeof full_under, 2, 1}, VAULT_ABOVE, 0);
}

/* A class change under a profile of a combination that stands so: the entries and the standings are in one order, in, out and either. */
static void change_under(const struct profile *p, enum entry e, uint64_t c, int standing)
{
    uint8_t form[VAULT_FORM_SIZE], want[VAULT_FORM_SIZE];
    int to = (int)e - ENTER, beyond = c >= VAULT_COMBINATIONS(p->marks);
    uint32_t own = beyond ? 0 : UINT32_C(1) << c, broken = breaking(p->marks, p->groups, p->n);
    size_t n = drawn_under(form, p, standing == 0 ? own : 0, standing == 2 ? broken | own : broken);
    size_t size = drawn_under(want, p, to == 0 ? own : 0, to == 2 ? broken | own : broken);
    uint64_t answer = beyond ? VAULT_COMBINATION : (broken & own) != 0 ? VAULT_EITHER : to == standing ? VAULT_STANDING : VAULT_DONE;
    struct area *a = lent(VAULT_FORM_SIZE);
    struct call call = {e, form, n, c, 0};
    size = answer == VAULT_DONE ? size : 0;
    check(is(made(&call, a->p, a->n), answer, 0, size) && holds(a, want, size), "a change under a profile", (long)c);
}

/* Of every combination, however it may stand: what breaks the profile stands in one way alone; and of numbers that are none. */
static void changes_under(const struct profile *p)
{
    uint32_t broken = breaking(p->marks, p->groups, p->n);
    for (enum entry e = ENTER; e <= MAKE_EITHER; e++) {
        for (uint64_t c = 0; c < VAULT_COMBINATIONS(p->marks); c++)
            for (int standing = broken >> c & 1 ? 2 : 0; standing <= 2; standing++)
                change_under(p, e, c, standing);
        change_under(p, e, VAULT_COMBINATIONS(p->marks), 1);
        change_under(p, e, UINT64_C(0x100000000), 1);
    }
}

/* A receipt and a withdrawal on an opened sheet. */
static void movements_under(const struct profile *p)
{
    uint8_t form[VAULT_FORM_SIZE];
    size_t n = opened_under(form, p), tail = 2 + p->n;
    for (uint64_t c = 0; c < VAULT_COMBINATIONS(p->marks); c++) {
        int breaks = (int)(breaking(p->marks, p->groups, p->n) >> c & 1);
        struct area *a = lent(VAULT_FORM_SIZE);
        check(is(vault_withdraw(form, n, c, 1, a->p, a->n), VAULT_BELOW, 0, 0) && untouched(a), "a withdrawal under a profile", (long)c);
        struct vault_reply r = vault_receive(form, n, c, 1, a->p, a->n);
        if (breaks)
            check(is(r, VAULT_EITHER, 0, 0) && untouched(a), "a receipt to what breaks the profile", (long)c);
        else
            check(is(r, VAULT_DONE, 0, n + 5) && memcmp(a->p + n + 5 - tail, form + n - tail, tail) == 0, "a receipt keeps the profile", (long)c);
    }
}

/* What may be wrong with a profile behind a sheet, field by field. Up to the count of groups most are an opened sheet of marks 0 and 1. */
static void faulty_ends(void)
{
    static const struct bad bad[] = {
        /* it ends early; what is cut short is not judged */
        {{1, 0, 0, 0, 0, 0, 0, 0}, 8, 10, 8},
        {{2, 0, 0, 2, 0, 0, 3, 0, 0, 0}, 10, 10, 10},
        {{2, 0, 0, 2, 0, 0, 3, 0, 0, 1}, 10, 10, 10},
        {{2, 0, 0, 2, 0, 0, 3, 0, 0, 255}, 10, 10, 10},
        {{2, 0, 0, 2, 0, 0, 3, 0, 0, 1, 0}, 11, 10, 11},
        {{2, 0, 0, 2, 0, 0, 3, 0, 0, 2, 0}, 11, 10, 11},
        {{2, 0, 0, 2, 0, 0, 3, 0, 0, 2, 0, 3}, 12, 10, 12},
        /* the count, whatever stands behind it */
        {{1, 0, 0, 0, 0, 0, 0, 0, 0}, 9, 10, 7},
        {{2, 0, 0, 2, 0, 0, 3, 0, 0, 0, 0}, 11, 10, 9},
        {{2, 0, 0, 2, 0, 0, 3, 0, 0, 0, 0, 3}, 12, 10, 9},
        {{2, 0, 0, 2, 0, 0, 3, 0, 0, 3, 0}, 11, 10, 9},
        {{2, 0, 0, 2, 0, 0, 3, 0, 0, 3, 0, 3, 3, 3}, 14, 10, 9},
        {{2, 0, 0, 2, 0, 0, 3, 0, 0, 0, 1, 3}, 12, 10, 9},
        {{2, 0, 0, 2, 0, 0, 3, 0, 0, 1, 1, 3}, 12, 10, 9},
        {{2, 0, 0, 2, 0, 0, 3, 0, 0, 2, 1, 3, 3}, 13, 10, 9},
        {{2, 0, 0, 2, 0, 0, 3, 0, 0, 255, 255}, 11, 10, 9},
        /* a group: fewer than two marks, a mark that there is not, a mark of the one before */
        {{2, 0, 0, 2, 0, 0, 3, 0, 0, 1, 0, 0}, 12, 10, 11},
        {{2, 0, 0, 2, 0, 0, 3, 0, 0, 1, 0, 2}, 12, 10, 11},
        {{2, 0, 0, 2, 0, 0, 3, 0, 0, 1, 0, 7}, 12, 10, 11},
        {{2, 0, 0, 2, 0, 0, 3, 0, 0, 1, 0, 0x83}, 12, 10, 11},
        {{2, 0, 0, 2, 0, 0, 3, 0, 0, 2, 0, 1}, 12, 10, 11},
        {{2, 0, 0, 2, 0, 0, 3, 0, 0, 2, 0, 0, 3}, 13, 10, 11},
        {{2, 0, 0, 2, 0, 0, 3, 0, 0, 2, 0, 3, 0}, 13, 10, 12},
        {{2, 0, 0, 2, 0, 0, 3, 0, 0, 2, 0, 3, 3}, 13, 10, 12},
        {{2, 0, 0, 2, 0, 0, 3, 0, 0, 2, 0, 3, 12}, 13, 10, 12},
        {{1, 0, 0, 0, 0, 0, 0, 1, 0, 3}, 10, 10, 9},
        {{3, 0, 0, 0, 0, 0, 0, 2, 0, 3, 6}, 11, 10, 10},
        /* a combination that breaks it: in the class, out, out and holding something, all of them out */
        {{2, 1, 0, 0, 1, 0, 3, 0, 0, 1, 0, 3}, 12, 10, 9},
        {{2, 1, 0, 3, 1, 0, 0, 0, 0, 1, 0, 3}, 12, 10, 9},
        {{2, 0, 0, 1, 0, 3, 0, 0, 1, 0, 3}, 11, 10, 8},
        {{2, 0, 0, 1, 0, 0, 0, 0, 1, 0, 3}, 11, 10, 8},
        {{2, 0, 0, 1, 0, 3, 1, 0, 0, 5, 0, 0, 0, 1, 0, 3}, 16, 10, 13},
        {{2, 0, 0, 0, 0, 0, 0, 1, 0, 3}, 10, 10, 7},
        /* behind a faulty group and one that is missing, and before what is left over */
        {{2, 0, 0, 0, 0, 0, 0, 1, 0, 7}, 10, 10, 9},
        {{2, 0, 0, 0, 0, 0, 0, 1, 0}, 9, 10, 9},
        {{4, 0, 0, 0, 0, 0, 0, 2, 0, 3}, 10, 10, 10},
        {{4, 0, 0, 0, 0, 0, 0, 2, 0, 3, 6}, 11, 10, 10},
        {{4, 0, 0, 0, 0, 0, 0, 2, 0, 3, 12}, 11, 10, 7},
        {{2, 0, 0, 0, 0, 0, 0, 1, 0, 3, 0}, 11, 10, 7},
        /* what is left over */
        {{2, 0, 0, 2, 0, 0, 3, 0, 0, 1, 0, 3, 0}, 13, 10, 12},
        {{2, 0, 0, 2, 0, 0, 3, 0, 0, 1, 0, 3, 1, 0, 3}, 15, 10, 12},
    };
    unreadable_sheets(bad, sizeof bad / sizeof *bad);
}

/* A form of which any number of bytes is cut off: where they are just its profile, a sheet without one is left. */
static void cut_forms(const uint8_t *form, size_t n, size_t plain)
{
    for (size_t k = 0; k < n; k++)
        if (k == plain)
            writes((struct call){COPY, form, k, 0, 0}, form, k, k);
        else
            refuses((struct call){COPY, form, k, 0, 0}, VAULT_UNREADABLE, k);
}

/* What reading answers to bytes behind a sheet of so many marks with these either combinations, which has n bytes: from the rules, field by field. */
static struct vault_reply end_recounted(uint64_t marks, uint32_t either, size_t n, const uint8_t *end, size_t size)
{
    const struct vault_reply early = {VAULT_UNREADABLE, n + size, 0}, count = {VAULT_UNREADABLE, n, 0};
    size_t groups = size < 2 ? 0 : end[0] + (size_t)256 * end[1];
    if (size == 0)
        return (struct vault_reply){VAULT_DONE, 0, n};
    if (size < 2)
        return early;
    if (groups != 1 && groups != 2)
        return count;
    for (size_t k = 0; k < groups; k++) {
        if (size < 3 + k)
            return early;
        if (!is_profile(marks, end + 2, k + 1))
            return (struct vault_reply){VAULT_UNREADABLE, n + 2 + k, 0};
    }
    if ((breaking(marks, end + 2, groups) & ~either) != 0)
        return count;
    if (size > 2 + groups)
        return (struct vault_reply){VAULT_UNREADABLE, n + 2 + groups, 0};
    return (struct vault_reply){VAULT_DONE, 0, n + size};
}

/* Bytes behind a sheet are read so, and what is read is written again. */
static void ends(uint64_t marks, uint32_t class, uint32_t either, const uint8_t *end, size_t size)
{
    uint8_t form[VAULT_FORM_SIZE];
    size_t n = drawn_with(form, marks, class, either);
    struct vault_reply want = end_recounted(marks, either, n, end, size);
    memcpy(form + n, end, size);
    struct area *a = lent(VAULT_FORM_SIZE);
    struct vault_reply r = vault_copy(form, n + size, a->p, a->n);
    check(is(r, want.answer, want.place, want.value) && holds(a, form, (size_t)want.value), "what stands behind a sheet", (long)want.place);
}

/* Every two groups, and the first of them alone, behind a sheet of which all are either; with a byte left over, and with one fewer than the count says. */
static void every_end(uint64_t marks)
{
    uint32_t all = (uint32_t)((UINT64_C(1) << VAULT_COMBINATIONS(marks)) - 1);
    for (unsigned pair = 0; pair < 256 * 256; pair++) {
        uint8_t end[] = {2, 0, (uint8_t)(pair / 256), (uint8_t)(pair % 256), 0};
        ends(marks, 0, all, end, 4);
        if (pair % 256 == 0) {
            ends(marks, 0, all, end, 3);
            end[0] = 1;
            ends(marks, 0, all, end, 3);
            ends(marks, 0, all, end, 4);
        }
        if (is_profile(marks, end + 2, 2))
            ends(marks, 0, all, end, 5);
    }
}

/* A profile behind the sheet that is opened under it: with every count, cut off anywhere, and with bytes left over. */
static void ends_under(const struct profile *p)
{
    uint32_t broken = breaking(p->marks, p->groups, p->n);
    uint8_t end[8] = {(uint8_t)p->n, 0, p->groups[0], p->groups[1], 3, 0, 0, 1};
    for (size_t size = 0; size <= sizeof end; size++)
        ends(p->marks, 0, broken, end, size);
    for (unsigned count = 0; count < 256; count++) {
        end[0] = (uint8_t)count;
        end[1] = 0;
        ends(p->marks, 0, broken, end, 2 + p->n);
        end[0] = (uint8_t)p->n;
        end[1] = (uint8_t)count;
        ends(p->marks, 0, broken, end, 2 + p->n);
    }
}

/* A profile behind sheets that fit another, or in which one combination stands in the class, out or either; and a sheet of which none is either. */
static void fits(const struct profile *p)
{
    uint32_t broken = breaking(p->marks, p->groups, p->n);
    uint8_t end[] = {(uint8_t)p->n, 0, p->groups[0], p->groups[1]};
    for (size_t i = 0; i < profiles; i++)
        if (every_profile[i].marks == p->marks)
            ends(p->marks, 0, breaking(p->marks, every_profile[i].groups, every_profile[i].n), end, 2 + p->n);
    for (uint32_t c = 0; c < VAULT_COMBINATIONS(p->marks); c++) {
        uint32_t own = UINT32_C(1) << c;
        ends(p->marks, own, broken & ~own, end, 2 + p->n);
        ends(p->marks, 0, broken & ~own, end, 2 + p->n);
        ends(p->marks, 0, broken | own, end, 2 + p->n);
    }
    ends(p->marks, 0, 0, end, 2 + p->n);
}

/* Lists under a profile, worked out by hand. What breaks it may be in a line, and need not be. */
static void lists_under(void)
{
    static const struct {
        struct profile p;
        uint32_t class, either;
        size_t lines;
        uint8_t list[2];
    } t[] = {
        /* one of three carriers: none, each, each two, all three */
        {{3, 1, {7}}, 0x00, 0, 0, {0}},
        {{3, 1, {7}}, 0x02, 0, 1, {1}},
        {{3, 1, {7}}, 0x04, 0, 1, {3}},
        {{3, 1, {7}}, 0x10, 0, 1, {9}},
        {{3, 1, {7}}, 0x06, 0, 1, {8}},
        {{3, 1, {7}}, 0x12, 0, 1, {20}},
        {{3, 1, {7}}, 0x14, 0, 1, {24}},
        {{3, 1, {7}}, 0x16, 0, 1, {26}},
        /* and one or two of them either, beside those that are so always */
        {{3, 1, {7}}, 0x06, 0x10, 1, {8}},
        {{3, 1, {7}}, 0x02, 0x14, 1, {1}},
        {{3, 1, {7}}, 0x00, 0x16, 0, {0}},
        /* one of two marks: 01 and 10 are in the class, or one of them; 11 and 00 are either */
        {{2, 1, {3}}, 0x2, 0, 1, {1}},
        {{2, 1, {3}}, 0x6, 0, 1, {8}},
        /* two groups: 0101; 01--; 0101 and 1010, in which no line of both is without 0110; 01-- and 1001; all */
        {{4, 2, {3, 12}}, 0x0020, 0, 1, {10}},
        {{4, 2, {3, 12}}, 0x0060, 0, 1, {17}},
        {{4, 2, {3, 12}}, 0x0420, 0, 2, {10, 30}},
        {{4, 2, {12, 3}}, 0x0420, 0, 2, {10, 30}},
        {{4, 2, {3, 12}}, 0x0260, 0, 2, {17, 28}},
        {{4, 2, {3, 12}}, 0x0660, 0, 1, {80}},
        /* carriers, and two more marks: nitrate with mark 3; not on polyester; with a group of the two, 010-- and 10100 */
        {{5, 1, {7}}, 0x02000200, 0, 1, {190}},
        {{5, 1, {7}}, 0x06060606, 0, 1, {224}},
        {{5, 2, {7, 24}}, 0x00100600, 0, 2, {35, 90}},
    };
    uint8_t form[VAULT_FORM_SIZE];
    for (size_t i = 0; i < sizeof t / sizeof *t; i++) {
        const struct profile *p = &t[i].p;
        size_t n = drawn_under(form, p, t[i].class, t[i].either | breaking(p->marks, p->groups, p->n));
        writes((struct call){LIST, form, n, 0, 0}, t[i].list, t[i].lines, VAULT_LIST_ROOM(p->marks));
        check(judged(verdict(form, n, t[i].list, t[i].lines), VAULT_DONE, 0, VAULT_FITS, 0), "it fits under a profile", (long)i);
    }
}

/* What is told of sheets under a profile: nitrate and acetate are in the class, polyester is out. */
static void told_under(void)
{
    static const struct {
        size_t n;
        uint8_t list[3];
        uint64_t fault, at;
    } t[] = {
        {1, {8}, VAULT_FITS, 0},       {2, {3, 1}, VAULT_FITS, 0},    {3, {1, 3, 13}, VAULT_FITS, 0},  {2, {8, 13}, VAULT_FITS, 0},
        {2, {8, 4}, VAULT_OVERLAP, 1}, {1, {26}, VAULT_LEAVES, 0},    {3, {1, 3, 9}, VAULT_LEAVES, 2}, {1, {3}, VAULT_UNCOVERED, 1},
        {1, {13}, VAULT_UNCOVERED, 1}, {2, {26, 27}, VAULT_NO_BOX, 1},
    };
    for (size_t i = 0; i < sizeof t / sizeof *t; i++)
        check(judged(verdict(stocked, sizeof stocked, t[i].list, t[i].n), VAULT_DONE, 0, t[i].fault, t[i].at), "a list under a profile", (long)i);
    for (uint64_t b = 0; b < VAULT_LINES(3); b++) {
        uint64_t either = 0;
        for (uint64_t c = 0; c < 8; c++)
            either += has(3, b, c) && c != 1 && c != 2 && c != 4;
        check(is(vault_outside(stocked, sizeof stocked, b), VAULT_DONE, 0, (uint64_t)has(3, b, 4)), "vault_outside under a profile", (long)b);
        check(is(vault_either(stocked, sizeof stocked, b), VAULT_DONE, 0, either), "vault_either under a profile", (long)b);
        check(is(vault_held(stocked, sizeof stocked, b), VAULT_DONE, 0, has(3, b, 1) ? 240 : 0), "vault_held under a profile", (long)b);
    }
    check(is(vault_class_size(stocked, sizeof stocked), VAULT_DONE, 0, 2), "class size under a profile", 0);
    check(is(vault_total(stocked, sizeof stocked), VAULT_DONE, 0, 240), "total under a profile", 0);
    writes((struct call){LIST, stocked, sizeof stocked, 0, 0}, (const uint8_t[]){8}, 1, 4);
}

/* PLA texts and old forms have no profile: behind an old form one is left over, and what is opened under one is no old form. */
static void without_profile(void)
{
    static const uint8_t old[] = {3, 0, 0, 0, 0, 1, 0, 7};
    uint8_t form[sizeof sample1 + 3] = {0};
    text_with(stocked, sizeof stocked, ".i 3\n.o 1\n.p 1\n0-- 1\n.e\n", 0x0f);
    text_with(carriers, sizeof carriers, ".i 3\n.o 1\n.p 0\n.e\n", 0);
    text_with(paired, sizeof paired, ".i 4\n.o 1\n.p 0\n.e\n", 0);
    for (size_t n = 6; n <= sizeof old; n++)
        refuses((struct call){FROM_FORM1, old, n, 0, 0}, VAULT_UNREADABLE, 5);
    memcpy(form, sample1, sizeof sample1);
    memcpy(form + sizeof sample1, (const uint8_t[]){1, 0, 3}, 3);
    refuses((struct call){FROM_FORM1, form, sizeof form, 0, 0}, VAULT_UNREADABLE, sizeof sample1);
    /* five held combinations, of which the second, at 10, is again 0 */
    refuses((struct call){FROM_FORM1, carriers, sizeof carriers, 0, 0}, VAULT_UNREADABLE, 10);
}

static void carrier_profiles(void)
{
    find_profiles();
    known_profiles();
    faulty_profiles();
    for (uint64_t m = 0; m <= 6; m++)
        every_opening(m);
    many_groups();
    changes_of_carriers();
    changes_without_profile();
    refusals_of_carriers();
    faulty_ends();
    cut_forms(carriers, sizeof carriers, sizeof carriers - 3);
    cut_forms(stocked, sizeof stocked, sizeof stocked - 3);
    cut_forms(paired, sizeof paired, sizeof paired - 4);
    for (uint64_t m = 1; m <= 5; m++)
        every_end(m);
    for (size_t i = 0; i < profiles; i++) {
        changes_under(&every_profile[i]);
        movements_under(&every_profile[i]);
        ends_under(&every_profile[i]);
        fits(&every_profile[i]);
    }
    lists_under();
    told_under();
    without_profile();
}

/* ---- a list always exists, and half as many bytes as there are combinations have room for it */

/* The sheet gets a list that fits, in an area of 2^(m - 1) bytes, and 5 in one of a byte less. */
static void has_list(const uint8_t *form, size_t n, uint64_t marks, long which)
{
    uint8_t list[VAULT_LIST_SIZE];
    size_t room = VAULT_LIST_ROOM(marks);
    struct vault_reply r = vault_list(form, n, list, room);
    check(r.answer == VAULT_DONE && r.value <= room, "every sheet has a list", which);
    check(judged(verdict(form, n, list, (size_t)r.value), VAULT_DONE, 0, VAULT_FITS, 0), "that fits", which);
    check(is(vault_list(form, n, list, room - 1), VAULT_ROOM, 0, 0), "which asks for room", which);
}

/* Every sheet of up to three marks; and, under every profile that at most eight combinations of its marks do not break, whatever of these is in. */
static void always_a_list(void)
{
    uint8_t form[VAULT_FORM_SIZE];
    for (uint64_t marks = 1; marks <= 3; marks++)
        for (uint32_t class = 0; class < UINT32_C(1) << VAULT_COMBINATIONS(marks); class++)
            for (uint32_t either = 0; either < UINT32_C(1) << VAULT_COMBINATIONS(marks); either++)
                if ((class & either) == 0)
                    has_list(form, drawn_with(form, marks, class, either), marks, (long)class);
    for (size_t i = 0; i < profiles; i++) {
        const struct profile *p = &every_profile[i];
        uint32_t broken = breaking(p->marks, p->groups, p->n), others = UINT32_MAX >> (32 - VAULT_COMBINATIONS(p->marks)) & ~broken;
        for (uint32_t class = others; __builtin_popcount(others) <= 8; class = (class - 1) & others) {
            has_list(form, drawn_under(form, p, class, broken), p->marks, (long)i);
            if (class == 0)
                break;
        }
    }
}

/* The line of one combination alone: its digits are the marks. */
static uint8_t alone(uint32_t c)
{
    uint8_t line = 0;
    for (int i = VAULT_MOST_MARKS - 1; i >= 0; i--)
        line = (uint8_t)(line * 3 + (c >> i & 1));
    return line;
}

/* The combinations with an even number of marks on, or those with an odd number: no line has two of them, so that their list fills the room. */
static void fills(uint64_t marks, int odd)
{
    uint8_t form[VAULT_FORM_SIZE], want[VAULT_LIST_SIZE];
    uint32_t class = 0;
    size_t lines = 0;
    for (uint32_t c = 0; c < VAULT_COMBINATIONS(marks); c++)
        if (__builtin_popcount(c) % 2 == odd) {
            class |= UINT32_C(1) << c;
            want[lines++] = alone(c);
        }
    check(lines == VAULT_LIST_ROOM(marks), "half of the combinations", (long)marks);
    writes((struct call){LIST, form, drawn_with(form, marks, class, 0), 0, 0}, want, lines, lines);
}

/* Both sides of the limit for every number of marks, at every length: with no line, with one, with as many as there are; with all either; one mark
   asks for a byte, also of an empty class. */
static void list_room(void)
{
    static const uint8_t none[VAULT_LIST_SIZE];
    uint8_t form[VAULT_FORM_SIZE];
    check(VAULT_LIST_SIZE == VAULT_LIST_ROOM(VAULT_MOST_MARKS) && VAULT_LIST_ROOM(1) == 1, "the room that always suffices", 0);
    for (uint64_t marks = 1; marks <= VAULT_MOST_MARKS; marks++) {
        uint32_t all = UINT32_MAX >> (32 - VAULT_COMBINATIONS(marks));
        uint8_t free_line = (uint8_t)(VAULT_LINES(marks) - 1);
        writes((struct call){LIST, form, drawn_with(form, marks, 0, 0), 0, 0}, none, 0, VAULT_LIST_ROOM(marks));
        writes((struct call){LIST, form, drawn_with(form, marks, 0, all), 0, 0}, none, 0, VAULT_LIST_ROOM(marks));
        writes((struct call){LIST, form, drawn_with(form, marks, all, 0), 0, 0}, &free_line, 1, VAULT_LIST_ROOM(marks));
        fills(marks, 0);
        fills(marks, 1);
    }
}

/* Threads with the stack that the header names and some for the C library itself (or the least there is), each on its own areas. */
static void *night(void *arg)
{
    uint8_t form[2][VAULT_FORM_SIZE], list[VAULT_LIST_SIZE];
    char text[VAULT_PLA_SIZE];
    unsigned long seed = (unsigned long)(size_t)arg, wrong = 0;
    size_t n = (size_t)vault_open(5, form[0], VAULT_FORM_SIZE).value;
    uint64_t size = 0, total = 0;
    int now = 0;
    for (int i = 0; i < 400; i++) {
        seed = seed * 1103515245 + 12345;
        uint64_t c = seed / 65536 % 32;
        struct vault_reply r = vault_enter(form[now], n, c, form[!now], VAULT_FORM_SIZE);
        if (r.answer == VAULT_DONE) {
            total += vault_held(form[now], n, 0).value * (c == 0);
            n = (size_t)r.value;
            now = !now;
            size++;
        }
        r = vault_receive(form[now], n, 0, 7, form[!now], VAULT_FORM_SIZE);
        n = (size_t)r.value;
        now = !now;
        total += vault_outside(form[now], n, 0).value == 0 ? 7 : 0;
        r = vault_list(form[now], n, list, sizeof list);
        wrong += r.answer != VAULT_DONE || (size > 0 && r.value == 0) || vault_class_size(form[now], n).value != size ||
                 vault_total(form[now], n).value != total;
        struct vault_verdict v = vault_check_list(form[now], n, list, (size_t)r.value);
        wrong += v.answer != VAULT_DONE || v.fault != VAULT_FITS;
        r = vault_write_pla(form[now], n, text, sizeof text);
        wrong += r.answer != VAULT_DONE || vault_read_pla(text, (size_t)r.value, form[!now], VAULT_FORM_SIZE).value != 7 + size;
        wrong += vault_make_either(sample, sizeof sample, 2, form[!now], VAULT_FORM_SIZE).value != sizeof sample;
        wrong += vault_list(form[!now], sizeof sample, list, sizeof list).value != 1 || list[0] != 7;
        wrong += vault_from_form1(sample1, sizeof sample1, form[!now], VAULT_FORM_SIZE).value != sizeof sample;
        wrong += vault_open_profile(3, (const uint8_t[]){7}, 1, form[!now], VAULT_FORM_SIZE).value != sizeof carriers;
        wrong += memcmp(form[!now], carriers, sizeof carriers) != 0 || vault_list(two, sizeof two, list, sizeof list).value != 1 || list[0] != 8;
        struct vault_time time = seed % 2 ? vault_read_time("1:30:00", 7) : vault_read_time("90:00", 5);
        wrong += time.answer != VAULT_DONE || time.value != 5400 || time.form != (seed % 2 ? VAULT_IN_HOURS : VAULT_IN_MINUTES);
    }
    return (void *)(size_t)wrong;
}

static void threads(void)
{
    pthread_t t[4];
    pthread_attr_t small;
    long stack = (64 + 16) * 1024, least = sysconf(_SC_THREAD_STACK_MIN);
    pthread_attr_init(&small);
    check(pthread_attr_setstacksize(&small, (size_t)(least > stack ? least : stack)) == 0, "a small stack", 0);
    for (size_t i = 0; i < 4; i++)
        check(pthread_create(&t[i], &small, night, (void *)(i + 1)) == 0, "a thread", (long)i);
    for (size_t i = 0; i < 4; i++) {
        void *wrong = NULL;
        pthread_join(t[i], &wrong);
        check(wrong == NULL, "what a thread was told", (long)i);
    }
}

int main(void)
{
    opening();
    class_changes();
    either_changes();
    movements();
    either_movements();
    reading();
    copying();
    old_forms();
    listing();
    listing_either();
    lines();
    comparing();
    checking();
    times();
    pla();
    carrier_profiles();
    always_a_list();
    list_room();
    threads();
    printf("boundary: %d checks, %d failed\n", checks, faults);
    return faults != 0;
}
