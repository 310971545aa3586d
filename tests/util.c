/* Each function of vault_util.h against the library: patterns and single lines against the numbers and lists of sheets, patterns read against those
   written, times against the reading of times, a sheet that swaps its areas against the entries with areas of their own, and the groups that it tells
   against those that it was opened with. Prints what failed and the number of checks; the exit status is 0 only if none failed. */
#include "vault_util.h"
#include <inttypes.h>
#include <stdio.h>
#include <string.h>

static int checks, faults;

static void check(int good, const char *what, uint64_t which)
{
    checks++;
    if (!good) {
        faults++;
        printf("FAILED: %s (%" PRIu64 ")\n", what, which);
    }
}

static int same(struct vault_reply a, struct vault_reply b)
{
    return a.answer == b.answer && a.place == b.place && a.value == b.value;
}

static int alike(struct vault_verdict a, struct vault_verdict b)
{
    return a.answer == b.answer && a.place == b.place && a.fault == b.fault && a.at == b.at;
}

/* ---- answers and faults */

static void answers(void)
{
    const char *none = vault_answer_text(14);
    for (uint64_t a = 0; a <= VAULT_PROFILE; a++) {
        int unused = a == 6 || a == 11; /* 11 is a number of the program months alone */
        check((strcmp(vault_answer_text(a), none) == 0) == unused, "an answer without words", a);
        for (uint64_t b = 0; b < a && !unused; b++)
            check(strcmp(vault_answer_text(a), vault_answer_text(b)) != 0, "two answers with the same words", a);
    }
    check(strcmp(vault_answer_text(UINT64_MAX), none) == 0 && strcmp(vault_answer_text(UINT64_C(0x100000000)), none) == 0, "no answer", 0);
}

static void fault_words(void)
{
    const char *none = vault_fault_text(5);
    for (uint64_t a = 0; a <= 4; a++) {
        check(strcmp(vault_fault_text(a), none) != 0, "a fault without words", a);
        for (uint64_t b = 0; b < a; b++)
            check(strcmp(vault_fault_text(a), vault_fault_text(b)) != 0, "two faults with the same words", a);
    }
    check(strcmp(vault_fault_text(UINT64_MAX), none) == 0 && strcmp(vault_fault_text(UINT64_C(0x100000000)), none) == 0, "no fault", 0);
}

/* ---- lines */

static int pattern_has(const char *pattern, uint64_t marks, uint64_t c)
{
    int has = strlen(pattern) == marks;
    for (uint64_t i = 0; has && i < marks; i++)
        has = pattern[i] == '-' || pattern[i] == ((c >> (marks - 1 - i)) % 2 ? '1' : '0');
    return has;
}

/* The class of all that a pattern has is one line, that one, and each combination is outside it or not as the library says. */
static void pattern(uint64_t marks, uint64_t line)
{
    char text[VAULT_PATTERN_SIZE], again[VAULT_PATTERN_SIZE];
    uint8_t list[VAULT_LIST_SIZE];
    struct vault_sheet s;
    uint64_t outside;
    vault_line_pattern(marks, line, text);
    vault_sheet_open(&s, marks);
    outside = vault_sheet_outside(&s, line).value;
    for (uint64_t c = 0; c < VAULT_COMBINATIONS(marks); c++) {
        if (!pattern_has(text, marks, c))
            continue;
        vault_sheet_enter(&s, c);
        check(vault_sheet_outside(&s, line).value == --outside, "a combination of a pattern", line);
    }
    check(outside == 0, "a pattern has all of its line", line);
    struct vault_reply r = vault_sheet_list(&s, list);
    check(r.value == 1 && list[0] == line, "the list of a pattern", line);
    check(strcmp(vault_line_pattern(marks, list[0], again), text) == 0, "the pattern of a list", line);
    check(vault_pattern_line(marks, text, strlen(text)) == line, "the line of a pattern", line);
    uint64_t c = vault_pattern_combination(marks, text, strlen(text));
    check(strchr(text, '-') != NULL ? c == VAULT_MOST_COMBINATIONS : vault_line_of(c) == line, "the combination of a pattern", line);
}

/* What is no pattern of these marks is none of a line, and none of a combination. */
static int no_pattern(uint64_t marks, const char *text, size_t size)
{
    return vault_pattern_line(marks, text, size) == VAULT_MOST_LINES && vault_pattern_combination(marks, text, size) == VAULT_MOST_COMBINATIONS;
}

/* A pattern with another byte at one place, with one more, and with one less: the line and the combination that have it as their pattern, if there are
   such, and else none. */
static void patterns_spoiled(void)
{
    char text[] = "100110", own[VAULT_PATTERN_SIZE];
    for (uint64_t marks = 1; marks <= VAULT_MOST_MARKS; marks++) {
        size_t size = (size_t)marks;
        for (size_t i = 0; i < size; i++) {
            char was = text[i];
            for (int byte = 0; byte < 256; byte++) {
                text[i] = (char)byte;
                uint64_t line = vault_pattern_line(marks, text, size), c = vault_pattern_combination(marks, text, size);
                int fixed = byte == '0' || byte == '1', sign = fixed || byte == '-';
                check(sign ? memcmp(vault_line_pattern(marks, line, own), text, size) == 0 : line == VAULT_MOST_LINES, "a byte of a pattern", i);
                check(fixed ? vault_line_of(c) == line : c == VAULT_MOST_COMBINATIONS, "a byte of a combination", i);
            }
            text[i] = was;
        }
        for (size_t n = 0; n < sizeof text; n++)
            check(no_pattern(marks, text, n) == (n != size), "a pattern of another length", n);
        check(no_pattern(marks, NULL, 0), "no pattern", marks);
        check(no_pattern(marks, text, size + ((size_t)1 << 32)), "a length above 2^32", marks);
    }
    check(no_pattern(0, text, 0) && no_pattern(6, text, 6), "no marks, and six", 0);
    check(no_pattern(UINT64_C(0x100000002), text, 2), "marks above 2^32", 0);
}

static void patterns(void)
{
    static const uint64_t none[][2] = {{0, 0}, {6, 0}, {2, 9}, {5, 243}, {1, UINT64_MAX}, {UINT64_MAX, 0}, {UINT64_C(0x100000002), 1}};
    char text[VAULT_PATTERN_SIZE];
    for (uint64_t marks = 1; marks <= VAULT_MOST_MARKS; marks++)
        for (uint64_t line = 0; line < VAULT_LINES(marks); line++)
            pattern(marks, line);
    for (size_t i = 0; i < sizeof none / sizeof *none; i++)
        check(vault_line_pattern(none[i][0], none[i][1], text) == text && text[0] == '\0', "a pattern of no line", i);
    check(strcmp(vault_line_pattern(3, 21, text), "-10") == 0, "line 21 of three marks", 21);
}

/* What is received under one combination is held by its line, and by no other single one. */
static void single(uint64_t marks, uint64_t c)
{
    struct vault_sheet s;
    char text[VAULT_PATTERN_SIZE];
    uint64_t line = vault_line_of(c);
    vault_sheet_open(&s, marks);
    vault_sheet_receive(&s, c, c + 1);
    for (uint64_t d = 0; d < VAULT_COMBINATIONS(marks); d++)
        check(vault_sheet_held(&s, vault_line_of(d)).value == (d == c ? c + 1 : 0), "a single combination", c);
    check(pattern_has(vault_line_pattern(marks, line, text), marks, c) && strchr(text, '-') == NULL, "its pattern", c);
    check(vault_pattern_combination(marks, text, (size_t)marks) == c, "the combination of its pattern", c);
}

static void singles(void)
{
    static const uint64_t above[] = {32, 33, 64, 255, 256, UINT64_C(0x100000000), UINT64_MAX};
    for (uint64_t marks = 1; marks <= VAULT_MOST_MARKS; marks++) {
        for (uint64_t c = 0; c < VAULT_COMBINATIONS(marks); c++)
            single(marks, c);
        for (uint64_t c = VAULT_COMBINATIONS(marks); c < VAULT_MOST_COMBINATIONS; c++)
            check(vault_line_of(c) >= VAULT_LINES(marks), "a combination of more marks", c);
    }
    for (size_t i = 0; i < sizeof above / sizeof *above; i++)
        check(vault_line_of(above[i]) >= VAULT_MOST_LINES, "no combination", i);
}

/* ---- times */

static void times(void)
{
    static const uint64_t more[] = {36000, 59999, 60000, VAULT_MOST_HELD, UINT64_C(0x100000000), UINT64_MAX - 1, UINT64_MAX};
    char text[VAULT_TIME_SIZE], want[64];
    for (uint64_t t = 0; t <= VAULT_MOST_AMOUNT; t++) {
        vault_time_text(t, text);
        struct vault_time r = vault_read_time(text, strlen(text));
        check(r.answer == VAULT_DONE && r.value == t && r.form == VAULT_IN_MINUTES, "a time is read back", t);
    }
    for (size_t i = 0; i < sizeof more / sizeof *more; i++) {
        snprintf(want, sizeof want, "%" PRIu64 ":%02" PRIu64, more[i] / 60, more[i] % 60);
        check(vault_time_text(more[i], text) == text && strcmp(text, want) == 0, "a longer time", i);
        check(vault_read_time(text, strlen(text)).answer == VAULT_UNREADABLE, "a longer time is not read", i);
    }
    check(strlen(want) + 1 == VAULT_TIME_SIZE, "the room of a time", strlen(want));
}

/* ---- sheets */

static struct vault_reply changed(struct vault_sheet *s, int kind, uint64_t c, uint64_t seconds)
{
    switch (kind) {
    case 0: return vault_sheet_enter(s, c);
    case 1: return vault_sheet_leave(s, c);
    case 2: return vault_sheet_receive(s, c, seconds);
    case 3: return vault_sheet_withdraw(s, c, seconds);
    default: return vault_sheet_make_either(s, c);
    }
}

static struct vault_reply called(const uint8_t *sheet, size_t size, int kind, uint64_t c, uint64_t seconds, uint8_t *out)
{
    switch (kind) {
    case 0: return vault_enter(sheet, size, c, out, VAULT_FORM_SIZE);
    case 1: return vault_leave(sheet, size, c, out, VAULT_FORM_SIZE);
    case 2: return vault_receive(sheet, size, c, seconds, out, VAULT_FORM_SIZE);
    case 3: return vault_withdraw(sheet, size, c, seconds, out, VAULT_FORM_SIZE);
    default: return vault_make_either(sheet, size, c, out, VAULT_FORM_SIZE);
    }
}

static int holds(const struct vault_sheet *s, const uint8_t *bytes, size_t size)
{
    return vault_sheet_size(s) == size && memcmp(vault_sheet_bytes(s), bytes, size) == 0;
}

/* What is told of a sheet, by both. */
static void tells(const struct vault_sheet *s, const uint8_t *bytes, size_t size, uint64_t line)
{
    uint8_t list[VAULT_LIST_SIZE] = {0}, want[VAULT_LIST_SIZE] = {0};
    int lists = same(vault_sheet_list(s, list), vault_list(bytes, size, want, sizeof want));
    check(lists && memcmp(list, want, sizeof want) == 0, "the list", line);
    for (size_t n = 0; n <= sizeof list; n += 1 + n / 3)
        check(alike(vault_sheet_check_list(s, list, n), vault_check_list(bytes, size, want, n)), "a list that is checked", line);
    char text[VAULT_PLA_SIZE] = {0}, as_text[VAULT_PLA_SIZE] = {0};
    int texts = same(vault_sheet_write_pla(s, text), vault_write_pla(bytes, size, as_text, sizeof as_text));
    check(texts && memcmp(text, as_text, sizeof text) == 0, "the PLA text", line);
    check(same(vault_sheet_class_size(s), vault_class_size(bytes, size)), "the class size", line);
    check(same(vault_sheet_total(s), vault_total(bytes, size)), "the total", line);
    check(same(vault_sheet_outside(s, line), vault_outside(bytes, size, line)), "what is outside", line);
    check(same(vault_sheet_either(s, line), vault_either(bytes, size, line)), "what is either", line);
    check(same(vault_sheet_held(s, line), vault_held(bytes, size, line)), "what is held", line);
}

/* Whether the sheet tells these groups; the bytes behind them stay. */
static int under(const struct vault_sheet *s, const uint8_t *groups, size_t n)
{
    uint8_t told[VAULT_MOST_GROUPS + 1], want[VAULT_MOST_GROUPS + 1];
    memset(told, 0x55, sizeof told);
    memset(want, 0x55, sizeof want);
    for (size_t i = 0; i < n; i++)
        want[i] = groups[i];
    return vault_sheet_groups(s, told) == n && memcmp(told, want, sizeof want) == 0;
}

/* Random changes, many of them refused, on a sheet and on plain areas; under a profile, if there are groups. */
static void changes(uint64_t marks, const uint8_t *groups, size_t n)
{
    struct vault_sheet s, copy;
    uint8_t bytes[VAULT_FORM_SIZE], out[VAULT_FORM_SIZE];
    struct vault_reply opened = n == 0 ? vault_open(marks, bytes, sizeof bytes) : vault_open_profile(marks, groups, n, bytes, sizeof bytes);
    size_t size = (size_t)opened.value;
    uint32_t random = (uint32_t)marks;
    memset(&s, 0x55, sizeof s);
    check(same(n == 0 ? vault_sheet_open(&s, marks) : vault_sheet_open_profile(&s, marks, groups, n), opened), "an opening", marks);
    check(opened.answer == VAULT_DONE && holds(&s, bytes, size), "an opened sheet", marks);
    for (uint64_t i = 0; i < 1000; i++) {
        random = random * 1103515245u + 12345u;
        int kind = (int)(random >> 16) % 5;
        uint64_t c = (random >> 18) % (VAULT_COMBINATIONS(marks) + 1), seconds = (random >> 20) % 3 == 0 ? 0 : (random >> 8) % 300;
        struct vault_reply r = called(bytes, size, kind, c, seconds, out);
        if (r.answer == VAULT_DONE) {
            size = (size_t)r.value;
            memcpy(bytes, out, size);
        }
        copy = s;
        check(same(changed(&s, kind, c, seconds), r) && holds(&s, bytes, size), "a change", i);
        check(vault_sheet_marks(&s) == marks && under(&s, groups, n), "the marks and groups", i);
        check(r.answer != VAULT_DONE || !holds(&copy, bytes, size), "a copy is another sheet", i);
        tells(&s, bytes, size, (random >> 10) % 300);
    }
    memset(&copy, 0x55, sizeof copy);
    check(vault_sheet_read(&copy, bytes, size).answer == VAULT_DONE && holds(&copy, bytes, size), "a sheet that is read", marks);
}

/* A sheet under one group or two, each of any marks, is the one that is opened in an area, and tells its groups; a refusal leaves no sheet. */
static void profile(uint64_t marks, const uint8_t *groups, size_t n)
{
    struct vault_sheet s;
    uint8_t bytes[VAULT_FORM_SIZE];
    struct vault_reply r = vault_open_profile(marks, groups, n, bytes, sizeof bytes);
    memset(&s, 0x55, sizeof s);
    check(same(vault_sheet_open_profile(&s, marks, groups, n), r) && holds(&s, bytes, (size_t)r.value), "a sheet under a profile", groups[0]);
    check(under(&s, groups, r.answer == VAULT_DONE ? n : 0), "its groups", groups[0]);
}

/* Nitrate, acetate and polyester, from left to right: what is not on one of them alone is either and stays so, and not on polyester is one line. */
static void carriers(void)
{
    struct vault_sheet s;
    uint8_t list[VAULT_LIST_SIZE], group = (uint8_t)vault_pattern_combination(3, "111", 3);
    memset(&s, 0x55, sizeof s);
    check(vault_sheet_open_profile(&s, 3, &group, 1).value == 15 && vault_sheet_either(&s, 26).value == 5, "the carriers", group);
    check(vault_sheet_enter(&s, 4).answer == VAULT_DONE && vault_sheet_enter(&s, 2).answer == VAULT_DONE, "nitrate or acetate", 6);
    check(vault_sheet_list(&s, list).value == 1 && list[0] == 24, "not on polyester", 24);
    check(vault_sheet_enter(&s, 6).answer == VAULT_EITHER && vault_sheet_leave(&s, 6).answer == VAULT_EITHER, "no nitrate on acetate", 6);
    check(vault_sheet_make_either(&s, 6).answer == VAULT_EITHER && vault_sheet_receive(&s, 6, 1).answer == VAULT_EITHER, "nor made so", 6);
    check(vault_sheet_make_either(&s, 4).answer == VAULT_DONE && vault_sheet_leave(&s, 4).answer == VAULT_DONE, "nitrate is free to change", 4);
    check(under(&s, &group, 1), "under the carriers", group);
}

static void profiles(void)
{
    for (uint64_t marks = 0; marks <= VAULT_MOST_MARKS + 1; marks++)
        for (unsigned a = 0; a < 64; a++)
            for (size_t n = 0; n <= 3; n++) {
                profile(marks, (const uint8_t[]){(uint8_t)a, 3, 12}, n);
                profile(marks, (const uint8_t[]){(uint8_t)a, (uint8_t)(~a & 31), 3}, n);
            }
    for (uint64_t marks = 2; marks <= VAULT_MOST_MARKS; marks++)
        changes(marks, (const uint8_t[]){3}, 1);
    changes(4, (const uint8_t[]){12, 3}, 2);
    changes(5, (const uint8_t[]){5, 26}, 2);
}

/* The sheet of an old form is the one that is read to an area, and is a sheet as any other. */
static void from_form1(void)
{
    static const uint8_t old[] = {2, 1, 0, 1, 1, 0, 0, 0xf0, 0, 0, 0}; /* 01 in, 240 seconds under 00 */
    struct vault_sheet s;
    uint8_t bytes[VAULT_FORM_SIZE], list[VAULT_LIST_SIZE];
    struct vault_reply r = vault_from_form1(old, sizeof old, bytes, sizeof bytes);
    memset(&s, 0x55, sizeof s);
    check(same(vault_sheet_from_form1(&s, old, sizeof old), r) && holds(&s, bytes, (size_t)r.value), "a sheet of an old form", 2);
    check(vault_sheet_marks(&s) == 2 && vault_sheet_held(&s, 8).value == 240 && vault_sheet_either(&s, 8).value == 0, "what it has", 2);
    check(vault_sheet_make_either(&s, 0).answer == VAULT_EITHER, "what holds seconds is not made either", 0);
    check(vault_sheet_enter(&s, 2).answer == VAULT_DONE && vault_sheet_list(&s, list).value == 2, "01 and 10", 2);
    check(vault_sheet_withdraw(&s, 0, 240).answer == VAULT_DONE && vault_sheet_make_either(&s, 0).answer == VAULT_DONE, "00 either", 2);
    check(vault_sheet_make_either(&s, 3).answer == VAULT_DONE && vault_sheet_either(&s, 8).value == 2, "11 either", 2);
    check(vault_sheet_list(&s, list).value == 1 && list[0] == 8, "one line", 8);
    r = vault_sheet_from_form1(&s, old, sizeof old - 1);
    check(r.answer == VAULT_UNREADABLE && r.place == sizeof old - 1, "an old form that ends early", r.place);
    check(vault_sheet_size(&s) == 0 && vault_sheet_make_either(&s, 0).answer == VAULT_UNREADABLE, "leaves no sheet", 2);
}

/* A sheet that begins with a PLA text is the one that is read to an area; its own text gives its class, and nothing held. */
static void drawn(void)
{
    static const char text[] = ".i 3\n.o 1\n1-- 1\n-11 1\n", bad[] = ".i 3\n.o 1\n1-- 1\n11 1\n";
    struct vault_sheet s, back;
    uint8_t bytes[VAULT_FORM_SIZE];
    char own[VAULT_PLA_SIZE];
    struct vault_reply r = vault_read_pla(text, sizeof text - 1, bytes, sizeof bytes);
    size_t size = (size_t)r.value;
    memset(&s, 0x55, sizeof s);
    check(same(vault_sheet_read_pla(&s, text, sizeof text - 1), r) && holds(&s, bytes, size), "a sheet that was drawn", 3);
    check(vault_sheet_marks(&s) == 3 && vault_sheet_class_size(&s).value == 5 && vault_sheet_total(&s).value == 0, "its class", 3);
    vault_sheet_receive(&s, 7, 100);
    r = vault_sheet_write_pla(&s, own);
    memset(&back, 0x55, sizeof back);
    check(vault_sheet_read_pla(&back, own, (size_t)r.value).answer == VAULT_DONE && holds(&back, bytes, size), "drawn again", 3);
    r = vault_sheet_read_pla(&s, bad, sizeof bad - 1);
    check(r.answer == VAULT_UNREADABLE && r.place == 16, "a text that is refused", 16);
    check(vault_sheet_size(&s) == 0 && vault_sheet_write_pla(&s, own).answer == VAULT_UNREADABLE, "leaves no sheet", 16);
}

static void no_sheets(void)
{
    static const uint8_t bad[] = {1, 3, 0};
    struct vault_sheet s;
    memset(&s, 0x55, sizeof s);
    check(vault_sheet_open(&s, 6).answer == VAULT_MARKS, "an opening that is refused", 6);
    check(vault_sheet_size(&s) == 0 && vault_sheet_marks(&s) == 0, "leaves no sheet", 6);
    tells(&s, NULL, 0, 0);
    vault_sheet_open(&s, 2);
    struct vault_reply r = vault_sheet_read(&s, bad, sizeof bad);
    check(r.answer == VAULT_UNREADABLE && r.place == 1, "a reading that is refused", 1);
    check(vault_sheet_size(&s) == 0 && vault_sheet_enter(&s, 0).answer == VAULT_UNREADABLE, "leaves no sheet", 1);
}

int main(void)
{
    answers();
    fault_words();
    patterns();
    patterns_spoiled();
    singles();
    times();
    for (uint64_t marks = 1; marks <= VAULT_MOST_MARKS; marks++)
        changes(marks, NULL, 0);
    carriers();
    profiles();
    from_form1();
    drawn();
    no_sheets();
    printf("util: %d checks, %d failed\n", checks, faults);
    return faults != 0;
}
