/* The PLA texts of the library beside those of berkeley-abc, for the script tests/abc. All classes of one to three marks, and some hundred of four
   and of five.

       abc draw     in the current directory, for class K: K.pla, the library's text; K.blif, the same function as a table of its combinations, made
                    here without the library; and `script`, by which abc writes K.truth, the function that it read in K.pla, and K.out, its own PLA
                    text of K.blif
       abc judge    compares all K.truth with the classes, and has the library read all K.out */
#include "vault.h"
#include <inttypes.h>
#include <stdio.h>
#include <stdlib.h>
#include <string.h>

enum { SOME = 300, CLASSES = 4 + 16 + 256 + SOME + SOME, TEXT = 4096 };

struct class {
    int number;
    unsigned marks;
    uint32_t combinations;
};

static void fail(int number, const char *why)
{
    fprintf(stderr, "tests/abc: class %d: %s\n", number, why);
    exit(1);
}

/* ---- the classes, always the same ones */

static uint32_t drawn_at_random(void)
{
    static uint64_t state = 88172645463325252u;
    state ^= state << 13;
    state ^= state >> 7;
    state ^= state << 17;
    return (uint32_t)(state >> 16);
}

/* The first of four and five marks are the empty class, all, and two that have no line of more than one combination; then any, sparse and dense. */
static uint32_t of_many_marks(unsigned marks, int i)
{
    static const uint32_t first[] = {0, 0xffffffff, 0x69969669, 0x96696996};
    uint32_t all = marks == 5 ? 0xffffffff : 0xffff, class = i < 4 ? first[i] : drawn_at_random();
    for (int k = i % 5; i >= 4 && k > 0; k--)
        class = k % 2 == 1 ? class & drawn_at_random() : class | drawn_at_random();
    return class & all;
}

static void each_class(void (*act)(const struct class *))
{
    static const int count[] = {0, 4, 16, 256, SOME, SOME};
    struct class c = {0, 0, 0};
    for (c.marks = 1; c.marks <= 5; c.marks++)
        for (int i = 0; i < count[c.marks]; i++, c.number++) {
            c.combinations = c.marks <= 3 ? (uint32_t)i : of_many_marks(c.marks, i);
            act(&c);
        }
}

static size_t form_of(const struct class *c, uint8_t form[VAULT_FORM_SIZE])
{
    size_t n = 3;
    for (int k = 0; k < 32; k++)
        if (c->combinations >> k & 1)
            form[n++] = (uint8_t)k;
    form[0] = (uint8_t)c->marks;
    form[1] = (uint8_t)(n - 3);
    form[2] = 0;
    memset(form + n, 0, 4); /* nothing either, nothing held */
    return n + 4;
}

/* ---- files */

static void keep(const struct class *c, const char *ending, const char *text, size_t n)
{
    char name[32];
    snprintf(name, sizeof name, "%d.%s", c->number, ending);
    FILE *f = fopen(name, "wb");
    if (f == NULL || fwrite(text, 1, n, f) != n || fclose(f) != 0)
        fail(c->number, "a file cannot be written");
}

/* The bytes of a file, and how many; -1 if there is none. */
static long kept(const struct class *c, const char *ending, char text[TEXT])
{
    char name[32];
    snprintf(name, sizeof name, "%d.%s", c->number, ending);
    FILE *f = fopen(name, "rb");
    if (f == NULL)
        return -1;
    size_t n = fread(text, 1, TEXT, f);
    if (n == TEXT || ferror(f) || fclose(f) != 0)
        fail(c->number, "a file cannot be read");
    return (long)n;
}

/* ---- draw */

static FILE *script;

/* The names of the inputs, the highest mark first, as the leftmost input of a PLA text is. */
static const char *inputs(unsigned marks)
{
    static const char names[] = " m4 m3 m2 m1 m0";
    return names + 3 * (5 - marks);
}

static void table(const struct class *c)
{
    char text[TEXT];
    int n = snprintf(text, sizeof text, ".model class\n.inputs%s\n.outputs in\n", inputs(c->marks));
    n += snprintf(text + n, sizeof text - (size_t)n, ".names%s in\n", c->combinations == 0 ? "" : inputs(c->marks));
    for (unsigned k = 0; k < 1u << c->marks; k++) {
        if (!(c->combinations >> k & 1))
            continue;
        for (unsigned i = c->marks; i-- > 0;)
            text[n++] = k >> i & 1 ? '1' : '0';
        n += snprintf(text + n, sizeof text - (size_t)n, " 1\n");
    }
    n += snprintf(text + n, sizeof text - (size_t)n, ".end\n");
    keep(c, "blif", text, (size_t)n);
}

static void draw(const struct class *c)
{
    uint8_t form[VAULT_FORM_SIZE];
    char text[VAULT_PLA_SIZE];
    struct vault_reply r = vault_write_pla(form, form_of(c, form), text, sizeof text);
    if (r.answer != VAULT_DONE)
        fail(c->number, "the library does not write it");
    keep(c, "pla", text, (size_t)r.value);
    table(c);
    if (fprintf(script, "read_pla %d.pla\nwrite_truth -x %d.truth\nread_blif %d.blif\nwrite_pla %d.out\n", c->number, c->number, c->number, c->number) < 0)
        fail(c->number, "the script cannot be written");
}

/* ---- judge */

static int agreed, without_function, as_they_are, refused, overlapping, without_names;

/* A table of 2^m digits, the last of them for all inputs 0. abc counts the first input, our highest mark, as the lowest. */
static void judge_truth(const struct class *c)
{
    char text[TEXT];
    long n = kept(c, "truth", text);
    if (n < 0 && c->combinations == 0) {
        without_function++;
        return;
    }
    if (n != 1l << c->marks)
        fail(c->number, "abc has no table of its function");
    for (unsigned k = 0; k < 1u << c->marks; k++) {
        unsigned mirrored = 0;
        for (unsigned i = 0; i < c->marks; i++)
            mirrored |= (k >> i & 1) << (c->marks - 1 - i);
        if (text[n - 1 - (long)mirrored] != (c->combinations >> k & 1 ? '1' : '0'))
            fail(c->number, "abc reads another function in the library's text");
    }
    agreed++;
}

static int begins(const char *line, const char *word)
{
    return strncmp(line, word, strlen(word)) == 0;
}

/* The text without the lines that name inputs and output; counts how many combinations its cubes have, each by itself. */
static size_t without_name_lines(const char *text, size_t n, char *to, uint64_t *sum)
{
    size_t size = 0;
    for (size_t from = 0, next; from < n; from = next) {
        const char *line = text + from, *end = memchr(line, '\n', n - from);
        next = end == NULL ? n : (size_t)(end - text) + 1;
        uint64_t cube = strchr("01-", *line) != NULL;
        for (const char *p = line; p < text + next && *p != ' '; p++)
            cube <<= *p == '-';
        *sum += cube;
        if (begins(line, ".ilb ") || begins(line, ".ob "))
            continue;
        memcpy(to + size, line, next - from);
        size += next - from;
    }
    return size;
}

static int is_class(const struct class *c, const char *text, size_t n)
{
    uint8_t want[VAULT_FORM_SIZE], form[VAULT_FORM_SIZE];
    size_t size = form_of(c, want);
    struct vault_reply r = vault_read_pla(text, n, form, sizeof form);
    return r.answer == VAULT_DONE && r.value == size && memcmp(form, want, size) == 0;
}

static void judge_text(const struct class *c)
{
    char text[TEXT + 1] = {0}, rest[TEXT];
    uint8_t form[VAULT_FORM_SIZE];
    uint64_t sum = 0;
    long n = kept(c, "out", text);
    if (n < 0)
        fail(c->number, "abc wrote no text");
    struct vault_reply r = vault_read_pla(text, (size_t)n, form, sizeof form);
    if (is_class(c, text, (size_t)n))
        as_they_are++;
    else if (r.answer == VAULT_UNREADABLE && r.place < (uint64_t)n && begins(text + r.place, ".ilb "))
        refused++;
    else
        fail(c->number, "abc's text is neither its class nor refused at .ilb");
    size_t size = without_name_lines(text, (size_t)n, rest, &sum);
    if (!is_class(c, rest, size))
        fail(c->number, "abc's text without .ilb and .ob is not its class");
    without_names++;
    uint64_t combinations = 0;
    for (int k = 0; k < 32; k++)
        combinations += c->combinations >> k & 1;
    overlapping += sum > combinations;
}

static void judge(const struct class *c)
{
    judge_truth(c);
    judge_text(c);
}

int main(int n, char **words)
{
    if (n == 2 && strcmp(words[1], "draw") == 0) {
        script = fopen("script", "w");
        if (script == NULL)
            fail(0, "the script cannot be written");
        each_class(draw);
        if (fclose(script) != 0)
            fail(0, "the script cannot be written");
        return 0;
    }
    if (n != 2 || strcmp(words[1], "judge") != 0)
        fail(0, "usage: abc draw; abc judge");
    each_class(judge);
    printf("abc: %d classes. It reads the library's PLA text of %d and has the class; of the %d empty ones, texts without a cube, it makes a network without\n"
           "    inputs and outputs. Of its own %d texts %d are taken as they are, and %d are refused with 10 at the line .ilb, which names the inputs. Without\n"
           "    .ilb and .ob, the lines that name inputs and output, %d are taken and draw the class; in %d of them cubes overlap\n",
           CLASSES, agreed, without_function, CLASSES, as_they_are, refused, without_names, overlapping);
    return 0;
}
