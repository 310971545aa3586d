/* Entries of vault.h in plain C. First the shortest way: a sheet is read as sets of combinations and their seconds, and no numbers are kept. */
#include "plain_vault.h"
#include "plain_seek.h"
#include <stdbool.h>
#include <string.h>

struct sheet {
    unsigned marks, size;
    uint32_t class, either, held[VAULT_MOST_COMBINATIONS];
    uint64_t sum;
};

static struct vault_reply reply(uint64_t answer, uint64_t place, uint64_t value)
{
    struct vault_reply r = {answer, place, value};
    return r;
}

static uint32_t low_first(const uint8_t *p, unsigned n)
{
    uint32_t x = 0;
    while (n-- > 0)
        x = x << 8 | p[n];
    return x;
}

/* ---- the stored form */

enum section { CLASS, EITHER, HELD };

/* A section, none of whose combinations is in the set that is barred. */
static struct vault_reply section(struct sheet *s, const uint8_t *t, size_t n, size_t *at, enum section kind, uint32_t barred)
{
    if (n - *at < 2)
        return reply(VAULT_UNREADABLE, n, 0);
    uint32_t count = low_first(t + *at, 2);
    if (count > s->size)
        return reply(VAULT_UNREADABLE, *at, 0);
    *at += 2;
    for (unsigned low = 0; count-- > 0;) {
        if (*at == n || t[*at] < low || t[*at] >= s->size || (barred >> t[*at] & 1))
            return reply(VAULT_UNREADABLE, *at, 0);
        unsigned c = t[(*at)++];
        low = c + 1;
        if (kind != HELD) {
            *(kind == CLASS ? &s->class : &s->either) |= UINT32_C(1) << c;
            continue;
        }
        if (n - *at < 4)
            return reply(VAULT_UNREADABLE, n, 0);
        s->held[c] = low_first(t + *at, 4);
        s->sum += s->held[c];
        if (s->held[c] == 0 || s->sum > VAULT_MOST_HELD)
            return reply(VAULT_UNREADABLE, *at, 0);
        *at += 4;
    }
    return reply(VAULT_DONE, 0, 0);
}

static struct vault_reply get(struct sheet *s, const uint8_t *t, size_t n)
{
    size_t at = 1;
    memset(s, 0, sizeof *s);
    if (n == 0)
        return reply(VAULT_UNREADABLE, 0, 0);
    if (t[0] < 1 || t[0] > VAULT_MOST_MARKS)
        return reply(VAULT_MARKS, 0, 0);
    s->marks = t[0];
    s->size = 1u << s->marks;
    struct vault_reply r = section(s, t, n, &at, CLASS, 0);
    if (r.answer == VAULT_DONE)
        r = section(s, t, n, &at, EITHER, s->class);
    if (r.answer == VAULT_DONE)
        r = section(s, t, n, &at, HELD, s->either);
    if (r.answer == VAULT_DONE && at < n)
        r = reply(VAULT_UNREADABLE, at, 0);
    return r;
}

static uint8_t *put_set(uint32_t set, uint8_t *p)
{
    *p++ = (uint8_t)__builtin_popcount(set);
    *p++ = 0;
    for (unsigned c = 0; set != 0; c++, set >>= 1)
        if (set & 1)
            *p++ = (uint8_t)c;
    return p;
}

static struct vault_reply put(const struct sheet *s, uint8_t *out, size_t room)
{
    unsigned standing = (unsigned)__builtin_popcount(s->class | s->either), held = 0;
    for (unsigned c = 0; c < s->size; c++)
        held += s->held[c] != 0;
    if (room < 7 + standing + 5 * held)
        return reply(VAULT_ROOM, 0, 0);
    uint8_t *p = out;
    *p++ = (uint8_t)s->marks;
    p = put_set(s->either, put_set(s->class, p));
    *p++ = (uint8_t)held;
    *p++ = 0;
    for (unsigned c = 0; c < s->size; c++)
        if (s->held[c] != 0) {
            *p++ = (uint8_t)c;
            for (unsigned i = 0; i < 4; i++)
                *p++ = (uint8_t)(s->held[c] >> 8 * i);
        }
    return reply(VAULT_DONE, 0, (uint64_t)(p - out));
}

/* ---- the entries */

/* Reads the sheet, and tests what comes before its numbers are asked. */
static struct vault_reply movement(struct sheet *s, const uint8_t *sheet, size_t n, uint64_t c, uint64_t seconds)
{
    struct vault_reply r = get(s, sheet, n);
    if (r.answer != VAULT_DONE)
        return r;
    if (c >= s->size)
        return reply(VAULT_COMBINATION, 0, 0);
    if (seconds < 1 || seconds > VAULT_MOST_AMOUNT)
        return reply(VAULT_AMOUNT, 0, 0);
    return r;
}

struct vault_reply plain_receive(const uint8_t *sheet, size_t n, uint64_t c, uint64_t seconds, uint8_t *out, size_t room)
{
    struct sheet s;
    struct vault_reply r = movement(&s, sheet, n, c, seconds);
    if (r.answer != VAULT_DONE)
        return r;
    if (s.either >> c & 1)
        return reply(VAULT_EITHER, 0, 0);
    if (s.sum + seconds > VAULT_MOST_HELD)
        return reply(VAULT_ABOVE, 0, 0);
    s.held[c] += (uint32_t)seconds;
    return put(&s, out, room);
}

struct vault_reply plain_copy(const uint8_t *sheet, size_t n, uint8_t *out, size_t room)
{
    struct sheet s;
    struct vault_reply r = get(&s, sheet, n);
    return r.answer == VAULT_DONE ? put(&s, out, room) : r;
}

/* The list of a class, whose lines may contain the either combinations too. */
static struct vault_reply searched(unsigned marks, uint32_t class, uint32_t either, uint8_t *list, size_t room)
{
    uint8_t own[VAULT_LIST_SIZE];
    uint64_t laid = 0;
    if (room < VAULT_LIST_ROOM(marks))
        return reply(VAULT_ROOM, 0, 0);
    size_t k = plain_shortest(marks, class, class | either, own, &laid);
    memcpy(list, own, k);
    return reply(VAULT_DONE, 0, k);
}

struct vault_reply plain_list(const uint8_t *sheet, size_t n, uint8_t *list, size_t room)
{
    struct sheet s;
    struct vault_reply r = get(&s, sheet, n);
    return r.answer == VAULT_DONE ? searched(s.marks, s.class, s.either, list, room) : r;
}

struct vault_reply plain_class_size(const uint8_t *sheet, size_t n)
{
    struct sheet s;
    struct vault_reply r = get(&s, sheet, n);
    return r.answer == VAULT_DONE ? reply(VAULT_DONE, 0, (uint64_t)__builtin_popcount(s.class)) : r;
}

struct vault_reply plain_total(const uint8_t *sheet, size_t n)
{
    struct sheet s;
    struct vault_reply r = get(&s, sheet, n);
    for (unsigned c = 0; c < s.size; c++)
        if (r.answer == VAULT_DONE && (s.class >> c & 1))
            r.value += s.held[c];
    return r;
}

/* ---- lists that others drew: a pass for the numbers, and one for the rest */

static uint32_t set_of(unsigned marks, unsigned b)
{
    uint32_t s = 1;
    for (unsigned i = 0; i < marks; i++, b /= 3)
        s = b % 3 == 2 ? s | s << (1u << i) : s << (b % 3 << i);
    return s;
}

static struct vault_verdict verdict(struct vault_reply read, uint64_t fault, uint64_t at)
{
    struct vault_verdict v = {read.answer, read.place, fault, at};
    return v;
}

static struct vault_verdict checked(struct vault_reply read, unsigned marks, uint32_t class, uint32_t either, const uint8_t *list, size_t n)
{
    size_t leaves = n;
    uint32_t covered = 0, room = class | either;
    for (size_t i = 0; i < n; i++)
        if (list[i] >= VAULT_LINES(marks))
            return verdict(read, VAULT_NO_BOX, i);
    for (size_t i = 0; i < n; i++) {
        uint32_t set = set_of(marks, list[i]);
        if ((set & covered) != 0)
            return verdict(read, VAULT_OVERLAP, i);
        if ((set & ~room) != 0 && leaves == n)
            leaves = i;
        covered |= set;
    }
    if (leaves < n)
        return verdict(read, VAULT_LEAVES, leaves);
    if ((class & ~covered) != 0)
        return verdict(read, VAULT_UNCOVERED, (uint64_t)__builtin_ctz(class & ~covered));
    return verdict(read, VAULT_FITS, 0);
}

struct vault_verdict plain_check_list(const uint8_t *sheet, size_t n, const uint8_t *list, size_t lines)
{
    struct sheet s;
    struct vault_reply r = get(&s, sheet, n);
    return r.answer == VAULT_DONE ? checked(r, s.marks, s.class, s.either, list, lines) : verdict(r, VAULT_FITS, 0);
}

/* ---- PLA texts, in one pass */

struct drawing {
    struct sheet sheet; /* marks are 0 before .i */
    bool output, counted;
    uint64_t count, cubes;
    size_t counted_at;
};

struct word {
    const uint8_t *p;
    size_t n; /* 0: the line has no more words */
};

enum next { GO_ON, END, UNREADABLE, MARKS };

/* The next word of the line, which ends at a newline, a comment or the text's end; *at is then behind it. */
static struct word next_word(const uint8_t *t, size_t n, size_t *at)
{
    size_t i = *at;
    while (i < n && (t[i] == ' ' || t[i] == '\t'))
        i++;
    struct word w = {t + i, 0};
    while (i < n && t[i] != ' ' && t[i] != '\t' && t[i] != '\n' && t[i] != '#')
        i++;
    w.n = (size_t)(t + i - w.p);
    *at = i;
    return w;
}

static bool says(struct word w, const char *text)
{
    return w.n == strlen(text) && memcmp(w.p, text, w.n) == 0;
}

/* Digits without a needless zero in front. What does not fit in 64 bits is the largest number that does. */
static bool read_number(struct word w, uint64_t *number)
{
    uint64_t x = 0;
    if (w.n > 1 && w.p[0] == '0')
        return false;
    for (size_t i = 0; i < w.n; i++) {
        uint64_t d = (uint64_t)w.p[i] - '0';
        if (d > 9)
            return false;
        x = x > (UINT64_MAX - d) / 10 ? UINT64_MAX : x * 10 + d;
    }
    *number = x;
    return w.n > 0;
}

/* The combinations of a cube, from the lowest mark up. */
static bool read_cube(struct word w, unsigned marks, uint32_t *set)
{
    uint32_t s = 1;
    if (w.n != marks)
        return false;
    for (unsigned i = 0; i < marks; i++) {
        uint8_t sign = w.p[marks - 1 - i];
        if (sign == '-')
            s |= s << (1u << i);
        else if (sign == '1')
            s <<= 1u << i;
        else if (sign != '0')
            return false;
    }
    *set = s;
    return true;
}

static enum next inputs(struct drawing *d, struct word w)
{
    uint64_t n;
    if (!read_number(w, &n) || d->sheet.marks != 0)
        return UNREADABLE;
    if (n < 1 || n > VAULT_MOST_MARKS)
        return MARKS;
    d->sheet.marks = (unsigned)n;
    d->sheet.size = 1u << n;
    return GO_ON;
}

/* A line of two words; `from` is its offset. */
static enum next pair(struct drawing *d, size_t from, struct word w, struct word v)
{
    uint32_t set;
    if (says(w, ".i"))
        return inputs(d, v);
    if (says(w, ".p")) {
        if (d->counted || !read_number(v, &d->count))
            return UNREADABLE;
        d->counted = true;
        d->counted_at = from;
        return GO_ON;
    }
    if (!says(v, "1"))
        return UNREADABLE;
    if (says(w, ".o")) {
        if (d->sheet.marks == 0 || d->output)
            return UNREADABLE;
        d->output = true;
        return GO_ON;
    }
    if (!d->output || !read_cube(w, d->sheet.marks, &set))
        return UNREADABLE;
    d->sheet.class |= set;
    d->cubes++;
    return GO_ON;
}

/* The line at *at, which is then where the next one begins. */
static enum next take_line(struct drawing *d, const uint8_t *t, size_t n, size_t *at)
{
    size_t from = *at;
    struct word w = next_word(t, n, at), v = next_word(t, n, at);
    if (says(w, ".e"))
        return END;
    enum next next = w.n == 0 ? GO_ON : v.n == 0 || next_word(t, n, at).n != 0 ? UNREADABLE : pair(d, from, w, v);
    if (*at < n && t[*at] == '#') {
        const uint8_t *end = memchr(t + *at, '\n', n - *at);
        *at = end == NULL ? n : (size_t)(end - t);
    }
    *at += 1;
    return next;
}

static struct vault_reply draw(struct drawing *d, const uint8_t *t, size_t n)
{
    enum next next = GO_ON;
    size_t from = 0;
    memset(d, 0, sizeof *d);
    for (size_t at = 0; next == GO_ON && at < n;) {
        from = at;
        next = take_line(d, t, n, &at);
    }
    if (next == MARKS)
        return reply(VAULT_MARKS, 0, 0);
    if (next == UNREADABLE)
        return reply(VAULT_UNREADABLE, from, 0);
    if (!d->output)
        return reply(VAULT_UNREADABLE, n, 0);
    if (d->counted && d->count != d->cubes)
        return reply(VAULT_UNREADABLE, d->counted_at, 0);
    return reply(VAULT_DONE, 0, 0);
}

static char *put_text(char *p, const char *text)
{
    size_t n = strlen(text);
    memcpy(p, text, n);
    return p + n;
}

/* The text of a list of k lines, which has no more than 16 of them. */
static struct vault_reply put_pla(unsigned marks, const uint8_t *list, size_t k, void *out, size_t room)
{
    char text[VAULT_PLA_SIZE], *p = put_text(text, ".i ");
    *p++ = (char)('0' + marks);
    p = put_text(p, "\n.o 1\n.p ");
    if (k > 9)
        *p++ = (char)('0' + k / 10);
    *p++ = (char)('0' + k % 10);
    *p++ = '\n';
    for (size_t i = 0; i < k; i++, p += marks + 3) {
        unsigned b = list[i];
        for (unsigned j = marks; j-- > 0; b /= 3)
            p[j] = "01-"[b % 3];
        memcpy(p + marks, " 1\n", 3);
    }
    p = put_text(p, ".e\n");
    size_t n = (size_t)(p - text);
    if (n > room)
        return reply(VAULT_ROOM, 0, 0);
    memcpy(out, text, n);
    return reply(VAULT_DONE, 0, n);
}

static struct vault_reply written(unsigned marks, uint32_t class, uint32_t either, void *out, size_t room)
{
    uint8_t list[VAULT_LIST_SIZE];
    struct vault_reply r = searched(marks, class, either, list, sizeof list);
    return r.answer == VAULT_DONE ? put_pla(marks, list, r.value, out, room) : r;
}

struct vault_reply plain_read_pla(const void *text, size_t n, uint8_t *out, size_t room)
{
    struct drawing d;
    struct vault_reply r = draw(&d, text, n);
    return r.answer == VAULT_DONE ? put(&d.sheet, out, room) : r;
}

struct vault_reply plain_write_pla(const uint8_t *sheet, size_t n, void *out, size_t room)
{
    struct sheet s;
    struct vault_reply r = get(&s, sheet, n);
    return r.answer == VAULT_DONE ? written(s.marks, s.class, s.either, out, room) : r;
}

/* ---- the same by the library's steps: three numbers are kept of every line, and all that is told or written is taken from them */

struct kept {
    unsigned marks, size;
    uint32_t outside[VAULT_MOST_LINES], either[VAULT_MOST_LINES], held[VAULT_MOST_LINES];
};

/* The line of a combination alone, four marks at a time. */
static unsigned single(unsigned c)
{
    static const uint8_t fours[16] = {0, 1, 3, 4, 9, 10, 12, 13, 27, 28, 30, 31, 36, 37, 39, 40};
    return fours[c & 15] + fours[c >> 4] * 81u;
}

/* The numbers of the lines, from what the combinations have of their own: with the highest mark off, with it on, and with it free their sums. */
static void fill(unsigned marks, const uint32_t *own, uint32_t *t)
{
    if (marks == 1) {
        t[0] = own[0];
        t[1] = own[1];
        t[2] = own[0] + own[1];
        return;
    }
    unsigned third = VAULT_LINES(marks - 1);
    fill(marks - 1, own, t);
    fill(marks - 1, own + (1u << (marks - 1)), t + third);
    for (unsigned b = 0; b < third; b++)
        t[2 * third + b] = t[b] + t[third + b];
}

static void work_out(struct kept *k, const struct sheet *s)
{
    uint32_t out[VAULT_MOST_COMBINATIONS], either[VAULT_MOST_COMBINATIONS];
    memset(k, 0, sizeof *k);
    k->marks = s->marks;
    k->size = s->size;
    for (unsigned c = 0; c < s->size; c++) {
        either[c] = s->either >> c & 1;
        out[c] = !((s->class | s->either) >> c & 1);
    }
    fill(s->marks, out, k->outside);
    fill(s->marks, either, k->either);
    fill(s->marks, s->held, k->held);
}

static struct vault_reply get_kept(struct kept *k, const uint8_t *t, size_t n)
{
    struct sheet s;
    struct vault_reply r = get(&s, t, n);
    if (r.answer == VAULT_DONE)
        work_out(k, &s);
    return r;
}

/* The combinations whose own number in a table is not 0. */
static uint32_t set_in(const struct kept *k, const uint32_t *t)
{
    uint32_t set = 0;
    for (unsigned c = 0; c < k->size; c++)
        set |= (uint32_t)(t[single(c)] != 0) << c;
    return set;
}

/* The combinations that are neither out nor either. */
static uint32_t class_of(const struct kept *k)
{
    uint32_t class = 0;
    for (unsigned c = 0; c < k->size; c++)
        class |= (uint32_t)(k->outside[single(c)] == 0 && k->either[single(c)] == 0) << c;
    return class;
}

/* The section of what is held: each combination with its own number behind it. */
static uint8_t *put_held(const struct kept *k, uint32_t set, uint8_t *p)
{
    *p++ = (uint8_t)__builtin_popcount(set);
    *p++ = 0;
    for (unsigned c = 0; c < k->size; c++) {
        uint32_t seconds = k->held[single(c)];
        if (seconds == 0)
            continue;
        *p++ = (uint8_t)c;
        for (unsigned i = 0; i < 4; i++)
            *p++ = (uint8_t)(seconds >> 8 * i);
    }
    return p;
}

static struct vault_reply put_kept(const struct kept *k, uint8_t *out, size_t room)
{
    uint32_t class = class_of(k), either = set_in(k, k->either), held = set_in(k, k->held);
    if (room < 7 + (unsigned)__builtin_popcount(class | either) + 5 * (unsigned)__builtin_popcount(held))
        return reply(VAULT_ROOM, 0, 0);
    out[0] = (uint8_t)k->marks;
    uint8_t *p = put_held(k, held, put_set(either, put_set(class, out + 1)));
    return reply(VAULT_DONE, 0, (uint64_t)(p - out));
}

/* The lines that contain c, by their free marks. */
static void all_through(unsigned marks, unsigned c, uint16_t *all)
{
    all[0] = (uint16_t)single(c);
    for (unsigned i = 0, n = 1, power = 1; i < marks; i++, n *= 2, power *= 3)
        for (unsigned t = 0; t < n; t++)
            all[n + t] = (uint16_t)(all[t] + (2 - (c >> i & 1)) * power);
}

struct vault_reply tables_receive(const uint8_t *sheet, size_t n, uint64_t c, uint64_t seconds, uint8_t *out, size_t room)
{
    struct sheet s;
    struct kept k;
    struct vault_reply r = movement(&s, sheet, n, c, seconds);
    if (r.answer != VAULT_DONE)
        return r;
    work_out(&k, &s);
    if (k.either[single((unsigned)c)] != 0)
        return reply(VAULT_EITHER, 0, 0);
    uint16_t all[VAULT_COMBINATIONS(VAULT_MOST_MARKS)];
    all_through(s.marks, (unsigned)c, all);
    for (unsigned free = 0; free < s.size; free++)
        if (k.held[all[free]] + seconds > VAULT_MOST_HELD)
            return reply(VAULT_ABOVE, 0, 0);
    all_through(s.marks, (unsigned)c, all);
    for (unsigned free = 0; free < s.size; free++)
        k.held[all[free]] += (uint32_t)seconds;
    return put_kept(&k, out, room);
}

struct vault_reply tables_copy(const uint8_t *sheet, size_t n, uint8_t *out, size_t room)
{
    struct kept k;
    struct vault_reply r = get_kept(&k, sheet, n);
    return r.answer == VAULT_DONE ? put_kept(&k, out, room) : r;
}

struct vault_reply tables_list(const uint8_t *sheet, size_t n, uint8_t *list, size_t room)
{
    struct kept k;
    struct vault_reply r = get_kept(&k, sheet, n);
    return r.answer == VAULT_DONE ? searched(k.marks, class_of(&k), set_in(&k, k.either), list, room) : r;
}

struct vault_verdict tables_check_list(const uint8_t *sheet, size_t n, const uint8_t *list, size_t lines)
{
    struct kept k;
    struct vault_reply r = get_kept(&k, sheet, n);
    if (r.answer != VAULT_DONE)
        return verdict(r, VAULT_FITS, 0);
    return checked(r, k.marks, class_of(&k), set_in(&k, k.either), list, lines);
}

struct vault_reply tables_class_size(const uint8_t *sheet, size_t n)
{
    struct kept k;
    struct vault_reply r = get_kept(&k, sheet, n);
    unsigned all = r.answer == VAULT_DONE ? VAULT_LINES(k.marks) - 1 : 0;
    return r.answer == VAULT_DONE ? reply(VAULT_DONE, 0, k.size - k.outside[all] - k.either[all]) : r;
}

struct vault_reply tables_total(const uint8_t *sheet, size_t n)
{
    struct kept k;
    struct vault_reply r = get_kept(&k, sheet, n);
    for (unsigned c = 0; r.answer == VAULT_DONE && c < k.size; c++) {
        unsigned b = single(c);
        r.value += k.outside[b] == 0 && k.either[b] == 0 ? k.held[b] : 0;
    }
    return r;
}

struct vault_reply tables_read_pla(const void *text, size_t n, uint8_t *out, size_t room)
{
    struct drawing d;
    struct kept k;
    struct vault_reply r = draw(&d, text, n);
    if (r.answer != VAULT_DONE)
        return r;
    work_out(&k, &d.sheet);
    return put_kept(&k, out, room);
}

struct vault_reply tables_write_pla(const uint8_t *sheet, size_t n, void *out, size_t room)
{
    struct kept k;
    struct vault_reply r = get_kept(&k, sheet, n);
    return r.answer == VAULT_DONE ? written(k.marks, class_of(&k), set_in(&k, k.either), out, room) : r;
}
