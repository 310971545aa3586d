/* Makes the calls that tests/differential.rs sends, and sends back what they did. A lent area ends where a page begins that may not be touched, or
   begins where such a page ends, or has other bytes on both sides, which are sent back too. An area that is only read cannot be written to. So one byte too
   far ends this program or is seen.

   A batch is a length in 4 bytes and that many bytes of requests; the answer to it is a length in 4 bytes and that many bytes of replies.
   A request: which entry (1 byte), two numbers (8 bytes each), then each area: 1 if it is null (1 byte), how many bytes stand before it, in it and
   behind it (4 bytes each), and all these bytes. A reply: answer, place, value, form, fault, at (8 bytes each; 0 for what an entry does not tell), then all
   the bytes of each area as they are now. Numbers have their low byte first. */
#define _DEFAULT_SOURCE
#include "vault.h"
#include <stdio.h>
#include <stdlib.h>
#include <string.h>
#include <sys/mman.h>
#include <unistd.h>

enum { PAGE = 4096, ROOM = 32 * PAGE };

/* The pages of an area are there twice, to be written to and to be read alone: an area of either kind takes no call of the system. */
struct area {
    uint8_t *writable, *readable, *whole, *p; /* the pages, all the bytes that were sent, the area itself */
    size_t all, n;
};

static const uint8_t *at, *end;

static void fail(const char *why)
{
    fprintf(stderr, "driver: %s\n", why);
    exit(2);
}

static const uint8_t *bytes(size_t n)
{
    const uint8_t *p = at;
    if ((size_t)(end - at) < n)
        fail("a request ends early");
    at += n;
    return p;
}

static uint64_t number(size_t n)
{
    uint64_t x = 0;
    const uint8_t *p = bytes(n);
    for (size_t i = n; i-- > 0;)
        x = x << 8 | p[i];
    return x;
}

/* Some pages of a file, between two that may not be touched. */
static uint8_t *view(int file, int how)
{
    uint8_t *p = mmap(NULL, ROOM + 2 * PAGE, PROT_NONE, MAP_PRIVATE | MAP_ANONYMOUS, -1, 0);
    if (p == MAP_FAILED || mmap(p + PAGE, ROOM, how, MAP_SHARED | MAP_FIXED, file, 0) == MAP_FAILED)
        fail("no memory");
    return p + PAGE;
}

static void map(struct area *a)
{
    FILE *f = tmpfile();
    if (f == NULL || ftruncate(fileno(f), ROOM) != 0)
        fail("no memory");
    a->writable = view(fileno(f), PROT_READ | PROT_WRITE);
    a->readable = view(fileno(f), PROT_READ);
    fclose(f);
}

static void lend(struct area *a, int written)
{
    int null = (int)number(1);
    size_t before = (size_t)number(4), n = (size_t)number(4), behind = (size_t)number(4);
    a->all = before + n + behind;
    a->n = n;
    if (a->all > ROOM)
        fail("an area is too long");
    size_t from = behind != 0 && before == 0 ? 0 : ROOM - a->all;
    if (a->all != 0)
        memcpy(a->writable + from, bytes(a->all), a->all);
    a->whole = (written ? a->writable : a->readable) + from;
    a->p = null ? NULL : a->whole + before;
}

static uint8_t *put(uint8_t *to, uint64_t x, size_t n)
{
    for (size_t i = 0; i < n; i++, x >>= 8)
        *to++ = (uint8_t)x;
    return to;
}

static uint8_t *call(uint8_t *to, struct area *s, struct area *t)
{
    struct vault_reply r = {99, 99, 99};
    struct vault_time time = {99, 99, 99, 0};
    struct vault_verdict verdict = {99, 99, 0, 0};
    int entry = (int)number(1);
    uint64_t x = number(8), y = number(8);
    int areas = entry == 0 || (entry > 6 && entry < 11) || entry == 12 || entry == 17 ? 1 : 2;
    lend(s, entry == 0);
    if (areas == 2)
        lend(t, entry != 11 && entry != 15);
    switch (entry) {
    case 0: r = vault_open(x, s->p, s->n); break;
    case 1: r = vault_enter(s->p, s->n, x, t->p, t->n); break;
    case 2: r = vault_leave(s->p, s->n, x, t->p, t->n); break;
    case 3: r = vault_receive(s->p, s->n, x, y, t->p, t->n); break;
    case 4: r = vault_withdraw(s->p, s->n, x, y, t->p, t->n); break;
    case 5: r = vault_copy(s->p, s->n, t->p, t->n); break;
    case 6: r = vault_list(s->p, s->n, t->p, t->n); break;
    case 7: r = vault_class_size(s->p, s->n); break;
    case 8: r = vault_total(s->p, s->n); break;
    case 9: r = vault_outside(s->p, s->n, x); break;
    case 10: r = vault_held(s->p, s->n, x); break;
    case 11: r = vault_before(s->p, s->n, t->p, t->n); break;
    case 12:
        time = vault_read_time(s->p, s->n);
        r = (struct vault_reply){time.answer, time.place, time.value};
        break;
    case 13: r = vault_read_pla(s->p, s->n, t->p, t->n); break;
    case 14: r = vault_write_pla(s->p, s->n, t->p, t->n); break;
    case 15:
        verdict = vault_check_list(s->p, s->n, t->p, t->n);
        r = (struct vault_reply){verdict.answer, verdict.place, 0};
        break;
    case 16: r = vault_make_either(s->p, s->n, x, t->p, t->n); break;
    case 17: r = vault_either(s->p, s->n, x); break;
    case 18: r = vault_from_form1(s->p, s->n, t->p, t->n); break;
    case 19: r = vault_open_profile(x, s->p, s->n, t->p, t->n); break;
    default: fail("no such entry");
    }
    to = put(put(put(to, r.answer, 8), r.place, 8), r.value, 8);
    to = put(put(put(to, time.form, 8), verdict.fault, 8), verdict.at, 8);
    for (int i = 0; i < areas; i++) {
        const struct area *a = i == 0 ? s : t;
        memcpy(to, a->whole, a->all);
        to += a->all;
    }
    return to;
}

int main(void)
{
    static uint8_t in[1 << 22], out[1 << 22];
    struct area s, t;
    uint8_t size[4];
    map(&s);
    map(&t);
    while (fread(size, 1, 4, stdin) == 4) {
        at = size;
        end = size + 4;
        size_t n = (size_t)number(4);
        if (n > sizeof in || fread(in, 1, n, stdin) != n)
            fail("a batch ends early");
        at = in;
        end = in + n;
        uint8_t *to = out;
        while (at < end) {
            if ((size_t)(out + sizeof out - to) < 2 * ROOM + 48)
                fail("a batch is too long");
            to = call(to, &s, &t);
        }
        put(size, (uint64_t)(to - out), 4);
        if (fwrite(size, 1, 4, stdout) != 4 || fwrite(out, 1, (size_t)(to - out), stdout) != (size_t)(to - out) || fflush(stdout) != 0)
            fail("nobody reads");
    }
    return 0;
}
