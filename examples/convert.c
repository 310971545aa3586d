/* Rewrites the sheet's file of examples/inventory.c from the form of version 2 and before, which has no section of either combinations, to today's.

       convert OLD NEW

   OLD stays as it is, its line `night N` is taken over, and NEW may not be there before. Which files are old is for the caller to know: nothing is guessed
   here, since some bytes are a sheet in both forms.

   Exit status: 0 done; 1 OLD is refused; 2 it cannot be read, or NEW cannot be written; with the cause on standard error, and without NEW. */
#include "vault_util.h"
#include <errno.h>
#include <inttypes.h>
#include <stdio.h>
#include <string.h>

enum { DONE = 0, REFUSED = 1, NOT_DONE = 2 };

/* The longest first line, `night` and 18 digits, with its newline. */
enum { NIGHT_LINE = 6 + 18 + 1 };

struct bytes {
    uint8_t at[NIGHT_LINE + VAULT_FORM_SIZE + 1]; /* one more than there can be: the library then sees what is left over */
    size_t size;
};

static int failed(const char *name, const char *why)
{
    fprintf(stderr, "convert: %s: %s\n", name, why);
    return NOT_DONE;
}

static int read_file(struct bytes *b, const char *name)
{
    FILE *f = fopen(name, "rb");
    if (f == NULL)
        return failed(name, strerror(errno));
    b->size = fread(b->at, 1, sizeof b->at, f);
    int bad = ferror(f) ? errno : 0;
    if (fclose(f) != 0 || bad != 0)
        return failed(name, strerror(bad != 0 ? bad : errno));
    return DONE;
}

/* The line in front as it is, and behind it the old form in today's. */
static int converted(const struct bytes *old, struct bytes *b, const char *name)
{
    const uint8_t *end = memchr(old->at, '\n', old->size);
    size_t front = end == NULL ? 0 : (size_t)(end - old->at) + 1;
    if (front < 7 || front > NIGHT_LINE || memcmp(old->at, "night ", 6) != 0) {
        failed(name, "no sheet: it does not begin with a night");
        return REFUSED;
    }
    struct vault_reply r = vault_from_form1(old->at + front, old->size - front, b->at + front, sizeof b->at - front);
    if (r.answer != VAULT_DONE) {
        fprintf(stderr, "convert: %s: no old sheet: %s, at byte %" PRIu64 "\n", name, vault_answer_text(r.answer), r.place + front);
        return REFUSED;
    }
    memcpy(b->at, old->at, front);
    b->size = front + (size_t)r.value;
    return DONE;
}

static int write_file(const struct bytes *b, const char *name)
{
    FILE *f = fopen(name, "wbx");
    if (f == NULL)
        return failed(name, strerror(errno));
    int bad = fwrite(b->at, 1, b->size, f) != b->size ? errno : 0;
    if (fclose(f) != 0 && bad == 0)
        bad = errno;
    if (bad == 0)
        return DONE;
    remove(name);
    return failed(name, strerror(bad));
}

int main(int n, char **words)
{
    struct bytes old, now;
    if (n != 3)
        return failed("usage", "convert OLD NEW");
    int status = read_file(&old, words[1]);
    if (status == DONE)
        status = converted(&old, &now, words[1]);
    return status == DONE ? write_file(&now, words[2]) : status;
}
