/* The overnight batch: takes a sheet from its file, makes the day's movements, prints the lines of the class with their times, and keeps the sheet.

       inventory SHEET MARKS MOVEMENTS

   Line 1 of MOVEMENTS is `night N`. Then each line is a movement, `in P`, `out P`, `either P`, `recv P T` or `gone P T`, with one space between parts: P
   has a character 0 or 1 for each of the MARKS marks, the highest first, and T is a running time, in minutes such as 90:00 or in hours such as 1:30:00.
   Either is a combination that no can could have. A movement that is refused is printed with its line and the cause, and the rest go on. Times are
   printed in minutes. A sheet that was opened under a carrier profile stays under it.

   Nights are numbered from 1, and each is made once. SHEET has the number of the last night made and the sheet's stored form in one file, which is
   replaced as a whole: written beside it, brought to the disk, renamed. So the night is made or not made, wherever a power cut comes, and can be
   run again: if its number is in the file already, nothing is made and the lines are printed. Any number but that one and the next is refused.
   If there is no file, night 1 opens a sheet. A file that was kept by version 2 or before is rewritten first, once, by examples/convert.c. SHEET.lock
   keeps out a second run; it stays there, empty.

   Exit status: 0 done; 1 done, and some movement was refused; 2 not done, with the cause on standard error: run the same night again.
   Nothing is kept before all that is printed has been written. */
#define _POSIX_C_SOURCE 200809L
#include "vault_util.h"
#include <errno.h>
#include <fcntl.h>
#include <inttypes.h>
#include <stdio.h>
#include <string.h>
#include <unistd.h>

enum { DONE = 0, SOME_REFUSED = 1, NOT_DONE = 2 };

/* The longest first line, `night` and 18 digits, and the longest of any, as at the desk, both without their newline; and room for a file's name. */
enum { MOST_DIGITS = 18, NIGHT_LINE = 6 + MOST_DIGITS, LINE = 40, NAME = 4096 };

struct batch {
    struct vault_sheet sheet;
    uint64_t night; /* the last one made; 0: none */
    int again;      /* the night asked for is that one */
    int refused;    /* some movement was */
};

struct text {
    const char *start;
    size_t size;
};

static int failed(const char *name, const char *why)
{
    fprintf(stderr, "inventory: %s: %s\n", name, why);
    return NOT_DONE;
}

static int is(struct text t, const char *word)
{
    return t.size == strlen(word) && memcmp(t.start, word, t.size) == 0;
}

/* Splits a text at every space, and returns how many parts there are; the first `most` are handed back. */
static size_t split(struct text t, struct text part[], size_t most)
{
    size_t parts = 0, from = 0;
    for (size_t i = 0; i <= t.size; i++) {
        if (i < t.size && t.start[i] != ' ')
            continue;
        if (parts < most)
            part[parts] = (struct text){t.start + from, i - from};
        parts++;
        from = i + 1;
    }
    return parts;
}

/* A number of digits alone, without a needless zero in front; -1 if it is none. */
static int64_t number(struct text t)
{
    int64_t n = 0;
    if (t.size == 0 || t.size > MOST_DIGITS || (t.size > 1 && t.start[0] == '0'))
        return -1;
    for (size_t i = 0; i < t.size; i++) {
        if (t.start[i] < '0' || t.start[i] > '9')
            return -1;
        n = n * 10 + (t.start[i] - '0');
    }
    return n;
}

/* The number of a line `night N`, which begins both files; -1 if it is none. */
static int64_t night_of(struct text line)
{
    struct text part[2];
    return split(line, part, 2) == 2 && is(part[0], "night") ? number(part[1]) : -1;
}

/* ---- the sheet's file */

/* The name of a file beside the sheet's. */
static int beside(char out[NAME], const char *name, const char *ending)
{
    int n = snprintf(out, NAME, "%s%s", name, ending);
    return n >= 0 && n < NAME ? DONE : failed(name, "the name is too long");
}

/* Keeps other runs out until this one ends, however it ends: the system takes the lock off then. */
static int lock(const char *name)
{
    struct flock whole = {.l_type = F_WRLCK, .l_whence = SEEK_SET};
    char file[NAME];
    if (beside(file, name, ".lock") != DONE)
        return NOT_DONE;
    int f = open(file, O_RDWR | O_CREAT | O_CLOEXEC, 0666); /* stays open: closing it would take the lock off */
    if (f < 0)
        return failed(file, strerror(errno));
    if (fcntl(f, F_SETLK, &whole) != 0)
        return failed(file, errno == EACCES || errno == EAGAIN ? "another run is at work" : strerror(errno));
    return DONE;
}

/* The file's bytes: `night N`, a newline, and the stored form. */
static int taken(struct batch *b, const char *name, const uint8_t *bytes, size_t size)
{
    const uint8_t *end = memchr(bytes, '\n', size);
    int64_t night = end == NULL ? -1 : night_of((struct text){(const char *)bytes, (size_t)(end - bytes)});
    if (night < 1)
        return failed(name, "no sheet: it does not begin with a night");
    size_t front = (size_t)(end - bytes) + 1;
    struct vault_reply r = vault_sheet_read(&b->sheet, bytes + front, size - front);
    b->night = (uint64_t)night;
    if (r.answer == VAULT_DONE)
        return DONE;
    fprintf(stderr, "inventory: %s: no sheet: %s, at byte %" PRIu64 "\n", name, vault_answer_text(r.answer), r.place + front);
    return NOT_DONE;
}

/* The sheet from its file, or a new one. */
static int begin(struct batch *b, const char *name, uint64_t marks)
{
    uint8_t bytes[NIGHT_LINE + 1 + VAULT_FORM_SIZE + 1]; /* one more than there can be: the library then sees what is left over */
    FILE *f = fopen(name, "rb");
    if (f == NULL && errno == ENOENT) {
        uint64_t answer = vault_sheet_open(&b->sheet, marks).answer;
        b->night = 0;
        return answer == VAULT_DONE ? DONE : failed("MARKS", vault_answer_text(answer));
    }
    if (f == NULL)
        return failed(name, strerror(errno));
    size_t n = fread(bytes, 1, sizeof bytes, f);
    int bad = ferror(f) ? errno : 0;
    if (fclose(f) != 0 || bad != 0)
        return failed(name, strerror(bad != 0 ? bad : errno));
    int status = taken(b, name, bytes, n);
    if (status == DONE && vault_sheet_marks(&b->sheet) != marks)
        return failed(name, "its sheet has another number of marks");
    return status;
}

/* Writes all the bytes and brings them to the disk: 0, or the system's number of what went wrong. */
static int put(int f, const uint8_t *bytes, size_t size)
{
    while (size > 0) {
        ssize_t n = write(f, bytes, size);
        if (n < 0 && errno == EINTR)
            continue;
        if (n < 0)
            return errno;
        bytes += n;
        size -= (size_t)n;
    }
    return fsync(f) == 0 ? 0 : errno;
}

/* The new file, whole and on the disk, under its first name. */
static int laid(const struct batch *b, const char *fresh)
{
    uint8_t bytes[NIGHT_LINE + 2 + VAULT_FORM_SIZE];
    int n = snprintf((char *)bytes, NIGHT_LINE + 2, "night %" PRIu64 "\n", b->night);
    int f = open(fresh, O_WRONLY | O_CREAT | O_TRUNC | O_CLOEXEC, 0666);
    if (f < 0)
        return failed(fresh, strerror(errno));
    memcpy(bytes + n, vault_sheet_bytes(&b->sheet), vault_sheet_size(&b->sheet));
    int bad = put(f, bytes, (size_t)n + vault_sheet_size(&b->sheet));
    if (close(f) != 0 && bad == 0)
        bad = errno;
    return bad == 0 ? DONE : failed(fresh, strerror(bad));
}

/* Brings the name itself to the disk: it stands in the directory. */
static int settled(const char *name)
{
    char directory[NAME] = ".";
    const char *slash = strrchr(name, '/');
    if (slash != NULL)
        snprintf(directory, NAME, "%.*s", slash == name ? 1 : (int)(slash - name), name);
    int f = open(directory, O_RDONLY | O_CLOEXEC);
    int bad = f < 0 || fsync(f) != 0 ? errno : 0;
    if (f >= 0 && close(f) != 0 && bad == 0)
        bad = errno;
    return bad == 0 ? DONE : failed(directory, strerror(bad));
}

/* The new file takes the old one's place when all of it is on the disk; if it cannot, it goes, and the old one stays. */
static int keep(const struct batch *b, const char *name)
{
    char fresh[NAME];
    if (beside(fresh, name, ".new") != DONE)
        return NOT_DONE;
    int status = laid(b, fresh);
    if (status == DONE && rename(fresh, name) != 0)
        status = failed(name, strerror(errno));
    if (status != DONE) {
        unlink(fresh); /* it may not be there */
        return status;
    }
    return settled(name);
}

/* ---- the movements */

/* A change of standing. */
static uint64_t change(struct vault_sheet *s, struct text word, uint64_t c)
{
    if (is(word, "in"))
        return vault_sheet_enter(s, c).answer;
    if (is(word, "out"))
        return vault_sheet_leave(s, c).answer;
    return is(word, "either") ? vault_sheet_make_either(s, c).answer : VAULT_UNREADABLE;
}

/* One movement. Its answer is the library's, or VAULT_UNREADABLE for a line that is none. */
static uint64_t movement(struct vault_sheet *s, struct text line)
{
    struct text part[3];
    size_t parts = split(line, part, 3);
    if (parts < 2 || parts > 3)
        return VAULT_UNREADABLE;
    uint64_t c = vault_pattern_combination(vault_sheet_marks(s), part[1].start, part[1].size); /* no pattern: one that no sheet has */
    if (parts == 2)
        return change(s, part[0], c);
    struct vault_time time = vault_read_time(part[2].start, part[2].size); /* in either form: seconds are seconds */
    if (time.answer != VAULT_DONE)
        return time.answer;
    if (is(part[0], "recv"))
        return vault_sheet_receive(s, c, time.value).answer;
    return is(part[0], "gone") ? vault_sheet_withdraw(s, c, time.value).answer : VAULT_UNREADABLE;
}

enum found { WHOLE, UNREADABLE, NO_MORE };

/* The next line, taken with its newline. A line that is too long, or a last one without newline, is one line all the same, and unreadable. */
static enum found next(FILE *f, char line[LINE], struct text *t)
{
    size_t n = 0;
    int c = getc(f);
    if (c == EOF)
        return NO_MORE;
    for (; c != EOF && c != '\n'; c = getc(f)) {
        if (n < LINE)
            line[n] = (char)c;
        n += n <= LINE;
    }
    *t = (struct text){line, n};
    return c == '\n' && n <= LINE ? WHOLE : UNREADABLE;
}

/* Every line behind line 1. */
static void movements(struct batch *b, FILE *f)
{
    char line[LINE];
    struct text t;
    enum found found;
    for (uint64_t k = 2; (found = next(f, line, &t)) != NO_MORE; k++) {
        uint64_t answer = found == WHOLE ? movement(&b->sheet, t) : VAULT_UNREADABLE;
        if (answer == VAULT_DONE)
            continue;
        printf("refused %" PRIu64 ": %s\n", k, vault_answer_text(answer));
        b->refused = 1;
    }
}

/* The night of the file, if it is the next one; nothing, if it is the last one made. */
static int night(struct batch *b, FILE *f, const char *name)
{
    char line[LINE];
    struct text t;
    int64_t n = next(f, line, &t) == WHOLE ? night_of(t) : -1;
    if (ferror(f))
        return failed(name, strerror(errno));
    if (n < 1)
        return failed(name, "line 1 is not `night` and a number from 1 on");
    b->again = (uint64_t)n == b->night;
    if (b->again) {
        printf("night %" PRId64 " was made before\n", n);
        return DONE;
    }
    if ((uint64_t)n != b->night + 1) {
        fprintf(stderr, "inventory: %s: night %" PRId64 ", but the last one made is %" PRIu64 "\n", name, n, b->night);
        return NOT_DONE;
    }
    b->night++;
    movements(b, f);
    return ferror(f) ? failed(name, strerror(errno)) : DONE;
}

static int made(struct batch *b, const char *name)
{
    FILE *f = fopen(name, "rb");
    if (f == NULL)
        return failed(name, strerror(errno));
    int status = night(b, f, name);
    if (fclose(f) != 0 && status == DONE)
        return failed(name, strerror(errno));
    return status;
}

/* ---- what is printed */

static int shown(const struct vault_sheet *s)
{
    uint8_t list[VAULT_LIST_SIZE];
    char pattern[VAULT_PATTERN_SIZE], time[VAULT_TIME_SIZE];
    struct vault_reply lines = vault_sheet_list(s, list);
    printf("class %" PRIu64 ", lines %" PRIu64 "\n", vault_sheet_class_size(s).value, lines.value);
    for (uint64_t i = 0; i < lines.value; i++)
        printf("%s %s\n", vault_line_pattern(vault_sheet_marks(s), list[i], pattern), vault_time_text(vault_sheet_held(s, list[i]).value, time));
    printf("total %s\n", vault_time_text(vault_sheet_total(s).value, time));
    if (fflush(stdout) != 0 || ferror(stdout))
        return failed("standard output", "not all of it could be written");
    return DONE;
}

int main(int argc, char **argv)
{
    static struct batch b;
    if (argc != 4)
        return failed("usage", "inventory SHEET MARKS MOVEMENTS");
    int64_t marks = number((struct text){argv[2], strlen(argv[2])});
    if (marks < 1 || marks > VAULT_MOST_MARKS)
        return failed(argv[2], vault_answer_text(VAULT_MARKS));
    int status = lock(argv[1]);
    if (status == DONE)
        status = begin(&b, argv[1], (uint64_t)marks);
    if (status == DONE)
        status = made(&b, argv[3]);
    if (status == DONE)
        status = shown(&b.sheet);
    if (status == DONE)
        status = b.again ? settled(argv[1]) : keep(&b, argv[1]);
    return status == DONE && b.refused ? SOME_REFUSED : status;
}
