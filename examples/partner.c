/* Checks the lists that partner archives sent against a class that is drawn as a PLA text.

       partner CLASS LIST..

   A list is a text with one pattern a line, such as 1-0, in any order; the last newline may be missing. Of each list one line is printed: that it
   fits, or what is wrong. That is the first line that is no pattern; else the first that overlaps an earlier one; else the first that leaves the
   class; else the lowest combination of the class that no line contains. A PLA text draws no either combination, so that what is not in the class
   is out.

   Exit status: 0 each list fits; 1 some list does not; 2 the class or some list cannot be read, or what is printed cannot be written; with the cause
   on standard error. A list that cannot be read does not keep the others from being checked. */
#include "vault_util.h"
#include <inttypes.h>
#include <stdio.h>
#include <stdlib.h>
#include <string.h>

enum { FITS = 0, FAULTY = 1, NOT_DONE = 2, FIRST_ROOM = 4096 };

static int failed(const char *name, const char *why)
{
    fprintf(stderr, "partner: %s: %s\n", name, why);
    return NOT_DONE;
}

static char *whole_text(FILE *f, size_t *size)
{
    size_t room = FIRST_ROOM, n = 0;
    char *text = malloc(room);
    while (text != NULL) {
        n += fread(text + n, 1, room - n, f);
        if (n < room)
            break;
        char *wider = room > SIZE_MAX / 2 ? NULL : realloc(text, room *= 2);
        if (wider == NULL)
            free(text);
        text = wider;
    }
    if (text != NULL && ferror(f)) {
        free(text);
        return NULL;
    }
    *size = n;
    return text;
}

/* All of a file, to be freed; NULL if it cannot be read. */
static char *whole_file(const char *name, size_t *size)
{
    FILE *f = fopen(name, "rb");
    if (f == NULL)
        return NULL;
    char *text = whole_text(f, size);
    fclose(f);
    return text;
}

static int read_class(struct vault_sheet *s, const char *name)
{
    size_t size = 0;
    char *text = whole_file(name, &size);
    if (text == NULL)
        return failed(name, "cannot be read");
    struct vault_reply r = vault_sheet_read_pla(s, text, size);
    free(text);
    if (r.answer == VAULT_UNREADABLE)
        fprintf(stderr, "partner: %s: not a PLA text, from byte %" PRIu64 " on\n", name, r.place);
    else if (r.answer != VAULT_DONE)
        return failed(name, vault_answer_text(r.answer));
    return r.answer == VAULT_DONE ? FITS : NOT_DONE;
}

/* Puts in place of the text the number of each line's pattern, a byte for each, and returns how many there are. What is no pattern has a number that
   no line of a sheet has. A line has a byte at least, if only its newline, so that no number is put where a line still is to be read. */
static size_t in_numbers(uint64_t marks, char *text, size_t size)
{
    size_t n = 0, to = 0;
    for (size_t from = 0; from < size; from = to + 1) {
        const char *end = memchr(text + from, '\n', size - from);
        to = end == NULL ? size : (size_t)(end - text);
        ((uint8_t *)text)[n++] = (uint8_t)vault_pattern_line(marks, text + from, to - from);
    }
    return n;
}

static int judge(const struct vault_sheet *s, const char *name)
{
    size_t size = 0;
    char *text = whole_file(name, &size), pattern[VAULT_PATTERN_SIZE];
    if (text == NULL)
        return failed(name, "cannot be read");
    uint64_t marks = vault_sheet_marks(s);
    const uint8_t *list = (const uint8_t *)text;
    struct vault_verdict v = vault_sheet_check_list(s, list, in_numbers(marks, text, size));
    const char *fault = vault_fault_text(v.fault);
    int told = v.answer != VAULT_DONE ? failed(name, vault_answer_text(v.answer)) : v.fault == VAULT_FITS ? FITS : FAULTY;
    if (told == FITS)
        printf("%s: %s\n", name, fault);
    else if (v.fault == VAULT_UNCOVERED)
        printf("%s: %s %s\n", name, vault_line_pattern(marks, vault_line_of(v.at), pattern), fault);
    else if (v.fault == VAULT_NO_BOX)
        printf("%s: line %" PRIu64 ": no pattern of %" PRIu64 " marks\n", name, v.at + 1, marks);
    else if (told == FAULTY)
        printf("%s: line %" PRIu64 ": %s %s\n", name, v.at + 1, vault_line_pattern(marks, list[v.at], pattern), fault);
    free(text);
    return told;
}

int main(int n, char **words)
{
    struct vault_sheet s;
    if (n < 3)
        return failed("usage", "partner CLASS LIST..");
    int status = read_class(&s, words[1]);
    if (status != FITS)
        return status;
    for (int i = 2; i < n; i++) {
        int told = judge(&s, words[i]);
        status = told > status ? told : status;
    }
    return fflush(stdout) != 0 || ferror(stdout) ? failed("output", "cannot be written") : status;
}
