/* Reads a class that is drawn as a PLA text, and prints its shortest list, as a PLA text again.

       pla [-g GROUP].. [EITHER] <DRAWN >SHORTEST

   GROUP is a pattern such as 11100, a character for each input: a can has exactly one of the marks that are 1. There may be two such groups, which are the
   carrier profile of the sheet: what has not exactly one mark of each is a combination that no can could have, whether DRAWN has it or not, and the lines
   may contain it or not. EITHER is a second PLA text, of as many inputs, and what it draws is such a combination, too.

   Exit status: 0 done; 1 a text or a group is refused; 2 a text cannot be read, or what is printed cannot be written; with the cause on standard error. */
#include "vault_util.h"
#include <inttypes.h>
#include <stdio.h>
#include <stdlib.h>
#include <string.h>

enum { DONE = 0, REFUSED = 1, NOT_DONE = 2, FIRST_ROOM = 4096 };

/* Of a file by its name, or of a word, or with an empty name of standard input and output. */
static int failed(const char *name, const char *why)
{
    fprintf(stderr, "pla: %s%s%s\n", name, name[0] == '\0' ? "" : ": ", why);
    return NOT_DONE;
}

/* All of a text, to be freed; NULL if it cannot be read. */
static char *whole_text(FILE *f, size_t *size)
{
    size_t room = FIRST_ROOM, n = 0;
    char *text = malloc(room);
    while (text != NULL) {
        n += fread(text + n, 1, room - n, f);
        if (n < room)
            break;
        char *wider = room > SIZE_MAX / 2 ? NULL : realloc(text, room *= 2);
        if (wider == NULL)
            free(text);
        text = wider;
    }
    if (text != NULL && ferror(f)) {
        free(text);
        return NULL;
    }
    *size = n;
    return text;
}

static int refused_for(const char *name, const char *why)
{
    failed(name, why);
    return REFUSED;
}

/* Says why a text is refused, with the line, counted from 1. A place at the end of the text is that of no line: something is missing. */
static int refused(const char *name, struct vault_reply r, const char *text, size_t size)
{
    char why[80];
    uint64_t line = 1;
    for (size_t i = 0; i < size && i < r.place; i++)
        line += text[i] == '\n';
    snprintf(why, sizeof why, "line %" PRIu64 ": not readable, or a .p that miscounts the cubes", line);
    return refused_for(name, r.answer != VAULT_UNREADABLE ? vault_answer_text(r.answer) : r.place == size ? ".i or .o is missing" : why);
}

/* The sheet that a text draws. */
static int drawn(struct vault_sheet *s, const char *name, FILE *f)
{
    size_t size = 0;
    char *text = f == NULL ? NULL : whole_text(f, &size);
    if (text == NULL)
        return failed(name, "the input cannot be read");
    struct vault_reply r = vault_sheet_read_pla(s, text, size);
    int status = r.answer == VAULT_DONE ? DONE : refused(name, r, text, size);
    free(text);
    return status;
}

/* The answer of a class change, but done if the combination breaks the profile: it is either then, and stays so. (Here nothing is held, so that
   VAULT_EITHER has no other cause.) */
static uint64_t unless_broken(struct vault_reply r)
{
    return r.answer == VAULT_EITHER ? VAULT_DONE : r.answer;
}

/* The same class on a sheet under a profile, of n groups, which are every second word. */
static int with_groups(struct vault_sheet *s, char **words, int n)
{
    struct vault_sheet under;
    uint8_t groups[VAULT_MOST_GROUPS + 1]; /* one more than there can be: the library then sees that they are too many */
    uint64_t marks = vault_sheet_marks(s);
    int size = 0;
    for (; size < n && size <= VAULT_MOST_GROUPS; size++) {
        const char *word = words[2 * size];
        uint64_t group = vault_pattern_combination(marks, word, strlen(word));
        if (group == VAULT_MOST_COMBINATIONS)
            return refused_for(word, "not a 0 or 1 for each input");
        groups[size] = (uint8_t)group;
    }
    uint64_t answer = vault_sheet_open_profile(&under, marks, groups, (size_t)size).answer;
    if (answer != VAULT_DONE)
        return refused_for("-g", vault_answer_text(answer));
    for (uint64_t c = 0; answer == VAULT_DONE && c < VAULT_COMBINATIONS(marks); c++)
        if (vault_sheet_outside(s, vault_line_of(c)).value == 0)
            answer = unless_broken(vault_sheet_enter(&under, c));
    *s = under;
    return answer == VAULT_DONE ? DONE : failed("-g", vault_answer_text(answer));
}

/* Makes either what the text of a file draws. */
static int with_either(struct vault_sheet *s, const char *name)
{
    struct vault_sheet e;
    FILE *f = fopen(name, "rb");
    int status = drawn(&e, name, f);
    if (f != NULL)
        fclose(f);
    if (status != DONE)
        return status;
    if (vault_sheet_marks(&e) != vault_sheet_marks(s))
        return refused_for(name, "it has another number of inputs");
    uint64_t answer = VAULT_DONE;
    for (uint64_t c = 0; answer == VAULT_DONE && c < VAULT_COMBINATIONS(vault_sheet_marks(s)); c++)
        if (vault_sheet_outside(&e, vault_line_of(c)).value == 0)
            answer = unless_broken(vault_sheet_make_either(s, c));
    return answer == VAULT_DONE ? DONE : failed(name, vault_answer_text(answer));
}

static int shorten(const struct vault_sheet *s)
{
    char shortest[VAULT_PLA_SIZE];
    struct vault_reply r = vault_sheet_write_pla(s, shortest);
    if (r.answer != VAULT_DONE)
        return failed("", vault_answer_text(r.answer));
    if (fwrite(shortest, 1, (size_t)r.value, stdout) != r.value || fflush(stdout) != 0)
        return failed("", "the output cannot be written");
    return DONE;
}

int main(int n, char **words)
{
    struct vault_sheet s;
    int first = 1;
    while (first < n && strcmp(words[first], "-g") == 0)
        first += 2;
    if (first > n || n - first > 1)
        return failed("usage", "pla [-g GROUP].. [EITHER] <DRAWN >SHORTEST");
    int status = drawn(&s, "", stdin);
    if (status == DONE && first > 1)
        status = with_groups(&s, words + 2, first / 2);
    if (status == DONE && first < n)
        status = with_either(&s, words[first]);
    return status == DONE ? shorten(&s) : status;
}
