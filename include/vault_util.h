/*
 * vault_util.h: what a caller of vault.h would write himself, for C99 and C++. Header only: there is nothing more to link.
 *
 * NOT PROVED. The library behind vault.h is; the functions here are plain C, tested against it (tests/util.c). Each takes any numbers, and none
 * allocates memory or keeps state.
 */
#ifndef VAULT_UTIL_H
#define VAULT_UTIL_H

#include "vault.h"

#ifdef __cplusplus
extern "C" {
#endif

/* Room for a pattern, and for a running time, with the zero byte at the end. */
#define VAULT_PATTERN_SIZE (VAULT_MOST_MARKS + 1)
#define VAULT_TIME_SIZE 22

/* What an answer says, in a few words. A number that is no answer has words too. */
static inline const char *vault_answer_text(uint64_t answer)
{
    switch (answer) {
    case VAULT_DONE: return "done";
    case VAULT_MARKS: return "marks are 1 to 5";
    case VAULT_COMBINATION: return "no such combination";
    case VAULT_STANDING: return "stands so already";
    case VAULT_AMOUNT: return "a time from 0:01 to 599:59 is wanted";
    case VAULT_ROOM: return "the area is too short";
    case VAULT_SPOILED: return "the sheet is spoiled";
    case VAULT_ABOVE: return "more than a sheet can hold";
    case VAULT_BELOW: return "less is held";
    case VAULT_UNREADABLE: return "not readable";
    case VAULT_EITHER: return "no can could have it, or it holds seconds";
    case VAULT_PROFILE: return "a profile is one or two groups of two or more of the marks, no mark twice";
    default: return "no such answer";
    }
}

/* What a fault of a list says, in a few words. A number that is no fault has words too. */
static inline const char *vault_fault_text(uint64_t fault)
{
    switch (fault) {
    case VAULT_FITS: return "fits";
    case VAULT_NO_BOX: return "no such line";
    case VAULT_OVERLAP: return "overlaps an earlier line";
    case VAULT_LEAVES: return "leaves the class";
    case VAULT_UNCOVERED: return "is not covered";
    default: return "no such fault";
    }
}

/*
 * The pattern of a line, such as "1-0": a character 0, 1 or - for each mark, the highest first. It is written to out, which has VAULT_PATTERN_SIZE
 * bytes, and out is returned. If marks is not 1 to 5 or the number is no line of so many marks, the text is empty.
 */
static inline char *vault_line_pattern(uint64_t marks, uint64_t line, char *out)
{
    uint64_t i;
    out[0] = '\0';
    if (marks < 1 || marks > VAULT_MOST_MARKS || line >= VAULT_LINES(marks))
        return out;
    out[marks] = '\0';
    for (i = marks; i-- > 0; line /= 3)
        out[i] = "01-"[line % 3];
    return out;
}

/*
 * The line of a pattern, for a list that vault_check_list is to check: the text of so many bytes, without a zero byte, has a character 0, 1 or - for
 * each mark, the highest first. Any other text gives VAULT_MOST_LINES, which is no line of any sheet, as it does if marks is not 1 to 5.
 */
static inline uint64_t vault_pattern_line(uint64_t marks, const char *text, size_t size)
{
    uint64_t line = 0;
    size_t i;
    if (marks < 1 || marks > VAULT_MOST_MARKS || size != marks)
        return VAULT_MOST_LINES;
    for (i = 0; i < size; i++) {
        if (text[i] != '0' && text[i] != '1' && text[i] != '-')
            return VAULT_MOST_LINES;
        line = line * 3 + (text[i] == '-' ? 2u : text[i] == '1' ? 1u : 0u);
    }
    return line;
}

/*
 * The combination of a pattern without a free mark: the text of so many bytes, without a zero byte, has a character 0 or 1 for each mark, the highest
 * first. As a group of a profile it has the marks that are 1. Any other text gives VAULT_MOST_COMBINATIONS, which is no combination and no group of
 * any sheet, as it does if marks is not 1 to 5.
 */
static inline uint64_t vault_pattern_combination(uint64_t marks, const char *text, size_t size)
{
    uint64_t combination = 0;
    size_t i;
    if (marks < 1 || marks > VAULT_MOST_MARKS || size != marks)
        return VAULT_MOST_COMBINATIONS;
    for (i = 0; i < size; i++) {
        if (text[i] != '0' && text[i] != '1')
            return VAULT_MOST_COMBINATIONS;
        combination = combination * 2 + (text[i] == '1' ? 1u : 0u);
    }
    return combination;
}

/*
 * Seconds as a running time, such as "12:30". It is written to out, which has VAULT_TIME_SIZE bytes, enough for every number, and out is
 * returned. It is in minutes, also from an hour on. vault_read_time reads it back, up to 599:59, and the form is then VAULT_IN_MINUTES.
 */
static inline char *vault_time_text(uint64_t seconds, char *out)
{
    uint64_t minutes = seconds / 60, unit = 1;
    char *to = out;
    while (minutes / unit > 9)
        unit *= 10;
    for (; unit > 0; unit /= 10)
        *to++ = "0123456789"[minutes / unit % 10];
    *to++ = ':';
    *to++ = "012345"[seconds % 60 / 10];
    *to++ = "0123456789"[seconds % 10];
    *to = '\0';
    return out;
}

/*
 * The line that contains one combination and no other, for vault_held, vault_outside and vault_either. A combination that a sheet does not have gives
 * a number that is no line of it.
 */
static inline uint64_t vault_line_of(uint64_t combination)
{
    uint64_t line = 0, digit = 1;
    if (combination >= VAULT_MOST_COMBINATIONS)
        return VAULT_MOST_LINES;
    for (; combination > 0; combination /= 2, digit *= 3)
        line += combination % 2 * digit;
    return line;
}

/*
 * A sheet with the two areas that it goes between: it stands in form[now], the next one is written to the other, and a change that is done swaps
 * them. Read and change it by the functions below alone. Copied by =, it is a second sheet.
 */
struct vault_sheet {
    uint8_t form[2][VAULT_FORM_SIZE];
    size_t size; /* bytes of the stored form; 0: no sheet */
    int now;
};

/* The stored form, vault_sheet_size bytes, until the next change; and the number of marks, 0 if there is no sheet. */
static inline const uint8_t *vault_sheet_bytes(const struct vault_sheet *s)
{
    return s->form[s->now];
}

static inline size_t vault_sheet_size(const struct vault_sheet *s)
{
    return s->size;
}

static inline unsigned vault_sheet_marks(const struct vault_sheet *s)
{
    return s->size == 0 ? 0u : s->form[s->now][0];
}

/*
 * The groups of the profile that the sheet is under, as vault_open_profile takes them. They are written to groups, which has VAULT_MOST_GROUPS bytes,
 * and their number is returned: 0 if there is no profile, or no sheet. They stand behind the three sections of the form, of which the third has five
 * bytes for each of its combinations and the others one. No count is above 32, so that its low byte tells it.
 */
static inline size_t vault_sheet_groups(const struct vault_sheet *s, uint8_t *groups)
{
    const uint8_t *form = s->form[s->now];
    size_t at = 1, section, n, i;
    for (section = 0; section < 3 && at < s->size; section++)
        at += 2 + (size_t)form[at] * (section == 2 ? 5 : 1);
    n = at < s->size ? form[at] : 0;
    for (i = 0; i < n; i++)
        groups[i] = form[at + 2 + i];
    return n;
}

/* For the functions below: where the next sheet is written, and the swap. */
static inline uint8_t *vault_sheet_room(struct vault_sheet *s)
{
    return s->form[!s->now];
}

static inline struct vault_reply vault_sheet_swap(struct vault_sheet *s, struct vault_reply r)
{
    if (r.answer == VAULT_DONE) {
        s->now = !s->now;
        s->size = (size_t)r.value;
    }
    return r;
}

/*
 * A sheet begins with one of these: vault_open, or vault_open_profile with the groups of a profile, or vault_copy of a stored form, or vault_from_form1
 * of an old one, or vault_read_pla of a PLA text; groups, form and text may not lie in s. What s was before does not matter. A refusal leaves no sheet
 * in s: every call on it then answers VAULT_UNREADABLE at place 0.
 */
static inline struct vault_reply vault_sheet_open(struct vault_sheet *s, uint64_t marks)
{
    s->size = 0;
    s->now = 0;
    return vault_sheet_swap(s, vault_open(marks, vault_sheet_room(s), VAULT_FORM_SIZE));
}

static inline struct vault_reply vault_sheet_open_profile(struct vault_sheet *s, uint64_t marks, const uint8_t *groups, size_t size)
{
    s->size = 0;
    s->now = 0;
    return vault_sheet_swap(s, vault_open_profile(marks, groups, size, vault_sheet_room(s), VAULT_FORM_SIZE));
}

static inline struct vault_reply vault_sheet_read(struct vault_sheet *s, const uint8_t *bytes, size_t size)
{
    s->size = 0;
    s->now = 0;
    return vault_sheet_swap(s, vault_copy(bytes, size, vault_sheet_room(s), VAULT_FORM_SIZE));
}

static inline struct vault_reply vault_sheet_from_form1(struct vault_sheet *s, const uint8_t *old, size_t size)
{
    s->size = 0;
    s->now = 0;
    return vault_sheet_swap(s, vault_from_form1(old, size, vault_sheet_room(s), VAULT_FORM_SIZE));
}

static inline struct vault_reply vault_sheet_read_pla(struct vault_sheet *s, const void *text, size_t size)
{
    s->size = 0;
    s->now = 0;
    return vault_sheet_swap(s, vault_read_pla(text, size, vault_sheet_room(s), VAULT_FORM_SIZE));
}

/* The changes of vault.h. A refusal leaves the sheet as it was; VAULT_ROOM does not come. */
static inline struct vault_reply vault_sheet_enter(struct vault_sheet *s, uint64_t combination)
{
    return vault_sheet_swap(s, vault_enter(vault_sheet_bytes(s), s->size, combination, vault_sheet_room(s), VAULT_FORM_SIZE));
}

static inline struct vault_reply vault_sheet_leave(struct vault_sheet *s, uint64_t combination)
{
    return vault_sheet_swap(s, vault_leave(vault_sheet_bytes(s), s->size, combination, vault_sheet_room(s), VAULT_FORM_SIZE));
}

static inline struct vault_reply vault_sheet_make_either(struct vault_sheet *s, uint64_t combination)
{
    return vault_sheet_swap(s, vault_make_either(vault_sheet_bytes(s), s->size, combination, vault_sheet_room(s), VAULT_FORM_SIZE));
}

static inline struct vault_reply vault_sheet_receive(struct vault_sheet *s, uint64_t combination, uint64_t seconds)
{
    return vault_sheet_swap(s, vault_receive(vault_sheet_bytes(s), s->size, combination, seconds, vault_sheet_room(s), VAULT_FORM_SIZE));
}

static inline struct vault_reply vault_sheet_withdraw(struct vault_sheet *s, uint64_t combination, uint64_t seconds)
{
    return vault_sheet_swap(s, vault_withdraw(vault_sheet_bytes(s), s->size, combination, seconds, vault_sheet_room(s), VAULT_FORM_SIZE));
}

/*
 * What vault.h tells of a sheet. list has VAULT_LIST_SIZE bytes, but the one that is checked any number; and text, which gets no zero byte at its
 * end, VAULT_PLA_SIZE.
 */
static inline struct vault_reply vault_sheet_list(const struct vault_sheet *s, uint8_t *list)
{
    return vault_list(vault_sheet_bytes(s), s->size, list, VAULT_LIST_SIZE);
}

static inline struct vault_verdict vault_sheet_check_list(const struct vault_sheet *s, const uint8_t *list, size_t size)
{
    return vault_check_list(vault_sheet_bytes(s), s->size, list, size);
}

static inline struct vault_reply vault_sheet_write_pla(const struct vault_sheet *s, char *text)
{
    return vault_write_pla(vault_sheet_bytes(s), s->size, text, VAULT_PLA_SIZE);
}

static inline struct vault_reply vault_sheet_class_size(const struct vault_sheet *s)
{
    return vault_class_size(vault_sheet_bytes(s), s->size);
}

static inline struct vault_reply vault_sheet_total(const struct vault_sheet *s)
{
    return vault_total(vault_sheet_bytes(s), s->size);
}

static inline struct vault_reply vault_sheet_outside(const struct vault_sheet *s, uint64_t line)
{
    return vault_outside(vault_sheet_bytes(s), s->size, line);
}

static inline struct vault_reply vault_sheet_either(const struct vault_sheet *s, uint64_t line)
{
    return vault_either(vault_sheet_bytes(s), s->size, line);
}

static inline struct vault_reply vault_sheet_held(const struct vault_sheet *s, uint64_t line)
{
    return vault_held(vault_sheet_bytes(s), s->size, line);
}

#ifdef __cplusplus
}
#endif

#endif
