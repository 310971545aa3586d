/*
 * vault.h: the shelf lists of the film vault, for C99 and C++. vault(3) is its manual page, and vault_util.h has what a caller writes around it.
 *
 * A sheet says, for 1 to 5 marks, how each combination of marks stands and how many seconds of film it holds. A combination is the sum of 2^i over
 * the marks i that are on, 0 to 2^m - 1. It stands in the class, out of it, or either: no can could have it, so that lines may contain it or not, and
 * it holds nothing. A line is a box: each mark has a digit, 0 off, 1 on, 2 free, and the line's number is the sum of digit * 3^i, 0 to 3^m - 1; it
 * contains every combination that agrees with its digits 0 and 1. The list of a class is the shortest list of lines that together contain every
 * combination in the class and none that is out, no combination twice, be it in the class or either; in rising order of each line's lowest combination
 * in the class, and the first such list by line numbers.
 *
 * A sheet may be opened under a carrier profile: one or two groups of marks, of each of which a can has exactly one, such as nitrate, acetate and
 * polyester. A combination that has none of a group on, or more than one, breaks the profile: it is either, and stays so (vault_open_profile).
 *
 * A program keeps a sheet in its stored form: bytes, to be written to a file as they are, the same on every machine.
 *
 *     byte m
 *     count (2 bytes, low byte first), then the combinations in the class, one byte each, strictly rising
 *     count (2 bytes, low byte first), then the either combinations, one byte each, strictly rising; none of them is in the class
 *     count (2 bytes, low byte first), then the held combinations, strictly rising: one byte, and the seconds (1 or more) in 4 bytes, low first;
 *         none of them is either
 *     under a profile alone, where another sheet has nothing: count (2 bytes, low byte first) of the groups, 1 or 2, then the groups, one byte each,
 *         the sum of 2^i over the marks i of the group; each combination that breaks the profile is either
 *
 * What stands in neither of the first two sections is out. Up to version 2 the form had no section of either combinations: vault_from_form1 reads such
 * bytes, every other entry today's alone. Nothing guesses in which of the two forms bytes are, and nothing could, since some are both (see there).
 * Version 3.0 had no profiles: its forms are read as they are, and a program of 3.0 refuses a form that has a profile, at the count of its groups.
 *
 * An entry that changes a sheet takes the old stored form in one area and writes the new one to another, which the program takes for the
 * sheet from then on: never in place. Nothing else is kept: no memory is allocated, there is no state between calls, and nothing is locked, so
 * that threads may call any entries at once as long as none writes to an area that another uses. An entry needs less than 64 kB of stack.
 *
 * Areas. A pointer and a length lend that many bytes for the time of the call. Any length is taken. A null pointer with length 0 is an empty
 * area; with another length it must not be null. An area that is written to may not overlap any other; two that are only read may. A byte
 * behind what was written stays as it was. An area that always suffices has VAULT_FORM_SIZE bytes for a stored form, VAULT_LIST_SIZE bytes for
 * a list, and VAULT_PLA_SIZE bytes for a PLA text that is written; an old form that is read has at most VAULT_FORM1_SIZE.
 *
 * Replies. Every entry but two returns a struct vault_reply: an answer, a place and a value. vault_read_time returns a struct vault_time, which has
 * these three in front, under the same rules, and a form behind them; vault_check_list a struct vault_verdict, which has the answer and the place in
 * front, and behind them a fault and where that is. The place is 0 for every answer but VAULT_UNREADABLE; the value is 0 for every answer but
 * VAULT_DONE, and so are the form, the fault and where it is. Every answer but VAULT_DONE is a refusal, and leaves every byte of every area as it was.
 * If there are several reasons to refuse, the first in this order is answered: what reading the sheet answers, then what the call answers, in the
 * order in which the entry below names them, then VAULT_ROOM. (vault_open and vault_open_profile read no sheet; vault_read_pla reads a text in its
 * place, and vault_from_form1 a form without either combinations.)
 *
 * Reading a sheet answers, before anything else,
 *     VAULT_UNREADABLE  with place 0, if there is no byte
 *     VAULT_MARKS       if its first byte is not 1 to 5
 *     VAULT_UNREADABLE  with the offset of the first faulty field: a count above 2^m, a combination not below 2^m or not above the one before in its
 *                       section, an either combination that is in the class, a held one that is either, seconds of 0, or seconds that bring the
 *                       sum above VAULT_MOST_HELD, a count of groups that is not 1 or 2, or a group of fewer than two marks, with a mark not
 *                       below m, or with one of the group before; or with the length, if the bytes end early; or with the offset of the count of
 *                       groups, if a combination that breaks the profile is not either; or with the offset of the first byte left over.
 * Fields are judged in order, each once all its bytes are there. So a faulty field that is complete comes before bytes that end early, and one
 * that is cut short is not judged: the bytes 1, 3, 0 have place 1, a count above 2, and the bytes 1, 3 have place 2, where they end. The seconds
 * of a held combination are a field of their own, with their own offset, one above that of the combination. Any byte behind the held section begins
 * a count of groups, so that a single stray one there is no byte left over: the bytes end early, and the place is the length.
 */
#ifndef VAULT_H
#define VAULT_H

#include <stddef.h>
#include <stdint.h>

#ifdef __cplusplus
extern "C" {
#endif

/* The version, as three numbers and as text with dots between. The three lines are its one source: Makefile and vault.pc take it from here. */
#define VAULT_VERSION_MAJOR 4
#define VAULT_VERSION_MINOR 1
#define VAULT_VERSION_PATCH 0
#define VAULT_DOTTED(a, b, c) #a "." #b "." #c
#define VAULT_DOTTED_VALUES(a, b, c) VAULT_DOTTED(a, b, c)
#define VAULT_VERSION VAULT_DOTTED_VALUES(VAULT_VERSION_MAJOR, VAULT_VERSION_MINOR, VAULT_VERSION_PATCH)

/* The answers. Two numbers are none of them: 6 is not used, since every class has a list; 11 is for a date, and the program months alone gives it. */
enum vault_answer {
    VAULT_DONE = 0,        /* done */
    VAULT_MARKS = 1,       /* opening or reading with marks not 1 to 5 */
    VAULT_COMBINATION = 2, /* a combination not below 2^m */
    VAULT_STANDING = 3,    /* a class change to the standing already had */
    VAULT_AMOUNT = 4,      /* an amount not 1 to 35,999 seconds */
    VAULT_ROOM = 5,        /* lent room too short */
    VAULT_SPOILED = 7,     /* the sheet is spoiled: never met here, since a sheet that can be read is sound */
    VAULT_ABOVE = 8,       /* a receipt would take the seconds of a line above 4,000,000,000 */
    VAULT_BELOW = 9,       /* a withdrawal would take the seconds of a line below 0 */
    VAULT_UNREADABLE = 10, /* text or stored bytes not readable; the place goes with it */
    VAULT_EITHER = 12,     /* a receipt to an either combination, making one either that holds seconds, or a change of one that breaks the profile */
    VAULT_PROFILE = 13     /* opening under a profile that is faulty */
};

/* The forms of a running time. */
enum vault_form {
    VAULT_NO_TIME = 0,    /* refused */
    VAULT_IN_MINUTES = 1, /* M:SS, such as 90:00 */
    VAULT_IN_HOURS = 2    /* H:MM:SS, such as 1:30:00 */
};

/* The faults of a list that is checked, in the order in which they are sought. */
enum vault_fault {
    VAULT_FITS = 0,     /* none; or the check was refused */
    VAULT_NO_BOX = 1,   /* a number that is no line: not below 3^m */
    VAULT_OVERLAP = 2,  /* a line that contains a combination of an earlier one */
    VAULT_LEAVES = 3,   /* a line that contains a combination that is out */
    VAULT_UNCOVERED = 4 /* a combination in the class that no line contains */
};

/* The limits. */
#define VAULT_MOST_MARKS 5
#define VAULT_MOST_GROUPS 2          /* of a profile */
#define VAULT_MOST_COMBINATIONS 32
#define VAULT_MOST_LINES 243
#define VAULT_MOST_AMOUNT 35999      /* seconds of one receipt or withdrawal: 599:59, or 9:59:59, the most of either form */
#define VAULT_MOST_HELD 4000000000u  /* seconds of a sheet */

/*
 * Room that always suffices: for a stored form, 7 + 6 * 32 bytes, for a list, of 16 lines, and for a PLA text of 16 cubes of five marks. A profile
 * makes no form longer than that: under one, half of the combinations at least are either and hold nothing, so that such a form has no more than
 * 7 + 32 + 5 * 16 + 3 = 122 bytes. A form of version 2 or before, which vault_from_form1 reads, has no more than 5 + 6 * 32 bytes.
 */
#define VAULT_FORM_SIZE 199
#define VAULT_LIST_SIZE 16
#define VAULT_PLA_SIZE 147
#define VAULT_FORM1_SIZE 197

/*
 * The combinations, 2^m, and the lines, 3^m, of a sheet of m marks, m from 1 to 5: 2, 4, 8, 16, 32 and 3, 9, 27, 81, 243; and the room that its list
 * asks for, 2^(m - 1): 1, 2, 4, 8, 16. No class of m marks needs more lines than that, whatever is either, and some class needs as many.
 */
#define VAULT_COMBINATIONS(m) (1u << (m))
#define VAULT_LIST_ROOM(m) (1u << ((m) - 1))
#define VAULT_LINES(m) ((m) == 1 ? 3u : (m) == 2 ? 9u : (m) == 3 ? 27u : (m) == 4 ? 81u : 243u)

struct vault_reply {
    uint64_t answer; /* an enum vault_answer */
    uint64_t place;  /* 0 but for VAULT_UNREADABLE */
    uint64_t value;  /* 0 when refused */
};

/* The reply of vault_read_time. */
struct vault_time {
    uint64_t answer; /* VAULT_DONE or VAULT_UNREADABLE */
    uint64_t place;  /* 0 but for VAULT_UNREADABLE */
    uint64_t value;  /* the seconds; 0 when refused */
    uint64_t form;   /* an enum vault_form */
};

/* The reply of vault_check_list. */
struct vault_verdict {
    uint64_t answer; /* an enum vault_answer: what reading the sheet answers */
    uint64_t place;  /* 0 but for VAULT_UNREADABLE */
    uint64_t fault;  /* an enum vault_fault; 0 when refused */
    uint64_t at;     /* where the fault is: an index of the list, from 0, or for VAULT_UNCOVERED a combination; 0 if there is none, or when refused */
};

/*
 * Opens a sheet of some marks, with every combination out and nothing held. Value: the bytes written (7).
 * Refused: VAULT_MARKS if marks is not 1 to 5; VAULT_ROOM if out has fewer than 7 bytes.
 */
struct vault_reply vault_open(uint64_t marks, uint8_t *out, size_t out_size);

/*
 * Opens a sheet under a carrier profile: with every combination either that breaks it, the others out, and nothing held. groups has one byte for each
 * group, the sum of 2^i over the marks i of the group. Let polyester be mark 0, acetate mark 1, nitrate mark 2 and colour mark 3. A can is on one of
 * the three carriers and on no second, so that they are a group, 1 + 2 + 4:
 *
 *     const uint8_t carriers[] = {7};
 *     struct vault_reply r = vault_open_profile(4, carriers, sizeof carriers, out, sizeof out);
 *
 * The six combinations with one carrier, in colour or not, are out, and enter and leave as on any sheet; the other ten, with none of the three or with
 * more than one, are either, and no class change moves them. All film on nitrate or acetate, 2, 4, 10 and 12, then is one line, "not on polyester", the
 * other marks free. A second group is for another choice of one among several, of marks that the first has not.
 * Value: the bytes written: 9, one for each group, and one for each combination that breaks the profile, 12 to 37 together.
 * Refused: VAULT_MARKS if marks is not 1 to 5; VAULT_PROFILE if the profile is faulty: groups has not 1 or 2 bytes, a group has fewer than two marks, a
 * mark is in both groups, or a mark is not below marks; VAULT_ROOM if out is too short for the form.
 */
struct vault_reply vault_open_profile(uint64_t marks, const uint8_t *groups, size_t groups_size, uint8_t *out, size_t out_size);

/*
 * The five changes. Never in place: out may not overlap the sheet. The value is the size of the new form, which out holds only if the answer is
 * VAULT_DONE; after a refusal the old form is still the sheet.
 */

/*
 * Puts a combination into the class (enter), or takes it out (leave), however it stood, also if it was either, but not if it breaks the sheet's
 * profile. Value: the bytes written.
 * Refused: reading's answer; VAULT_COMBINATION; VAULT_EITHER if it breaks the profile; VAULT_STANDING if it is in the class (out of it) already;
 * VAULT_ROOM if out is too short for the new form.
 */
struct vault_reply vault_enter(const uint8_t *sheet, size_t sheet_size, uint64_t combination, uint8_t *out, size_t out_size);
struct vault_reply vault_leave(const uint8_t *sheet, size_t sheet_size, uint64_t combination, uint8_t *out, size_t out_size);

/*
 * Makes a combination either, that was in the class or out of it: no can could have it, and lines may contain it or not, whichever gives the better
 * list. Value: the bytes written.
 * Refused: reading's answer; VAULT_COMBINATION; VAULT_EITHER if it breaks the sheet's profile (and not VAULT_STANDING, though it is either);
 * VAULT_STANDING if it is either already; VAULT_EITHER if it holds seconds; VAULT_ROOM if out is too short for the new form.
 */
struct vault_reply vault_make_either(const uint8_t *sheet, size_t sheet_size, uint64_t combination, uint8_t *out, size_t out_size);

/*
 * Adds seconds to what a combination holds. Value: the bytes written. The combination may be in the class or out of it.
 * Refused: reading's answer; VAULT_COMBINATION; VAULT_AMOUNT if seconds is not 1 to VAULT_MOST_AMOUNT; VAULT_EITHER if the combination is either;
 * VAULT_ABOVE if the sheet would hold more than VAULT_MOST_HELD; VAULT_ROOM if out is too short for the new form.
 */
struct vault_reply vault_receive(const uint8_t *sheet, size_t sheet_size, uint64_t combination, uint64_t seconds, uint8_t *out,
                                 size_t out_size);

/*
 * Takes seconds from what a combination holds. Value: the bytes written.
 * Refused: reading's answer; VAULT_COMBINATION; VAULT_AMOUNT as above; VAULT_BELOW if the combination holds less, as every either one does;
 * VAULT_ROOM if out is too short for the new form.
 */
struct vault_reply vault_withdraw(const uint8_t *sheet, size_t sheet_size, uint64_t combination, uint64_t seconds, uint8_t *out,
                                  size_t out_size);

/*
 * Reads a sheet and writes it again: the same bytes. A program that only wants to know whether bytes are a sheet may lend no room: the
 * answer is then VAULT_ROOM if they are. Value: the bytes written.
 * Refused: reading's answer; VAULT_ROOM if out has fewer bytes than the form.
 */
struct vault_reply vault_copy(const uint8_t *sheet, size_t sheet_size, uint8_t *out, size_t out_size);

/*
 * Reads a form of version 2 or before, which has no section of either combinations: byte m, the class section and the held section, as above. Writes
 * the same sheet in today's form, without an either combination and without a profile. Value: the bytes written, two more than were read.
 * Refused: what reading a sheet answers, in this form; VAULT_ROOM if out is too short for the new one.
 * A program knows by itself which of its files are old. The bytes do not tell: the twenty 3, 0 0, 3 0, 0 1 2 2 0, 3 1 0 0 0, 4 1 0 0 0 are an old form,
 * with 131,585 seconds under 0, and one each under 3 and 4; and today's, with 0, 1 and 2 either, and one each under 3 and 4.
 */
struct vault_reply vault_from_form1(const uint8_t *old, size_t old_size, uint8_t *out, size_t out_size);

/*
 * Writes the list of the class, one byte for each line's number. Value: the number of lines, 0 for an empty class.
 * Refused: reading's answer; VAULT_ROOM if the area has fewer than 2^(m - 1) bytes, VAULT_LIST_ROOM(m), however short the list is:
 * for one mark, one byte, even for an empty class.
 */
struct vault_reply vault_list(const uint8_t *sheet, size_t sheet_size, uint8_t *list, size_t list_size);

/* Value: how many combinations are in the class. Refused: reading's answer. */
struct vault_reply vault_class_size(const uint8_t *sheet, size_t sheet_size);

/* Value: the seconds held by the combinations in the class. Refused: reading's answer. */
struct vault_reply vault_total(const uint8_t *sheet, size_t sheet_size);

/*
 * Value: how many combinations of the line are out of the class (outside), how many are either (either), and the seconds that its combinations hold
 * (held).
 * Refused: reading's answer.
 * Beware: a number not below 3^m, VAULT_LINES(m), is no line of the sheet, and is not refused: the three entries answer VAULT_DONE with 0.
 */
struct vault_reply vault_outside(const uint8_t *sheet, size_t sheet_size, uint64_t line);
struct vault_reply vault_either(const uint8_t *sheet, size_t sheet_size, uint64_t line);
struct vault_reply vault_held(const uint8_t *sheet, size_t sheet_size, uint64_t line);

/*
 * Compares two lists: the one with fewer lines is before the other, and of two with as many the one with the smaller number at the first
 * place where they differ. Value: 1 if the second is before the first; 0 if the first is before the second or they are equal. Any bytes are
 * taken as line numbers; an empty list is before every other. Never refused.
 */
struct vault_reply vault_before(const uint8_t *first, size_t first_size, const uint8_t *second, size_t second_size);

/*
 * Checks a list that someone else drew, one byte for each line's number, in any order and of any length. It fits the class if no combination is in
 * two of its lines, either ones included, and they together contain every combination in the class and none that is out; it need not be the shortest,
 * and a line of either combinations alone is no fault. The empty list fits the empty class alone.
 * Fault: VAULT_FITS, or the first of these that is found, each being sought through the whole list before the next:
 *
 *     VAULT_NO_BOX     a number not below 3^m. At: the first such index
 *     VAULT_OVERLAP    a line that shares a combination with an earlier one. At: the index of the later line, the first there is
 *     VAULT_LEAVES     a line that contains a combination that is out. At: the first such index
 *     VAULT_UNCOVERED  a combination in the class that no line contains. At: the lowest such combination
 *
 * So the list 5, 5, 9 of two marks has VAULT_NO_BOX at 2, and not VAULT_OVERLAP at 1. A faulty list is no refusal: the answer is VAULT_DONE.
 * Refused: reading's answer. Beware: the fault is then 0, as that of a list that fits: look at the answer first.
 */
struct vault_verdict vault_check_list(const uint8_t *sheet, size_t sheet_size, const uint8_t *list, size_t list_size);

/*
 * Reads a running time, which is written in one of two forms, and nothing else:
 *
 *     M:SS       minutes 0 to 599 without a needless zero in front, a colon, two digits of seconds 00 to 59
 *     H:MM:SS    hours, one digit 1 to 9, a colon, two digits of minutes 00 to 59, a colon, two digits of seconds 00 to 59
 *
 * The text is lent as const void *, so that a char * is passed as it is. Value: the seconds, 0 to 35,999. Form: VAULT_IN_MINUTES or
 * VAULT_IN_HOURS, the one that was met; no text has both. So 90:00 and 1:30:00 are 5,400 seconds each, and 1:30 is 90.
 * Refused: VAULT_UNREADABLE, with the length of the longest beginning of the text that some readable text, of either form, begins with too. So the
 * place is 5 in 1:30: and in 10:00:00, 4 in 0:00:00, and 2 in 1:60:00.
 */
struct vault_time vault_read_time(const void *text, size_t text_size);

/*
 * PLA texts. A class can be drawn as a Berkeley PLA text of one output, such as
 *
 *     # colour, or silent and tinted
 *     .i 3
 *     .o 1
 *     .p 2
 *     1-- 1
 *     -11 1
 *     .e
 *
 * A line is what stands between newlines; the last newline may be missing. In a line # begins a comment, up to the line's end and of any bytes.
 * Of what stands before it, a word is what stands between spaces and tabs, of which there may be any number. A line has no word, or it is
 *
 *     .i N      the inputs, which are the marks: 1 to 5
 *     .o 1      the one output
 *     .p N      the number of cube lines; a line that is there twice counts twice
 *     CUBE 1    a cube: one of 0, 1 and - for each input, the leftmost for the highest mark. Cubes may overlap
 *     .e        the end. What stands behind this word is skipped, in its line and below
 *
 * and nothing else: any other line is unreadable. .i and .o come in this order, before any cube; .p comes anywhere, .p and .e may be missing, and
 * a keyword that comes a second time is unreadable. N is of digits, as many as there are, without a needless zero in front. A carriage return is
 * no newline, no space and no tab, and a zero byte ends nothing.
 */

/*
 * Reads a PLA text, and writes the stored form of the sheet that has the union of the cubes as its class, and holds nothing. The text is lent as
 * const void *, as above. No combination of it is either, and it has no profile. Value: the bytes written, 7 and one for each combination in the
 * class, so at most 39.
 * Refused, the lines being judged in order: VAULT_UNREADABLE, with the offset of the first byte of the first unreadable line; VAULT_MARKS as soon
 * as a readable .i line comes whose inputs are not 1 to 5, whatever stands behind it. Then, at the text's end or at .e: VAULT_UNREADABLE, with the
 * length of the whole text, if .i or .o has not come; VAULT_UNREADABLE, with the offset of the .p line, if its number is not that of the cubes.
 * Then VAULT_ROOM if out is too short for the form.
 */
struct vault_reply vault_read_pla(const void *text, size_t text_size, uint8_t *out, size_t out_size);

/*
 * Writes the list of the class as a PLA text, to an area that is lent as void *, so that a char * is passed as it is: .i, .o 1, .p, a cube for
 * each line of the list in its order, and .e, with single spaces, each line ended by a newline. No zero byte is put behind it. What vault_read_pla
 * reads back has in its class the class and the either combinations of these lines, and the others out. Value: the bytes of the text.
 * Refused: reading's answer; VAULT_ROOM exactly if the text is longer than out.
 */
struct vault_reply vault_write_pla(const uint8_t *sheet, size_t sheet_size, void *out, size_t out_size);

#ifdef __cplusplus
}
#endif

#endif
