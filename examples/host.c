/* A host in C: shows a view, edits one line of it, puts it back, and prints each step. Then an edit that is refused,
   and a deletion, after which the master is swept.
   It declares the two functions of the C library that it calls, as a freestanding compiler has no stdio.h. */
#include "meadcinder.h"

int printf(const char *form, ...);
void *memcpy(void *to, const void *from, meadcinder_size count);

static const char master[] = "00020000000164\n01020000010177\n0201000002026869\n01020000030177\n0201000004026C6F\n";
static const char program[] = "08\n06\n0A\n06\n";

static unsigned char view[MEADCINDER_OUTPUT_ROOM], edited[MEADCINDER_OUTPUT_ROOM], output[MEADCINDER_OUTPUT_ROOM];
static unsigned char swept[MEADCINDER_OUTPUT_ROOM], numbers[MEADCINDER_NUMBERS_ROOM];

static const unsigned char *bytes(const char *text) { return (const unsigned char *)text; }

static void print_answer(const char *call, meadcinder_answer answer, const unsigned char *lines) {
    printf("%s: %u at %u, %u bytes\n%.*s", call, MEADCINDER_NUMBER(answer), MEADCINDER_PLACE(answer),
           MEADCINDER_LENGTH(answer), (int)MEADCINDER_LENGTH(answer), (const char *)lines);
}

/* Where line `line` of a view begins; `length` where there is no such line. */
static meadcinder_size start_of(const unsigned char *lines, meadcinder_size length, unsigned line) {
    meadcinder_size at = 0;
    while (line > 0 && at < length) line -= lines[at++] == '\n';
    return at;
}

/* Copies a view to `edited` with one line replaced, and answers its new length; 0 where it would not fit. */
static meadcinder_size replace_line(const unsigned char *lines, meadcinder_size length, unsigned line, const char *by) {
    meadcinder_size begin = start_of(lines, length, line), end = start_of(lines, length, line + 1), count = 0;
    while (by[count]) count++;
    if (length - (end - begin) + count > sizeof edited) return 0;
    memcpy(edited, lines, begin);
    memcpy(edited + begin, by, count);
    memcpy(edited + begin + count, lines + end, length - end);
    return length - (end - begin) + count;
}

static meadcinder_answer put_back(meadcinder_size shown, unsigned line, const char *by) {
    meadcinder_size length = replace_line(view, shown, line, by);
    meadcinder_answer returned = meadcinder_put_back(bytes(master), sizeof master - 1, bytes(program),
                                                     sizeof program - 1, edited, length, output, sizeof output);
    printf("line %u becomes %s", line, by);
    print_answer("put back", returned, output);
    return returned;
}

/* Sweeps the master that was returned, and prints the new number of each of its nodes. */
static void sweep(meadcinder_size returned) {
    meadcinder_answer answer = meadcinder_sweep(output, returned, swept, sizeof swept, numbers, sizeof numbers);
    unsigned old = 0;
    print_answer("sweep", answer, swept);
    if (MEADCINDER_NUMBER(answer) != MEADCINDER_DONE) return;
    for (meadcinder_size at = 0; at < returned; at++) {
        if (output[at] != '\n') continue;
        printf("node %u: %.5s", old, (const char *)numbers + 5 * old);
        old++;
    }
}

int main(void) {
    meadcinder_answer shown =
        meadcinder_show(bytes(master), sizeof master - 1, bytes(program), sizeof program - 1, view, sizeof view);
    print_answer("show", shown, view);
    if (MEADCINDER_NUMBER(shown) != MEADCINDER_DONE) return 1;
    put_back(MEADCINDER_LENGTH(shown), 1, "0001010004026869\n");
    put_back(MEADCINDER_LENGTH(shown), 1, "0001000004026869\n");
    meadcinder_answer returned = put_back(MEADCINDER_LENGTH(shown), 0, "0001020002026869\n");
    if (MEADCINDER_NUMBER(returned) != MEADCINDER_DONE) return 1;
    sweep(MEADCINDER_LENGTH(returned));
    return 0;
}
