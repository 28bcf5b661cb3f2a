/* Times the C forms on the inputs in the folders named: a line a call with its nanoseconds, its answer and a sum over
   its output, a sweep's number lines behind it. */
#include "meadcinder.h"

typedef meadcinder_size size;
int printf(const char *form, ...);
int snprintf(char *to, size room, const char *form, ...);
int open(const char *path, int flags, ...);
int close(int file);
long read(int file, void *to, size count);
int clock_gettime(int clock, long time[2]);

enum { MONOTONIC = 1, ROUNDS = 7, ROUND_NS = 40000000, BETWEEN_LOOKS = 8 };

static unsigned char master[MEADCINDER_OUTPUT_ROOM], program[MEADCINDER_OUTPUT_ROOM], view[MEADCINDER_OUTPUT_ROOM];
static unsigned char output[MEADCINDER_OUTPUT_ROOM], numbers[MEADCINDER_NUMBERS_ROOM];
static size master_length, program_length, view_length;

static meadcinder_answer show(void) {
    return meadcinder_show(master, master_length, program, program_length, output, sizeof output);
}

static meadcinder_answer put_back(void) {
    return meadcinder_put_back(master, master_length, program, program_length, view, view_length, output,
                               sizeof output);
}

static meadcinder_answer sweep(void) {
    return meadcinder_sweep(master, master_length, output, sizeof output, numbers, sizeof numbers);
}

static unsigned long now(void) {
    long time[2];
    clock_gettime(MONOTONIC, time);
    return (unsigned long)time[0] * 1000000000 + (unsigned long)time[1];
}

/* The best of some rounds: what disturbs a round only makes it slower. */
static unsigned long nanoseconds(meadcinder_answer (*call)(void)) {
    unsigned long best = ~0UL;
    for (int round = 0; round < ROUNDS; round++) {
        unsigned long begun = now(), passed = 0, calls = 0;
        while (passed < ROUND_NS) {
            for (int i = 0; i < BETWEEN_LOOKS; i++, calls++) call();
            passed = now() - begun;
        }
        if (passed / calls < best) best = passed / calls;
    }
    return best;
}

static unsigned sum_over(unsigned sum, const unsigned char *bytes, size count) {
    for (size i = 0; i < count; i++) sum = sum * 31 + bytes[i];
    return sum;
}

/* The number lines have five bytes for each line of the master. */
static size numbers_length(void) {
    size length = 0;
    for (size i = 0; i < master_length; i++) length += master[i] == '\n' ? 5 : 0;
    return length;
}

static void report(const char *folder, const char *name, meadcinder_answer (*call)(void)) {
    meadcinder_answer answer = call();
    unsigned sum = sum_over(0, output, MEADCINDER_LENGTH(answer));
    if (call == sweep && MEADCINDER_NUMBER(answer) == MEADCINDER_DONE) sum = sum_over(sum, numbers, numbers_length());
    printf("%s %s %lu %lu %u\n", folder, name, nanoseconds(call), (unsigned long)answer, sum);
}

static size read_file(const char *folder, const char *name, unsigned char *to) {
    char path[4096];
    long count;
    snprintf(path, sizeof path, "%s/%s.hex", folder, name);
    int file = open(path, 0);
    count = read(file, to, MEADCINDER_OUTPUT_ROOM);
    close(file);
    return count < 0 ? 0 : (size)count;
}

int main(int count, char **words) {
    for (int i = 1; i < count; i++) {
        master_length = read_file(words[i], "master", master);
        program_length = read_file(words[i], "program", program);
        view_length = read_file(words[i], "view", view);
        report(words[i], "show", show);
        report(words[i], "putback", put_back);
        report(words[i], "sweep", sweep);
    }
    return 0;
}
