/* Calls with short buffers, empty files and every reply, in several threads at once, and compares every byte that was
   lent, and those around it, with what the header promises. The expectations are written by hand from document 01 and
   requests #101 and #103. */
#include "meadcinder.h"

typedef meadcinder_size size;
int printf(const char *form, ...);
int memcmp(const void *one, const void *other, size count);
void *memcpy(void *to, const void *from, size count);
void *memset(void *to, int byte, size count);
size strlen(const char *text);
int pthread_create(size *thread, const void *attributes, void *(*run)(void *), void *argument);
int pthread_join(size thread, void **result);

#define HEAD "00020000000164\n01020000010177\n0201000002026869\n01020000030177\n"
#define MASTER HEAD "0201000004026C6F\n"
#define HI "0001000002026869\n"
#define LO "0001000004026C6F\n"
#define LO_SAVED "0001010004026C6F\n"
#define INNER "08\n06\n0A\n06\n"
#define TWICE "09\n" INNER INNER
#define COMPARING "08\n08\n06\n0A\n06\n0A\n0B\n11\n03026869\n01\n02\n"

/* Files too long to be written out; see make_long_files. */
static char entries_97[97 * 3 + 1], lines_129[129 * 13 + 1], texts_64[64 * 13 + 1], texts_64_twice[128 * 13 + 1];
static char texts_65[65 * 13 + 1], numbers_128[128 * 5 + 1];
static char full[128 * 77 + 1], full_saved[128 * 77 + 1], full_changed[128 * 77 + 1], full_new[128 * 77 + 1];

enum call { SHOW, PUT_BACK };

struct lending {
    enum call call;
    const char *master, *program, *view;
    size room;
    unsigned number, place;
    const char *output;
};

#define ROOM MEADCINDER_OUTPUT_ROOM

static const struct lending lendings[] = {
    {SHOW, MASTER, INNER, "", ROOM, 0, 0, HI LO},
    {SHOW, MASTER, INNER, "", ROOM + 1, 0, 0, HI LO},
    {SHOW, HEAD "0201010004026869\n", INNER, "", ROOM, 0, 0, HI "0001010004026869\n"},
    {SHOW, "", "01\n", "", ROOM, 0, 0, ""},
    {SHOW, texts_64, "09\n01\n01\n", "", ROOM, 0, 0, texts_64_twice},
    {SHOW, full, "01\n", "", ROOM, 0, 0, full},
    {SHOW, MASTER, INNER, "", ROOM - 1, MEADCINDER_SHORT_BUFFER, 0, ""},
    {SHOW, "wrong", "wrong", "", 0, MEADCINDER_SHORT_BUFFER, 0, ""},
    {SHOW, "wrong", "08\n06\n0D\n", "", ROOM, MEADCINDER_PROGRAM_FORM, 2, ""},
    {SHOW, MASTER, entries_97, "", ROOM, MEADCINDER_PROGRAM_FORM, 96, ""},
    {SHOW, "wrong", "", "", ROOM, MEADCINDER_PROGRAM_TREE, 0, ""},
    {SHOW, MASTER, "08\n01\n", "", ROOM, MEADCINDER_PROGRAM_TREE, 2, ""},
    {SHOW, "00020000000164\n01030000010177\n", "01\n", "", ROOM, MEADCINDER_MASTER_FORM, 1, ""},
    {SHOW, lines_129, "01\n", "", ROOM, MEADCINDER_MASTER_FORM, 128, ""},
    {SHOW, "00020000000164\n01020001000177\n", "01\n", "", ROOM, MEADCINDER_MASTER_BOUNDS, 1, ""},
    {SHOW, "", "06\n", "", ROOM, MEADCINDER_STOPPED_FOR_SOURCE, 0, ""},
    {SHOW, texts_65, "09\n01\n01\n", "", ROOM, MEADCINDER_STOPPED_FOR_SIZE, 0, ""},

    {PUT_BACK, MASTER, INNER, HI "0001010004026869\n", ROOM, 0, 0, HEAD "0201010004026869\n"},
    {PUT_BACK, MASTER, INNER, HI "0001020004026C6F\n", ROOM + 1, 0, 0, HEAD "0201020004026C6F\n"},
    {PUT_BACK, MASTER, INNER, HI LO, ROOM, 0, 0, MASTER},
    {PUT_BACK, "", "01\n", "", ROOM, 0, 0, ""},
    {PUT_BACK, full, "01\n", full_changed, ROOM, 0, 0, full_changed},
    {PUT_BACK, full, "01\n", full_saved, ROOM, 0, 0, full},
    {PUT_BACK, MASTER, TWICE, HI LO_SAVED HI "0001010004026869\n", ROOM, 0, 0, HEAD "0201010004026869\n"},
    {PUT_BACK, MASTER, TWICE, HI LO_SAVED HI "0001020004026C6F\n", ROOM, 0, 0, HEAD "0201020004026C6F\n"},
    {PUT_BACK, MASTER, COMPARING, "0001010002026869\n", ROOM, 0, 0, MASTER},
    {PUT_BACK, MASTER, INNER, HI LO, ROOM - 1, MEADCINDER_SHORT_BUFFER, 0, ""},
    {PUT_BACK, "wrong", "wrong", "wrong", 0, MEADCINDER_SHORT_BUFFER, 0, ""},
    {PUT_BACK, "wrong", "0a\n", "wrong", ROOM, MEADCINDER_PROGRAM_FORM, 0, ""},
    {PUT_BACK, "wrong", "0500\n", "wrong", ROOM, MEADCINDER_PROGRAM_TREE, 0, ""},
    {PUT_BACK, MASTER "0", INNER, "wrong", ROOM, MEADCINDER_MASTER_FORM, 5, ""},
    {PUT_BACK, HEAD "0201010004026869\n", INNER, "wrong", ROOM, MEADCINDER_MASTER_BOUNDS, 4, ""},
    {PUT_BACK, "", "06\n", "wrong", ROOM, MEADCINDER_STOPPED_FOR_SOURCE, 0, ""},
    {PUT_BACK, texts_65, "09\n01\n01\n", "wrong", ROOM, MEADCINDER_STOPPED_FOR_SIZE, 0, ""},
    {PUT_BACK, MASTER, INNER, HI "00010000040\n", ROOM, MEADCINDER_VIEW_FORM, 1, ""},
    {PUT_BACK, MASTER, INNER, lines_129, ROOM, MEADCINDER_VIEW_FORM, 128, ""},
    {PUT_BACK, MASTER, INNER, HI "0001000004026869\n", ROOM, MEADCINDER_VIEW_DIFFERS, 1, ""},
    {PUT_BACK, MASTER, INNER, HI, ROOM, MEADCINDER_VIEW_DIFFERS, 1, ""},
    {PUT_BACK, MASTER, INNER, "", ROOM, MEADCINDER_VIEW_DIFFERS, 0, ""},
    {PUT_BACK, MASTER, "03026869\n", "000102FFFF026869\n", ROOM, MEADCINDER_PROGRAM_LINE_MARKED, 0, ""},
    {PUT_BACK, MASTER, "03026869\n", "000101FFFF026869\n", ROOM, MEADCINDER_PROGRAM_LINE_MARKED, 0, ""},
    {PUT_BACK, MASTER, TWICE, HI "0001010004026869\n" HI "0001010004027878\n", ROOM, MEADCINDER_CLASH, 4, ""},
    {PUT_BACK, MASTER, COMPARING, "0001010002027878\n", ROOM, MEADCINDER_CLASH, 2, ""},
};

struct sweeping {
    const char *master;
    size room, numbers_room;
    unsigned number, place;
    const char *output, *numbers;
};

#define NUMBERS MEADCINDER_NUMBERS_ROOM
/* Two deleted nodes, one in the other; behind the inner one comes a text that only the outer one has in it. */
#define DELETED_TWICE                                                                                                 \
    "00020000000164\n01020200010177\n02020200020177\n0301000003016E\n0201000004016D\n0101010005026869\n"
#define SWEPT_TWICE "00020000000164\n0101000001026869\n"

static const struct sweeping sweepings[] = {
    {MASTER, ROOM, NUMBERS, 0, 0, MASTER, "0000\n0001\n0002\n0003\n0004\n"},
    {HEAD "0201020004026C6F\n", ROOM, NUMBERS, 0, 0, HEAD, "0000\n0001\n0002\n0003\nFFFF\n"},
    {DELETED_TWICE, ROOM + 1, NUMBERS, 0, 0, SWEPT_TWICE, "0000\nFFFF\nFFFF\nFFFF\nFFFF\n0001\n"},
    {SWEPT_TWICE, ROOM, NUMBERS + 1, 0, 0, SWEPT_TWICE, "0000\n0001\n"},
    {"00020200000164\n01010000010168\n", ROOM, NUMBERS, 0, 0, "", "FFFF\nFFFF\n"},
    {"00020200000164\n00010000010168\n", ROOM, NUMBERS, 0, 0, "00010000000168\n", "FFFF\n0000\n"},
    {"", ROOM, NUMBERS, 0, 0, "", ""},
    {full, ROOM, NUMBERS, 0, 0, full, numbers_128},
    {full_changed, ROOM, NUMBERS, 0, 0, full_new, numbers_128},
    {MASTER, ROOM - 1, NUMBERS, MEADCINDER_SHORT_BUFFER, 0, "", ""},
    {MASTER, ROOM, NUMBERS - 1, MEADCINDER_SHORT_BUFFER, 0, "", ""},
    {"wrong", 0, NUMBERS, MEADCINDER_SHORT_BUFFER, 0, "", ""},
    {"wrong", ROOM, 0, MEADCINDER_SHORT_BUFFER, 0, "", ""},
    {HEAD "02010200040\n", ROOM, NUMBERS, MEADCINDER_MASTER_FORM, 4, "", ""},
    {lines_129, ROOM, NUMBERS, MEADCINDER_MASTER_FORM, 128, "", ""},
    {"00020200000164\n01020001000177\n", ROOM, NUMBERS, MEADCINDER_MASTER_BOUNDS, 1, "", ""},
};

/* Everything that a call could reach lies in one place, with a margin around each buffer. */
enum { MARGIN = 64, PLACE = 10240, PLACES = 5 };
static _Thread_local unsigned char lent[PLACES * PLACE], promised[PLACES * PLACE];

static unsigned char *buffer(int place) { return lent + place * PLACE + MARGIN; }

static size lend_file(int place, const char *file) {
    memcpy(buffer(place), file, strlen(file));
    return strlen(file);
}

static void promise_lines(int place, const char *lines) {
    memcpy(promised + (buffer(place) - lent), lines, strlen(lines));
}

static int answered_as_promised(meadcinder_answer answer, unsigned number, unsigned place, const char *output) {
    return MEADCINDER_NUMBER(answer) == number && MEADCINDER_PLACE(answer) == place &&
           MEADCINDER_LENGTH(answer) == strlen(output) && memcmp(lent, promised, sizeof lent) == 0;
}

/* `behind` is what every byte holds that is not part of a file. */
static int as_promised(const struct lending *it, int behind) {
    size master, program, view;
    meadcinder_answer answer;
    memset(lent, behind, sizeof lent);
    master = lend_file(0, it->master);
    program = lend_file(1, it->program);
    view = lend_file(2, it->view);
    memcpy(promised, lent, sizeof lent);
    promise_lines(3, it->output);
    if (it->call == SHOW)
        answer = meadcinder_show(buffer(0), master, buffer(1), program, buffer(3), it->room);
    else
        answer = meadcinder_put_back(buffer(0), master, buffer(1), program, buffer(2), view, buffer(3), it->room);
    return answered_as_promised(answer, it->number, it->place, it->output);
}

static int swept_as_promised(const struct sweeping *it, int behind) {
    size master;
    meadcinder_answer answer;
    memset(lent, behind, sizeof lent);
    master = lend_file(0, it->master);
    memcpy(promised, lent, sizeof lent);
    promise_lines(3, it->output);
    promise_lines(4, it->numbers);
    answer = meadcinder_sweep(buffer(0), master, buffer(3), it->room, buffer(4), it->numbers_room);
    return answered_as_promised(answer, it->number, it->place, it->output);
}

static void write_pair(char *to, unsigned byte) {
    to[0] = "0123456789ABCDEF"[byte >> 4 & 15];
    to[1] = "0123456789ABCDEF"[byte & 15];
}

/* `count` texts at depth 0, numbered from 0, each `length` times the same byte. */
static void write_texts(char *to, int count, unsigned mark, int length, unsigned byte) {
    for (int line = 0; line < count; line++) {
        const unsigned head[6] = {0, 1, mark, 0, (unsigned)line, (unsigned)length};
        for (int i = 0; i < 6 + length; i++, to += 2) write_pair(to, i < 6 ? head[i] : byte);
        *to++ = '\n';
    }
}

static void make_long_files(void) {
    for (int line = 0; line < 97; line++) memcpy(entries_97 + 3 * line, "01\n", 3);
    write_texts(lines_129, 129, 0, 0, 0);
    write_texts(texts_64, 64, 0, 0, 0);
    write_texts(texts_65, 65, 0, 0, 0);
    write_texts(full, 128, 0, 32, 0x78);
    write_texts(full_saved, 128, 1, 32, 0x78);
    write_texts(full_changed, 128, 1, 32, 0x79);
    write_texts(full_new, 128, 0, 32, 0x79);
    for (int line = 0; line < 128; line++) {
        memcpy(numbers_128 + 5 * line, "00__\n", 5);
        write_pair(numbers_128 + 5 * line + 2, (unsigned)line);
    }
    memcpy(texts_64_twice, texts_64, 64 * 13);
    memcpy(texts_64_twice + 64 * 13, texts_64, 64 * 13);
}

enum { THREADS = 4, TIMES = 25 };
enum { LENDINGS = sizeof lendings / sizeof lendings[0], SWEEPINGS = sizeof sweepings / sizeof sweepings[0] };

/* Each answers a null pointer if all is as promised. */
static void *lend_all(void *unused) {
    for (int i = 0; i < TIMES * LENDINGS; i++) {
        const struct lending *it = &lendings[i % LENDINGS];
        if (as_promised(it, 0xA5) && as_promised(it, 0x30)) continue;
        printf("lending %d is not as promised: %s, reply %u at %u\n", i % LENDINGS,
               it->call == SHOW ? "show" : "put back", it->number, it->place);
        return lent;
    }
    return unused;
}

static void *sweep_all(void *unused) {
    for (int i = 0; i < TIMES * SWEEPINGS; i++) {
        const struct sweeping *it = &sweepings[i % SWEEPINGS];
        if (swept_as_promised(it, 0xA5) && swept_as_promised(it, 0x30)) continue;
        printf("sweeping %d is not as promised: reply %u at %u\n", i % SWEEPINGS, it->number, it->place);
        return lent;
    }
    return unused;
}

static void *call_all(void *unused) {
    void *wrong = lend_all(unused);
    return wrong ? wrong : sweep_all(unused);
}

int main(void) {
    size threads[THREADS];
    int broken = 0;
    make_long_files();
    for (int i = 0; i < THREADS; i++)
        if (pthread_create(&threads[i], 0, call_all, 0)) return 1;
    for (int i = 0; i < THREADS; i++) {
        void *result = lent;
        broken |= pthread_join(threads[i], &result) || result;
    }
    if (!broken) printf("%d calls, every byte as promised\n", THREADS * TIMES * 2 * (LENDINGS + SWEEPINGS));
    return broken;
}
