/* How much stack the calls take at the deepest legal runs: each call runs in a thread whose stack was painted, and what
   it never wrote is counted. Fails if a call takes more than the header says, or a run is not the one meant. */
#include "meadcinder.h"

typedef meadcinder_size size;
int printf(const char *form, ...);
void *memset(void *to, int byte, size count);
char *strcat(char *to, const char *from);
size strlen(const char *text);
int pthread_attr_init(void *attributes);
int pthread_attr_setstack(void *attributes, void *stack, size room);
int pthread_create(size *thread, const void *attributes, void *(*run)(void *), void *argument);
int pthread_join(size thread, void **result);

#define NESTED                                                                                                        \
    "00020000000165\n01020000010165\n02020000020165\n03020000030165\n04020000040165\n05020000050165\n06020000060165\n" \
    "07020000070165\n"
#define TEXT "0001000000026869\n"
#define SLOT "08\n0500\n"

/* A program of 12 levels: `before` a number of times, a leaf, `after` as often. What the times leave of the 12 levels
   is taken by 08 over them. */
struct chain {
    const char *name, *master, *before, *leaf, *after;
    unsigned times, levels;
};

static const struct chain chains[] = {
    {"07 (8 elements deep)", NESTED, "07\n", "01\n", "", 8, 8},
    {"08, the first", NESTED, "08\n", "01\n", "01\n", 11, 11},
    {"08, the second", NESTED, "08\n01\n", "01\n", "", 11, 11},
    {"09, the first", NESTED, "09\n", "01\n", "02\n", 11, 11},
    {"09, the second", NESTED, "09\n02\n", "01\n", "", 11, 11},
    {"0A", NESTED, "0A\n", "01\n", "", 3, 3},
    {"0B, yes", NESTED, "0B\n13\n", "01\n", "02\n", 11, 11},
    {"0B, no", NESTED, "0B\n120178\n02\n", "01\n", "", 11, 11},
    {"0C", NESTED, "0C00\n" SLOT, "01\n", "", 4, 8},
    {"0B and 11", TEXT, "0B\n11\n08\n030161\n", "01\n", "01\n02\n", 3, 9},
};

enum { ROOM = 1 << 20, PAINT = 0xA5 };
static unsigned char stack[ROOM] __attribute__((aligned(4096)));
static unsigned char view[MEADCINDER_OUTPUT_ROOM], output[MEADCINDER_OUTPUT_ROOM], numbers[MEADCINDER_NUMBERS_ROOM];
static char program[4096];
static const char *master;
static size top;
static meadcinder_answer shown, returned, swept;

static const unsigned char *bytes(const char *text) { return (const unsigned char *)text; }

static void *show(void *unused) {
    top = (size)__builtin_frame_address(0);
    shown = meadcinder_show(bytes(master), strlen(master), bytes(program), strlen(program), view, sizeof view);
    return unused;
}

static void *put_back(void *unused) {
    top = (size)__builtin_frame_address(0);
    returned = meadcinder_put_back(bytes(master), strlen(master), bytes(program), strlen(program), view,
                                   MEADCINDER_LENGTH(shown), output, sizeof output);
    return unused;
}

static void *sweep(void *unused) {
    top = (size)__builtin_frame_address(0);
    swept = meadcinder_sweep(bytes(master), strlen(master), output, sizeof output, numbers, sizeof numbers);
    return unused;
}

static size used(void *(*run)(void *)) {
    size attributes[16] = {0}, thread, untouched = 0;
    memset(stack, PAINT, ROOM);
    if (pthread_attr_init(attributes) || pthread_attr_setstack(attributes, stack, ROOM) ||
        pthread_create(&thread, attributes, run, 0) || pthread_join(thread, 0))
        return ROOM;
    while (untouched < ROOM && stack[untouched] == PAINT) untouched++;
    return top - (size)(stack + untouched);
}

static void repeat(const char *text, unsigned times) {
    while (times-- > 0) strcat(program, text);
}

static int too_much(const struct chain *chain) {
    size showing, putting;
    program[0] = 0;
    repeat("08\n01\n", 11 - chain->levels);
    repeat(chain->before, chain->times);
    strcat(program, chain->leaf);
    repeat(chain->after, chain->times);
    master = chain->master;
    showing = used(show);
    putting = used(put_back);
    printf("%-24s %7lu %7lu\n", chain->name, showing, putting);
    if (MEADCINDER_NUMBER(shown) == MEADCINDER_DONE && MEADCINDER_NUMBER(returned) == MEADCINDER_DONE)
        return showing > MEADCINDER_STACK || putting > MEADCINDER_STACK;
    printf("the run stopped: %lX, %lX\n", shown, returned);
    return 1;
}

/* A sweep runs no program: one master will do, here with a deleted node. */
static int sweep_too_much(void) {
    size sweeping;
    master = NESTED "00020200080165\n";
    sweeping = used(sweep);
    printf("a sweep, which runs no program: %lu bytes of stack\n", sweeping);
    if (MEADCINDER_NUMBER(swept) == MEADCINDER_DONE) return sweeping > MEADCINDER_STACK;
    printf("the sweep was refused: %lX\n", swept);
    return 1;
}

int main(void) {
    int failed = 0;
    printf("%-24s %7s %7s   bytes of stack, at most %d\n", "12 levels of", "show", "putback", MEADCINDER_STACK);
    for (size i = 0; i < sizeof chains / sizeof chains[0]; i++) failed |= too_much(&chains[i]);
    return failed | sweep_too_much();
}
