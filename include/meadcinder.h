/* Meadcinder for hosts written in C: show cuts a view out of a master, put back carries an edited view into it, sweep
   takes the deleted nodes out of it. Files are bytes in memory: lines of upper-case hexadecimal pairs, each ended by
   byte 0A.

   Buffers. Every buffer is the caller's and is lent for the time of the call; the engine keeps no pointer and frees
   nothing. A buffer is a pointer and its number of bytes. The pointer is never null, also where the number is 0.
   Master, program and view are only read, whatever their length; a file that is too long is refused like any other
   wrong one. Output is written to, and a sweep writes to numbers too; neither may overlap the other or another buffer.

   Room. Output has at least MEADCINDER_OUTPUT_ROOM bytes, and numbers at least MEADCINDER_NUMBERS_ROOM; with fewer the
   reply is MEADCINDER_SHORT_BUFFER. After MEADCINDER_DONE output begins with the lines, as many bytes as the length
   says, and numbers with five bytes for each line of the master, which the length does not count; behind them both keep
   the bytes that they had. After every other reply both are untouched.

   Every call ends, whatever the buffers hold. Nothing is kept between calls: the same bytes get the same answer.
   Calls may run in several threads at once, as long as no buffer that is written to is lent to two of them or read by
   another. A call takes its memory from the stack of its thread, at most MEADCINDER_STACK bytes, and from nowhere else.
   Of the host's C library it needs memset alone. */
#ifndef MEADCINDER_H
#define MEADCINDER_H

#if defined __UINT64_TYPE__ && defined __SIZE_TYPE__
typedef __UINT64_TYPE__ meadcinder_answer;
typedef __SIZE_TYPE__ meadcinder_size;
#else
#include <stddef.h>
#include <stdint.h>
typedef uint64_t meadcinder_answer;
typedef size_t meadcinder_size;
#endif

#define MEADCINDER_OUTPUT_ROOM 9856
#define MEADCINDER_NUMBERS_ROOM 640
#define MEADCINDER_STACK 32768

/* An answer is number * 2^32 + place * 2^16 + length. The length is 0 unless the number is MEADCINDER_DONE. */
#define MEADCINDER_NUMBER(answer) ((unsigned)((answer) >> 32))
#define MEADCINDER_PLACE(answer) ((unsigned)((answer) >> 16 & 0xFFFF))
#define MEADCINDER_LENGTH(answer) ((unsigned)((answer) & 0xFFFF))

/* The numbers, in the order of judging: the first that applies is given, at its first place. Places count from 0. A word
   order (a node of kind 03) is exactly hi-lo or lo-hi, whatever its mark: with other bytes its line has a wrong form. */
enum meadcinder_number {
    MEADCINDER_DONE = 0,                 /* place 0 */
    MEADCINDER_SHORT_BUFFER = 1,         /* a buffer to be written to has too little room; place 0 */
    MEADCINDER_PROGRAM_FORM = 2,         /* this program line has a wrong form, or is line 96 */
    MEADCINDER_PROGRAM_TREE = 3,         /* this entry breaks the tree or a bound, is missing, or is left over */
    MEADCINDER_MASTER_FORM = 4,          /* this master line has a wrong form, or is line 128 */
    MEADCINDER_MASTER_BOUNDS = 5,        /* this master line breaks a bound or its number; put back: or has a mark */
    MEADCINDER_STOPPED_FOR_SOURCE = 6,   /* the run stopped at this entry, which cannot work on its source */
    MEADCINDER_STOPPED_FOR_SIZE = 7,     /* the run stopped at this entry, whose value is too large or too deep */
    MEADCINDER_VIEW_FORM = 8,            /* this view line has a wrong form, or is line 128 */
    MEADCINDER_VIEW_DIFFERS = 9,         /* this view line is not the one shown, or only one of the two is there */
    MEADCINDER_PROGRAM_LINE_MARKED = 10, /* this view line came from the program and has a mark */
    MEADCINDER_CLASH = 11                /* this node's edits contradict each other, or its text was compared */
};

#ifdef __cplusplus
extern "C" {
#endif

/* Writes the view that the program shows of the master. Gives the numbers 0 to 7. */
meadcinder_answer meadcinder_show(const unsigned char *master, meadcinder_size master_length,
                                  const unsigned char *program, meadcinder_size program_length,
                                  unsigned char *output, meadcinder_size output_room);

/* Writes the master with the edits of the view, which is that of meadcinder_show with lines changed or deleted. A text
   or word order marked 01 (changed) that is still the one shown counts as untouched; MEADCINDER_PROGRAM_LINE_MARKED
   looks at the mark as it is written. Every node keeps its kind, and no other word than hi-lo or lo-hi is ever written
   into a word order. Gives the numbers 0 to 11. */
meadcinder_answer meadcinder_put_back(const unsigned char *master, meadcinder_size master_length,
                                      const unsigned char *program, meadcinder_size program_length,
                                      const unsigned char *view, meadcinder_size view_length,
                                      unsigned char *output, meadcinder_size output_room);

/* Writes the master without its deleted nodes and what lies under them. The others keep their order and depths, lose
   their marks, have their new texts and are numbered from 0. The buffer numbers gets a line for each line of the
   master, in their order: the node's new number in four upper-case hexadecimal digits, high byte first, or FFFF where
   it went, and byte 0A. The reply is 0, 1, 4 or 5. */
meadcinder_answer meadcinder_sweep(const unsigned char *master, meadcinder_size master_length,
                                   unsigned char *output, meadcinder_size output_room,
                                   unsigned char *numbers, meadcinder_size numbers_room);

#ifdef __cplusplus
}
#endif

#endif
