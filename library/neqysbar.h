/*
 * Neqysbar as a library: the program over bytes in one call, with or without its message.
 *
 * Link with libneqysbar.a or libneqysbar.so, which need the C library alone. The library has no state
 * and opens no file, so calls may run at the same time in any number of threads.
 */
#ifndef NEQYSBAR_H
#define NEQYSBAR_H

#include <stddef.h>
#include <stdint.h>

#ifdef __cplusplus
extern "C" {
#endif

/* The statuses of a call; 3, 4 and 6 of the program don't come here, since no read and no write fails
 * and each block is made. */
enum neqysbar_status {
    NEQYSBAR_DONE = 0,       /* the command did what was asked */
    NEQYSBAR_USAGE = 1,      /* the words are no command line */
    NEQYSBAR_NO_TRACE = 2,   /* the input is no trace, or its log is too long */
    NEQYSBAR_DIRTY = 5,      /* as 0, but the run left shared pages dirty */
    NEQYSBAR_NO_MEMORY = 7,  /* memory ran out */
    NEQYSBAR_NO_RUN = 8      /* a line of the log isn't legal */
};

/*
 * Runs a command over an input, and returns its status. `replay`, which runs by threads, is no command
 * here.
 *
 * line, line_length: the words, without the program's name. Each word is ended by a byte 0, and the
 *     last one there or at the end: "serial" with length 6, or "study\0--process\0A\0--frames\0" "8"
 *     with its sizeof.
 * input, input_length: the bytes that the program would read: a trace, or a trace with a log.
 * output, room: where the bytes that the program would write go, and how many bytes there is room for.
 *     What is behind a shorter output isn't written.
 * number: how many bytes the output has. If they are more than room, make room and call again: the
 *     same words and input have the same output.
 *
 * With status 7 and the number 0 memory ran out for the words or the output, and nothing is written.
 *
 * The thread that calls needs 64 KiB of stack; a call takes at most half of it on the examples.
 *
 * What the caller owes: no pointer is null, also where a length is 0; the parts of memory are as long as
 * is said, output and number overlap with nothing else, and nothing that is handed over is changed by
 * others while the call runs; the call isn't made in a signal handler.
 */
uint8_t neqysbar_run(const uint8_t *line, size_t line_length,
                     const uint8_t *input, size_t input_length,
                     uint8_t *output, size_t room, size_t *number);

/* What a call with a message answers. */
typedef struct neqysbar_told {
    uint8_t status;          /* as neqysbar_run returns it */
    size_t output_number;    /* how many bytes the output has */
    size_t message_number;   /* how many bytes the message has; 0 if there is none */
} neqysbar_told;

/*
 * As neqysbar_run, and hands over besides the message that the program writes to standard error: what
 * is wrong with the words, and usage; or what is wrong with the input, and of a faulty line its number,
 * why it is at fault, its first 80 bytes and a mark below the faulty word; or that memory ran out. Where
 * nothing is wrong there is none.
 *
 * message, message_room: where the message goes, and how many bytes there is room for. What is behind a
 *     shorter message isn't written. If message_number is more than message_room, make room and call
 *     again.
 *
 * With status 7 and both numbers 0 memory ran out for the words or a text, and nothing is written. The
 * caller owes what it owes to neqysbar_run, of message as of output.
 */
neqysbar_told neqysbar_run_with_message(const uint8_t *line, size_t line_length,
                                        const uint8_t *input, size_t input_length,
                                        uint8_t *output, size_t room,
                                        uint8_t *message, size_t message_room);

#ifdef __cplusplus
}
#endif

#endif
