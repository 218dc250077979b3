/*
 * The program by the library, with what it writes to standard error: the words of its command line, and standard input.
 *
 *     cc -Ilibrary library/messages.c release/libneqysbar.a -o messages
 *     ./messages serial < examples/faulty-line.trace
 */
#include <stdio.h>
#include <stdlib.h>
#include <string.h>

#include "neqysbar.h"

enum { ROOM = 1 << 22, LINE_ROOM = 1 << 16, MESSAGE_ROOM = 1 << 13 };

int main(int count, char **words)
{
    uint8_t *line = malloc(LINE_ROOM), *input = malloc(ROOM), *output = malloc(ROOM), *message = malloc(MESSAGE_ROOM);
    size_t line_length = 0, input_length;
    neqysbar_told told;

    if (!line || !input || !output || !message)
        return NEQYSBAR_NO_MEMORY;
    for (int at = 1; at < count; at++) {
        size_t length = strlen(words[at]) + 1;
        if (LINE_ROOM - line_length < length)
            return NEQYSBAR_USAGE;
        memcpy(line + line_length, words[at], length);
        line_length += length;
    }
    input_length = fread(input, 1, ROOM, stdin);
    told = neqysbar_run_with_message(line, line_length, input, input_length, output, ROOM, message, MESSAGE_ROOM);
    if (told.output_number > ROOM || told.message_number > MESSAGE_ROOM) {
        fputs("messages: there is too little room\n", stderr);
        return NEQYSBAR_NO_MEMORY;
    }
    fwrite(output, 1, told.output_number, stdout);
    fwrite(message, 1, told.message_number, stderr);
    return told.status;
}
