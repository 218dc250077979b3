/*
 * The program by the library: the words of its command line, and standard input.
 *
 *     cc -Ilibrary library/example.c release/libneqysbar.a -o example
 *     ./example serial < examples/first-run.trace
 */
#include <stdio.h>
#include <stdlib.h>
#include <string.h>

#include "neqysbar.h"

/* Bytes that grow; it ends the program if memory runs out. */
struct bytes {
    uint8_t *at;
    size_t length, room;
};

static void make_room(struct bytes *bytes, size_t room)
{
    if (room <= bytes->room)
        return;
    bytes->at = realloc(bytes->at, room);
    if (!bytes->at) {
        fputs("example: memory ran out\n", stderr);
        exit(NEQYSBAR_NO_MEMORY);
    }
    bytes->room = room;
}

static void add(struct bytes *bytes, const void *more, size_t length)
{
    if (bytes->room - bytes->length < length)
        make_room(bytes, 2 * (bytes->length + length));
    memcpy(bytes->at + bytes->length, more, length);
    bytes->length += length;
}

int main(int count, char **words)
{
    struct bytes line = {0}, input = {0}, output = {0};
    uint8_t part[4096];
    uint8_t status;
    size_t number;

    make_room(&line, 1);
    make_room(&input, 1);
    make_room(&output, 65536);
    for (int at = 1; at < count; at++)
        add(&line, words[at], strlen(words[at]) + 1);
    while ((number = fread(part, 1, sizeof part, stdin)) > 0)
        add(&input, part, number);
    status = neqysbar_run(line.at, line.length, input.at, input.length, output.at, output.room, &number);
    if (number > output.room) {
        make_room(&output, number);
        status = neqysbar_run(line.at, line.length, input.at, input.length, output.at, output.room, &number);
    }
    fwrite(output.at, 1, number, stdout);
    return status;
}
