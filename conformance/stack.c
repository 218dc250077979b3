/* Calls the library on a thread with a small stack: stack KIB WORD.., with the input on standard input. It ends with the
   call's status, or with 99 if the thread can't be had or the input or output is too long. */
#include <pthread.h>
#include <stdio.h>
#include <stdlib.h>
#include <string.h>
#include "neqysbar.h"

enum { NO_CALL = 99 };

static unsigned char line[256], input[1 << 20], output[1 << 22];
static size_t line_length, input_length, number;

static void *call(void *status) {
    *(int *)status = neqysbar_run(line, line_length, input, input_length, output, sizeof output, &number);
    return NULL;
}

int main(int count, char **words) {
    int status = NO_CALL;
    pthread_attr_t how;
    pthread_t thread;
    for (int i = 2; i < count; i++) {
        size_t length = strlen(words[i]) + 1;
        if (line_length + length > sizeof line) return NO_CALL;
        memcpy(line + line_length, words[i], length);
        line_length += length;
    }
    input_length = fread(input, 1, sizeof input, stdin);
    if (count < 3 || pthread_attr_init(&how) || pthread_attr_setstacksize(&how, strtoul(words[1], NULL, 10) * 1024)) return NO_CALL;
    if (pthread_create(&thread, &how, call, &status) || pthread_join(thread, NULL)) return NO_CALL;
    if (number > sizeof output || fwrite(output, 1, number, stdout) != number) return NO_CALL;
    return status;
}
