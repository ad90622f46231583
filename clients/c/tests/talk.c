/* Asks all of standard input as one text, and writes the answer. */
#include "camp.h"
#include <stdio.h>
#include <stdlib.h>
#include <string.h>

static size_t read_all(uint8_t **text) {
    size_t length = 0, room = 1 << 16, got;
    *text = malloc(room);
    while (*text && (got = fread(*text + length, 1, room - length, stdin)) > 0) {
        length += got;
        if (length == room) *text = realloc(*text, room *= 2);
    }
    return length;
}

int main(void) {
    camp repository = CAMP_CLOSED;
    uint8_t *text = NULL;
    size_t length = read_all(&text);
    if (!text || camp_open(&repository) != CAMP_DONE) return 1;
    if (camp_ask(&repository, text, length) != CAMP_DONE) return 2;
    size_t size = camp_answer_length(&repository);
    uint8_t *answer = malloc(size + 1);
    if (!answer || camp_answer(&repository, answer, size) != size) return 3;
    fwrite(answer, 1, size, stdout);
    camp_close(&repository);
    free(answer);
    free(text);
    return 0;
}
