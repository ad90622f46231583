/* A conflict, from C: two branches edit one line, and one pulls the other. What is open is asked, with what a side would
 * do; a record takes a side, and a view keeps what was there before. */
#include "camp.h"
#include <stdio.h>
#include <stdlib.h>
#include <string.h>

/* The answer to a text, which the caller frees; null where memory ran out. */
static char *answer(camp *repository, const char *text) {
    if (camp_ask(repository, (const uint8_t *)text, strlen(text)) != CAMP_DONE) return NULL;
    size_t length = camp_answer_length(repository);
    char *said = malloc(length + 1);
    if (said) said[camp_answer(repository, (uint8_t *)said, length)] = '\0';
    return said;
}

/* Asks a text and shows what is answered. */
static int ask(camp *repository, const char *text) {
    char *said = answer(repository, text);
    if (said) printf("%s", said);
    free(said);
    return said ? 0 : 1;
}

/* Records what a side would do. Behind its first line, the answer of `side` is what stands between `group` and `done`. */
static int take(camp *repository, const char *side) {
    char *said = answer(repository, side);
    char *changes = said ? strchr(said, '\n') : NULL;
    size_t room = changes ? strlen(changes) + 64 : 0;
    char *text = room ? malloc(room) : NULL;
    if (text) snprintf(text, room, "record main decided group%sdone\n", changes);
    int failed = text ? ask(repository, text) : 1;
    free(text);
    free(said);
    return failed;
}

int main(void) {
    camp repository = CAMP_CLOSED;
    camp_view before = CAMP_CLOSED;
    if (camp_open(&repository) != CAMP_DONE) return 1;

    /* One line, and two branches that make another of it. The view stays as the repository is behind that. */
    int failed = ask(&repository, "record main start add notes\n"
                                  "record main one edit notes 1\n+one\nend\n"
                                  "branch other main\n"
                                  "record main english edit notes 1\n-one\n+first\nend\n"
                                  "record other german edit notes 1\n-one\n+erstens\nend\n");
    failed |= camp_look(&repository, &before) != CAMP_DONE;

    /* Both edits meet: neither has its effect, and what each would do can be asked. One is taken. */
    failed |= ask(&repository, "pull other main\ntree main\nopen main\nside main english\nside main german\n");
    failed |= take(&repository, "side main german\n");
    failed |= ask(&repository, "open main\ntree main\n");

    printf("before the pull:\n");
    const char *question = "tree main\npull other main\n";
    uint8_t said[256];
    failed |= camp_view_ask(&before, (const uint8_t *)question, strlen(question)) != CAMP_DONE;
    printf("%.*s", (int)camp_view_answer(&before, said, sizeof said), (char *)said);
    camp_view_close(&before);
    camp_close(&repository);
    return failed;
}
