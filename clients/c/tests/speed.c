/* How many small commands a second; and 100,000 views, made and closed, which leave the memory as it was. The
 * arguments: how many commands, how many views. */
#include "camp.h"
#include <malloc.h>
#include <stdio.h>
#include <stdlib.h>
#include <string.h>
#include <time.h>

static double seconds(void) {
    struct timespec now;
    clock_gettime(CLOCK_MONOTONIC, &now);
    return now.tv_sec + now.tv_nsec / 1e9;
}

static int ask(camp *repository, const char *text) {
    uint8_t answer[256];
    if (camp_ask(repository, (const uint8_t *)text, strlen(text)) != CAMP_DONE) return 1;
    return camp_answer(repository, answer, sizeof answer) == 0;
}

/* A text again and again. */
static int times(camp *repository, const char *what, const char *text, long count) {
    double start = seconds();
    for (long i = 0; i < count; i++)
        if (ask(repository, text)) return 1;
    double took = seconds() - start;
    printf("%-28s %10.0f a second\n", what, count / took);
    return 0;
}

/* Views that are made and closed. They leave the memory as it was. */
static int views_of(camp *repository, const char *what, long count) {
    camp_view view = CAMP_CLOSED;
    if (camp_look(repository, &view) != CAMP_DONE) return 2;
    camp_view_close(&view);
    size_t before = mallinfo2().uordblks;
    double start = seconds();
    for (long i = 0; i < count; i++) {
        if (camp_look(repository, &view) != CAMP_DONE) return 2;
        camp_view_close(&view);
    }
    printf("%-28s %10.0f a second\n", what, count / (seconds() - start));
    return mallinfo2().uordblks > before ? 3 : 0;
}

int main(int count, char **words) {
    long commands = count > 1 ? atol(words[1]) : 1000000, views = count > 2 ? atol(words[2]) : 100000;
    camp repository = CAMP_CLOSED;
    char text[64];
    if (camp_open(&repository) != CAMP_DONE) return 1;
    if (ask(&repository, "record main start add notes\n")) return 1;
    if (times(&repository, "names", "names main\n", commands)) return 1;
    if (times(&repository, "refused record", "record main start add notes\n", commands)) return 1;
    if (times(&repository, "fault", "what\n", commands)) return 1;
    int wrong = views_of(&repository, "views of one patch", views);

    double start = seconds();
    for (int i = 0; i < 4000; i++) {
        snprintf(text, sizeof text, "record main p%d add f%d\n", i, i);
        if (ask(&repository, text)) return 1;
    }
    printf("%-28s %10.0f a second\n", "record of 4,000 files", 4000 / (seconds() - start));
    wrong |= views_of(&repository, "views of many patches", views);
    camp_close(&repository);
    return wrong;
}
