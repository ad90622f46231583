/* One writer and four readers. A reader takes a view under the lock, and asks it without: it finds one state, whole, as
 * often as it asks, and never an older one than before. */
#include "camp.h"
#include <pthread.h>
#include <stdio.h>
#include <stdlib.h>
#include <string.h>

enum { READERS = 4, PATCHES = 400, VIEWS = 300 };

static pthread_mutex_t lock = PTHREAD_MUTEX_INITIALIZER;
static camp repository = CAMP_CLOSED;

static int32_t ask(const char *text) { return camp_ask(&repository, (const uint8_t *)text, strlen(text)); }

/* The number behind the first word of a view's answer to a question; -1 where it is answered otherwise. */
static long count(camp_view *view, const char *question) {
    char said[32] = "";
    if (camp_view_ask(view, (const uint8_t *)question, strlen(question)) != CAMP_DONE) return -1;
    camp_view_answer(view, (uint8_t *)said, sizeof said - 1);
    char *blank = strchr(said, ' ');
    return blank ? atol(blank) : -1;
}

static void *read_views(void *wrong) {
    long before = 0;
    for (int i = 0; i < VIEWS; i++) {
        camp_view view = CAMP_CLOSED, other = CAMP_CLOSED;
        pthread_mutex_lock(&lock);
        int32_t code = camp_look(&repository, &view);
        pthread_mutex_unlock(&lock);
        if (code != CAMP_DONE) return wrong;
        long patches = count(&view, "names main\n");
        if (patches < before || camp_view_again(&view, &other) != CAMP_DONE) return wrong;
        /* Each patch adds one file. */
        if (count(&other, "tree main\n") != patches || count(&view, "names main\n") != patches) return wrong;
        before = patches;
        camp_view_close(&view);
        camp_view_close(&other);
    }
    return NULL;
}

int main(void) {
    pthread_t threads[READERS];
    char text[64];
    int wrong = 0;
    if (camp_open(&repository) != CAMP_DONE) return 1;
    for (int i = 0; i < READERS; i++)
        if (pthread_create(&threads[i], NULL, read_views, &wrong)) return 2;
    for (int i = 0; i < PATCHES; i++) {
        snprintf(text, sizeof text, "record main p%d add f%d\n", i, i);
        pthread_mutex_lock(&lock);
        wrong |= ask(text) != CAMP_DONE;
        pthread_mutex_unlock(&lock);
    }
    for (int i = 0; i < READERS; i++) {
        void *told;
        pthread_join(threads[i], &told);
        wrong |= told != NULL;
    }
    camp_close(&repository);
    printf("threads: %s\n", wrong ? "wrong" : "each view is one state");
    return wrong;
}
