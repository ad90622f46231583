/* Two members share a history over a log in memory: entries, answers, a repeated entry, a refusal, a snapshot, a foreign entry, and
 * handles that are closed or of another kind. */
#include "camp.h"
#include <stdio.h>
#include <stdlib.h>
#include <string.h>

enum { MOST = 16, BYTES = 1024 };

static struct {
    char text[MOST][BYTES];
    size_t count;
} entries = {{"camp log 1\n"}, 1};

static int checks;

#define CHECK(fact)                                                   \
    do {                                                              \
        checks++;                                                     \
        if (!(fact)) {                                                \
            printf("members: line %d: %s\n", __LINE__, #fact);        \
            exit(1);                                                  \
        }                                                             \
    } while (0)

static const uint8_t *bytes(const char *text) { return (const uint8_t *)text; }

static int32_t ask(camp_member *member, uint64_t request, const char *text, uint64_t at_least) {
    return camp_member_ask(member, request, bytes(text), strlen(text), at_least);
}

/* Whether the text that a member gave last is this one. */
static bool gives(camp_member *member, const char *text) {
    char given[BYTES];
    size_t length = camp_member_text(member, (uint8_t *)given, sizeof given);
    return length == strlen(text) && length == camp_member_text_length(member) && !memcmp(given, text, length);
}

/* Whether the next answer is to this request, and is this reply. */
static bool answers(camp_member *member, uint64_t request, const char *text) {
    return camp_member_answer(member) == CAMP_REPLY && camp_member_number(member) == request && gives(member, text);
}

/* Lets a member append what it wants, as many times, and read the log to its end. */
static int32_t go_on(camp_member *member, int copies) {
    int32_t code = camp_member_want(member);
    for (; code == CAMP_APPEND && copies > 0; copies--) {
        size_t length = camp_member_text(member, (uint8_t *)entries.text[entries.count], BYTES - 1);
        entries.text[entries.count++][length] = '\0';
    }
    code = CAMP_DONE;
    for (size_t at = camp_member_index(member); at < entries.count && code == CAMP_DONE; at++)
        code = camp_member_found(member, at, bytes(entries.text[at]), strlen(entries.text[at]));
    CHECK(camp_member_want(member) != CAMP_MEMORY && camp_member_ended(member, entries.count) == CAMP_DONE);
    return code;
}

static void share(camp_member *ann, camp_member *ben) {
    camp_view view = CAMP_CLOSED;
    char shown[BYTES];
    CHECK(ask(ann, 7, "#note start\nrecord main start add f\n", 0) == CAMP_DONE);
    CHECK(camp_member_want(ann) == CAMP_APPEND && camp_member_number(ann) == 1);
    CHECK(gives(ann, "entry 000000000000000a000000000000000b 1\n#note start\nrecord main start add f\n"));
    CHECK(go_on(ann, 2) == CAMP_DONE && answers(ann, 7, "ok 1\n") && camp_member_answer(ann) == CAMP_NOTHING);
    CHECK(ask(ben, 1, "record main more add f\n", 0) == CAMP_DONE && ask(ben, 2, "tree main\n", 1) == CAMP_DONE);
    CHECK(go_on(ben, 1) == CAMP_DONE && answers(ben, 1, "refused 10\n") && answers(ben, 2, "tree 1\nfile f 0\n"));
    CHECK(camp_member_accepted(ben) == 1 && camp_member_call(ben, 0) == CAMP_DONE && gives(ben, "#note start\nrecord main start add f\n"));
    CHECK(ask(ben, 3, "names main\n", 0) == CAMP_DONE && camp_member_take_seat(ben, 1, 2) == CAMP_WAITS);
    CHECK(camp_member_want(ben) == CAMP_NOTHING && answers(ben, 3, "names 1\nstart\n") && camp_member_take_seat(ben, 1, 2) == CAMP_DONE);
    CHECK(camp_member_call(ben, 1) == CAMP_NOTHING && camp_member_index(ben) == entries.count);
    CHECK(camp_member_look(ben, &view) == CAMP_DONE && camp_view_ask(&view, bytes("names main\n"), 11) == CAMP_DONE);
    CHECK(camp_view_answer(&view, (uint8_t *)shown, sizeof shown) == 14 && !memcmp(shown, "names 1\nstart\n", 14));
    camp_view_close(&view);
}

/* A member that goes on from a snapshot of three entries answers as one that has read them. */
static void restored(camp_member *ben) {
    const char *kept = "entry 000000000000000a000000000000000b 1\n#note start\nrecord main start add f\n";
    camp_member new = CAMP_CLOSED;
    CHECK(camp_member_open(&new, 0, 9, bytes(entries.text[0]), 11) == CAMP_DONE);
    CHECK(camp_member_restore(&new, 0, bytes(kept), strlen(kept)) == CAMP_OUT_OF_ORDER);
    CHECK(camp_member_restore(&new, 2, bytes("x\n"), 2) == CAMP_FOREIGN && camp_member_index(&new) == 1);
    CHECK(camp_member_restore(&new, 2, bytes(kept), strlen(kept)) == CAMP_DONE && camp_member_index(&new) == 3);
    CHECK(camp_member_restore(&new, 3, bytes(kept), strlen(kept)) == CAMP_FOREIGN && camp_member_accepted(&new) == 1);
    CHECK(go_on(&new, 0) == CAMP_DONE && camp_member_index(&new) == camp_member_index(ben));
    CHECK(camp_member_call(&new, 0) == CAMP_DONE && gives(&new, "#note start\nrecord main start add f\n"));
    CHECK(ask(&new, 1, "names main\n", 1) == CAMP_DONE && go_on(&new, 0) == CAMP_DONE && answers(&new, 1, "names 1\nstart\n"));
    camp_member_close(&new);
    CHECK(camp_member_restore(&new, 1, bytes(kept), strlen(kept)) == CAMP_NOT_OPEN);
}

static void without_reply(camp_member *ann) {
    CHECK(ask(ann, 3, "branch b main\n", 0) == CAMP_DONE && camp_member_want(ann) == CAMP_APPEND);
    CHECK(camp_member_refused(ann) == CAMP_DONE && camp_member_answer(ann) == CAMP_REFUSED && camp_member_number(ann) == 3);
    CHECK(ask(ann, 4, "names main\n", 9) == CAMP_DONE && camp_member_want(ann) == CAMP_READ);
    CHECK(camp_member_number(ann) == camp_member_index(ann));
    CHECK(go_on(ann, 0) == CAMP_DONE && camp_member_answer(ann) == CAMP_ENDED);
    CHECK(ask(ann, 5, "why\n", 0) == CAMP_NO_CALL && ask(ann, 5, "branch  b main\n", 0) == CAMP_NO_CALL);
    CHECK(camp_member_found(ann, entries.count + 1, bytes("x"), 1) == CAMP_OUT_OF_ORDER);
    strcpy(entries.text[entries.count++], "something else\n");
    CHECK(go_on(ann, 0) == CAMP_FOREIGN && ask(ann, 6, "branch b main\n", 0) == CAMP_DONE);
    CHECK(camp_member_want(ann) == CAMP_NOTHING && camp_member_answer(ann) == CAMP_STOPPED);
}

static void wrong_handles(camp_member *ann) {
    camp_member closed = CAMP_CLOSED;
    camp_view view = CAMP_CLOSED;
    CHECK(camp_member_open(ann, 0, 0, bytes("camp log 1\n"), 11) == CAMP_ALREADY_OPEN);
    CHECK(camp_member_open(&closed, 0, 0, bytes("camp log 2\n"), 11) == CAMP_NO_TITLE && !closed.is_open);
    CHECK(ask(&closed, 1, "names main\n", 0) == CAMP_NOT_OPEN && camp_member_want(&closed) == CAMP_NOT_OPEN);
    CHECK(camp_member_found(&closed, 0, bytes("x"), 1) == CAMP_NOT_OPEN && camp_member_refused(&closed) == CAMP_NOT_OPEN);
    CHECK(camp_member_take_seat(&closed, 1, 2) == CAMP_NOT_OPEN);
    CHECK(camp_member_ended(&closed, 1) == CAMP_NOT_OPEN && camp_member_answer(&closed) == CAMP_NOT_OPEN);
    CHECK(camp_member_call(&closed, 0) == CAMP_NOT_OPEN && camp_member_look(&closed, &view) == CAMP_NOT_OPEN);
    CHECK(camp_member_number(&closed) == 0 && gives(&closed, "") && camp_member_index(&closed) == 0 && camp_member_accepted(&closed) == 0);
    CHECK(camp_ask((camp *)ann, bytes("names main\n"), 11) == CAMP_WRONG_KIND && camp_look((camp *)ann, &view) == CAMP_WRONG_KIND);
    camp_member_close(&closed);
}

int main(void) {
    camp_member ann = CAMP_CLOSED, ben = CAMP_CLOSED;
    CHECK(camp_member_open(&ann, 10, 11, bytes(entries.text[0]), 11) == CAMP_DONE);
    CHECK(camp_member_open(&ben, UINT64_MAX, UINT64_MAX, bytes(entries.text[0]), 11) == CAMP_DONE);
    share(&ann, &ben);
    restored(&ben);
    without_reply(&ann);
    wrong_handles(&ann);
    camp_member_close(&ann);
    camp_member_close(&ben);
    CHECK(!ann.is_open && !ben.is_open);
    printf("%d checks\n", checks);
    return 0;
}
