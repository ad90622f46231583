/* What the codes promise: closed handles, open ones, other kinds, small buffers, empty, huge and senseless texts. */
#include "camp.h"
#include <stdio.h>
#include <stdlib.h>
#include <string.h>

static int checks;

#define CHECK(fact)                                                   \
    do {                                                              \
        checks++;                                                     \
        if (!(fact)) {                                                \
            printf("handles: line %d: %s\n", __LINE__, #fact);        \
            exit(1);                                                  \
        }                                                             \
    } while (0)

static const uint8_t *bytes(const char *text) { return (const uint8_t *)text; }

static int32_t ask(camp *repository, const char *text) { return camp_ask(repository, bytes(text), strlen(text)); }

static int32_t ask_view(camp_view *view, const char *text) { return camp_view_ask(view, bytes(text), strlen(text)); }

/* Whether the answer is this text, copied and lent. */
static bool answers(camp *repository, const char *text) {
    char said[1024];
    size_t length = camp_answer(repository, (uint8_t *)said, sizeof said), lent_length;
    const uint8_t *lent = camp_answer_bytes(repository, &lent_length);
    return length == strlen(text) && length == camp_answer_length(repository) && !memcmp(said, text, length)
        && lent_length == length && (!length || !memcmp(lent, text, length));
}

static bool view_answers(camp_view *view, const char *text) {
    char said[1024];
    size_t length = camp_view_answer(view, (uint8_t *)said, sizeof said), lent_length;
    const uint8_t *lent = camp_view_answer_bytes(view, &lent_length);
    return length == strlen(text) && length == camp_view_answer_length(view) && !memcmp(said, text, length)
        && lent_length == length && (!length || !memcmp(lent, text, length));
}

/* The library says its version, and each code has words of its own. */
static void version_and_codes(void) {
    CHECK(strlen(camp_version()) >= 5);
    for (int32_t code = CAMP_DONE; code <= CAMP_WAITS; code++) {
        if (code > CAMP_WRONG_KIND && code < CAMP_NO_TITLE) continue;
        CHECK(strlen(camp_code_text(code)) > 0 && strcmp(camp_code_text(code), camp_code_text(-1)));
        CHECK(code == CAMP_DONE || strcmp(camp_code_text(code), camp_code_text(code - 1)));
    }
}

/* Closed handles answer nothing, and may be closed again. */
static void closed(void) {
    camp repository = CAMP_CLOSED;
    camp_view view = CAMP_CLOSED, other = CAMP_CLOSED;
    uint8_t byte = 7;
    size_t length = 7;
    CHECK(ask(&repository, "names main\n") == CAMP_NOT_OPEN && camp_executed(&repository) == 0);
    CHECK(camp_answer_bytes(&repository, &length) == NULL && length == 0);
    length = 7;
    CHECK(camp_view_answer_bytes(&view, &length) == NULL && length == 0);
    CHECK(camp_answer_length(&repository) == 0 && camp_answer(&repository, &byte, 1) == 0 && byte == 7);
    CHECK(camp_look(&repository, &view) == CAMP_NOT_OPEN && !view.is_open);
    CHECK(ask_view(&view, "names main\n") == CAMP_NOT_OPEN);
    CHECK(camp_view_answer_length(&view) == 0 && camp_view_answer(&view, &byte, 1) == 0 && byte == 7);
    CHECK(camp_view_again(&view, &other) == CAMP_NOT_OPEN && !other.is_open);
    camp_close(&repository);
    camp_close(&repository);
    camp_view_close(&view);
    CHECK(!repository.is_open && !view.is_open);
}

/* A repository has the limits that it was opened with; one that is out of range opens nothing. */
static void limits(void) {
    camp repository = CAMP_CLOSED;
    CHECK(camp_open_with(&repository, 0, 1) == CAMP_LIMITS && !repository.is_open);
    CHECK(camp_open_with(&repository, 16777217, 1) == CAMP_LIMITS && !repository.is_open);
    CHECK(camp_open_with(&repository, 1, 0) == CAMP_LIMITS && !repository.is_open);
    CHECK(camp_open_with(&repository, 1, 65537) == CAMP_LIMITS && !repository.is_open);
    CHECK(camp_open_with(&repository, 1, 2) == CAMP_DONE && repository.is_open);
    CHECK(camp_open_with(&repository, 0, 0) == CAMP_ALREADY_OPEN && camp_open_with(&repository, 1, 1) == CAMP_ALREADY_OPEN);
    CHECK(ask(&repository, "record main a add f\nrecord main b add g\n") == CAMP_DONE && answers(&repository, "ok 1\nrefused 9\n"));
    CHECK(ask(&repository, "branch x main\nbranch y main\n") == CAMP_DONE && answers(&repository, "ok 2\nrefused 9\n"));
    camp_close(&repository);
    CHECK(camp_open_with(&repository, 16777216, 65536) == CAMP_DONE && ask(&repository, "record main a add f\n") == CAMP_DONE);
    CHECK(answers(&repository, "ok 1\n"));
    camp_close(&repository);
}

/* An open handle isn't opened again, and is closed once. */
static void open_handles(void) {
    camp repository = CAMP_CLOSED;
    camp_view view = CAMP_CLOSED, other = CAMP_CLOSED;
    CHECK(camp_open(&repository) == CAMP_DONE && repository.is_open);
    CHECK(camp_answer_length(&repository) == 0);
    CHECK(ask(&repository, "record main a add f\n") == CAMP_DONE && answers(&repository, "ok 1\n"));
    CHECK(camp_open(&repository) == CAMP_ALREADY_OPEN && answers(&repository, "ok 1\n"));
    CHECK(ask(&repository, "names main\n") == CAMP_DONE && answers(&repository, "names 1\na\n"));
    CHECK(camp_look(&repository, &view) == CAMP_DONE && view_answers(&view, ""));
    CHECK(answers(&repository, "names 1\na\n"));
    CHECK(ask_view(&view, "names main\n") == CAMP_DONE && view_answers(&view, "names 1\na\n"));
    CHECK(ask(&repository, "record main b add g\n") == CAMP_DONE);
    CHECK(camp_look(&repository, &view) == CAMP_ALREADY_OPEN && view_answers(&view, "names 1\na\n"));
    CHECK(camp_view_again(&view, &other) == CAMP_DONE && view_answers(&other, ""));
    CHECK(camp_view_again(&view, &other) == CAMP_ALREADY_OPEN);
    camp_view_close(&view);
    camp_close(&repository);
    CHECK(ask_view(&other, "names main\n") == CAMP_DONE && view_answers(&other, "names 1\na\n"));
    CHECK(ask_view(&view, "names main\n") == CAMP_NOT_OPEN && ask(&repository, "names main\n") == CAMP_NOT_OPEN);
    CHECK(camp_look(&repository, &other) == CAMP_NOT_OPEN && camp_view_again(&view, &other) == CAMP_NOT_OPEN && other.is_open);
    camp_view_close(&other);
    camp_view_close(&other);
    camp_close(&repository);
    CHECK(camp_open(&repository) == CAMP_DONE && ask(&repository, "names main\n") == CAMP_DONE);
    CHECK(answers(&repository, "names 0\n"));
    camp_close(&repository);
}

/* A view is asked questions alone. */
static void questions_alone(void) {
    camp repository = CAMP_CLOSED;
    camp_view view = CAMP_CLOSED;
    CHECK(camp_open(&repository) == CAMP_DONE);
    CHECK(ask(&repository, "record main a add f\n") == CAMP_DONE && camp_look(&repository, &view) == CAMP_DONE);
    CHECK(ask_view(&view, "# all that writes\nrecord main b add g\nrecord main b edit f 1\n+x\nend\nbranch x main\n"
                          "pull main main\nobliterate main a\nrecord main b group\nadd g\ndone\n") == CAMP_DONE);
    CHECK(view_answers(&view, "fault 2 not asked of a view\nfault 3 not asked of a view\nfault 6 not asked of a view\n"
                              "fault 7 not asked of a view\nfault 8 not asked of a view\nfault 9 not asked of a view\n"));
    CHECK(ask_view(&view, "history\nkeep\n") == CAMP_DONE);
    CHECK(view_answers(&view, "fault 1 not asked of a view\nfault 2 not asked of a view\n"));
    CHECK(ask_view(&view, "names main\ntree main\nconflicts main\nneeds main a\nannotate main f\n") == CAMP_DONE);
    CHECK(view_answers(&view, "names 1\na\ntree 1\nfile f 0\nconflicts 0\nneeds 1\na\nannotate 0\n"));
    CHECK(ask_view(&view, "whatif record main b add f\nnames x\nwhat\n\nwhatif record main b edit f 1\n+x\n") == CAMP_DONE);
    CHECK(view_answers(&view, "whatif 1\nrefused 10\nrefused 4 x\nfault 3 unknown command\nfault 5 edit not ended\n"));
    CHECK(ask(&repository, "names main\nhistory\n") == CAMP_DONE);
    CHECK(answers(&repository, "names 1\na\nhistory 1\n1 0 record main a add f\n"));
    camp_view_close(&view);
    camp_close(&repository);
}

/* A view is asked about a conflict as the repository was, open, while the repository settles it. */
static void conflicts(void) {
    camp repository = CAMP_CLOSED;
    camp_view view = CAMP_CLOSED;
    const char *open = "open 1\np q\nside 4\nedit f 1\n-one\n+uno\nend\nmarks 6\nconflict 2 1\n=one\nside p 1\n+uno\nside q 1\n+ein\n";
    const char *settled = "open 0\nside 8\nedit f 1\n-ein\n+one\nend\nedit f 1\n-one\n+uno\nend\nmarks 1\n=ein\n";
    const char *questions = "open main\nside main p\nmarks main f\n";
    CHECK(camp_open(&repository) == CAMP_DONE);
    CHECK(ask(&repository, "record main a add f\nrecord main b edit f 1\n+one\nend\nbranch other main\n"
                           "record main p edit f 1\n-one\n+uno\nend\nrecord other q edit f 1\n-one\n+ein\nend\n"
                           "pull other main\n") == CAMP_DONE);
    CHECK(ask(&repository, questions) == CAMP_DONE && answers(&repository, open));
    CHECK(camp_look(&repository, &view) == CAMP_DONE);
    CHECK(ask(&repository, "record main r edit f 1\n-one\n+ein\nend\n") == CAMP_DONE && answers(&repository, "ok 7\n"));
    CHECK(ask(&repository, questions) == CAMP_DONE && answers(&repository, settled));
    CHECK(ask_view(&view, questions) == CAMP_DONE && view_answers(&view, open));
    camp_view_close(&view);
    camp_close(&repository);
}

/* A view is no repository, and a repository is no view: a code of its own says so, whether or not the handle to be opened is
 * open. */
static void wrong_kind(void) {
    camp repository = CAMP_CLOSED;
    camp_view view = CAMP_CLOSED, other = CAMP_CLOSED;
    CHECK(camp_open(&repository) == CAMP_DONE && camp_look(&repository, &view) == CAMP_DONE);
    CHECK(ask((camp *)&view, "names main\n") == CAMP_WRONG_KIND);
    CHECK(camp_answer_length((camp *)&view) == 0 && camp_executed((camp *)&view) == 0);
    CHECK(camp_look((camp *)&view, &other) == CAMP_WRONG_KIND && !other.is_open);
    CHECK(ask_view((camp_view *)&repository, "names main\n") == CAMP_WRONG_KIND);
    CHECK(camp_view_again((camp_view *)&repository, &other) == CAMP_WRONG_KIND && !other.is_open);
    CHECK(camp_view_again(&view, &other) == CAMP_DONE && camp_look((camp *)&view, &other) == CAMP_WRONG_KIND && other.is_open);
    camp_view_close(&other);
    CHECK(ask(&repository, "names main\n") == CAMP_DONE && answers(&repository, "names 0\n"));
    camp_view_close(&view);
    camp_close(&repository);
}

/* A buffer takes a front of the answer, and stays behind it as it was. */
static void buffers(void) {
    camp repository = CAMP_CLOSED;
    uint8_t buffer[8] = "........";
    CHECK(camp_open(&repository) == CAMP_DONE && ask(&repository, "names main\n") == CAMP_DONE);
    CHECK(camp_answer(&repository, buffer, 0) == 0 && !memcmp(buffer, "........", 8));
    CHECK(camp_answer(&repository, buffer, 5) == 5 && !memcmp(buffer, "names...", 8));
    CHECK(ask(&repository, "record main a add f\n") == CAMP_DONE);
    CHECK(camp_answer(&repository, buffer, 8) == 5 && !memcmp(buffer, "ok 1\n...", 8));
    CHECK(camp_ask(&repository, buffer, 0) == CAMP_DONE && camp_answer_length(&repository) == 0);
    camp_close(&repository);
}

/* Senseless texts have their faults, and huge ones their answers; nothing is lost. */
static void texts(void) {
    camp repository = CAMP_CLOSED;
    enum { SIZE = 1 << 24 };
    uint8_t *text = malloc(SIZE);
    uint32_t random = 12345;
    CHECK(text && camp_open(&repository) == CAMP_DONE && ask(&repository, "record main a add f\n") == CAMP_DONE);
    for (int turn = 0; turn < 64; turn++) {
        for (size_t i = 0; i < 4096; i++) {
            random = random * 1664525 + 1013904223;
            text[i] = turn % 2 ? (uint8_t)(random >> 24) : (uint8_t)"record pull\n\0end+- main a f 1\r\t"[random >> 27];
        }
        CHECK(camp_ask(&repository, text, 4096) == CAMP_DONE);
    }
    memset(text, 'x', SIZE);
    CHECK(camp_ask(&repository, text, SIZE) == CAMP_DONE && answers(&repository, "fault 1 unknown command\n"));
    memset(text, '\n', SIZE);
    CHECK(camp_ask(&repository, text, SIZE) == CAMP_DONE && answers(&repository, ""));
    memset(text, '+', SIZE);
    memcpy(text, "record main b edit f 1\n", 23);
    for (size_t i = 4095; i < SIZE; i += 4096) text[i] = '\n';
    CHECK(camp_ask(&repository, text, SIZE) == CAMP_DONE && answers(&repository, "fault 1 edit not ended\n"));
    CHECK(ask(&repository, "names main\n") == CAMP_DONE && answers(&repository, "names 1\na\n"));
    camp_close(&repository);
    free(text);
}

int main(void) {
    version_and_codes();
    closed();
    open_handles();
    limits();
    questions_alone();
    conflicts();
    wrong_kind();
    buffers();
    texts();
    printf("handles: %d facts hold\n", checks);
    return 0;
}
