/* Each allocation is refused in turn: one alone, and from one on all. No call ends the program, a refused one leaves what
 * its code and the count of executed commands say, and in the end nothing is left. Linked with --wrap=malloc,--wrap=realloc,--wrap=free. */
#include "camp.h"
#include <stdio.h>
#include <stdlib.h>
#include <string.h>

static long until = -1;   /* so many allocations are granted before one is refused; -1: all */
static bool ever_after;   /* those behind it are refused too */
static bool was_refused;
static long live;         /* blocks that are not freed */

void *__real_malloc(size_t);
void *__real_realloc(void *, size_t);
void __real_free(void *);
void *__wrap_malloc(size_t);
void *__wrap_realloc(void *, size_t);
void __wrap_free(void *);

static bool granted(void) {
    if (until < 0) return true;
    if (until > 0) {
        until--;
        return true;
    }
    was_refused = true;
    if (!ever_after) until = -1;
    return false;
}

void *__wrap_malloc(size_t size) {
    void *block = granted() ? __real_malloc(size) : NULL;
    live += block != NULL;
    return block;
}

void *__wrap_realloc(void *block, size_t size) {
    void *moved = granted() ? __real_realloc(block, size) : NULL;
    live += moved && !block;
    return moved;
}

void __wrap_free(void *block) {
    live -= block != NULL;
    __real_free(block);
}

/* Texts, each by its commands. Of a text that writes, each command that asks something has an answer of one line. */
enum { TEXTS = 11, COMMANDS = 8 };
static const char *const texts[TEXTS][COMMANDS] = {
    {"record main start add notes\n", "# what is in it\n", "record main one edit notes 1\n+one\nend\n", "\n", "branch other main\n"},
    {"record main english edit notes 1\n-one\n+first\nend\n", "record other german edit notes 1\n-one\n+erstens\nend\n"},
    {"pull other main\n"},
    {"open main\n", "side main german\n", "marks main notes\n"},
    {"names main\n", "conflicts main\n", "tree main\n", "what\n"},
    {"needs main german\n", "annotate main notes\n", "whatif obliterate main english\n"},
    {"obliterate main english\n", "obliterate main english\n", "branch third main\n", "branch fourth third\n", "record fourth last add more\n"},
    {"history\n", "keep\n"},
    {"pull fourth main\n", "obliterate fourth last\n", "# no more\n", "obliterate other german\n"},
    {"record main line edit more 1\n+x\nend\n", "pull main third line\n", "record third cut edit more 1\n+y\n"},
    {"history\n"},
};

static int32_t ask(camp *repository, const char *text) {
    return camp_ask(repository, (const uint8_t *)text, strlen(text));
}

/* The commands of a text from the first-th on, as one text. */
static const char *text_from(const char *const *commands, size_t first) {
    static char text[1024];
    text[0] = '\0';
    for (size_t i = first; i < COMMANDS && commands[i]; i++) strcat(text, commands[i]);
    return text;
}

/* The last answer, as a string that the caller frees. Memory is granted. */
static char *answer(camp *repository) {
    size_t length;
    const uint8_t *bytes = camp_answer_bytes(repository, &length);
    char *text = malloc(length + 1);
    if (length) memcpy(text, bytes, length);
    text[length] = '\0';
    return text;
}

/* The script that gives the repository back, as a string that the caller frees; null where it is not answered. Memory is granted. */
static char *kept(camp *repository) {
    if (ask(repository, "keep\n") != CAMP_DONE) return NULL;
    char *said = answer(repository), *script = strchr(said, '\n');
    if (script) memmove(said, script + 1, strlen(script));
    return said;
}

/* Asks of a repository the first commands of a text but those that were answered `memory`, which changed nothing. */
static int ask_first(camp *repository, const char *const *commands, size_t executed, const char *said) {
    for (size_t i = 0; i < executed; i++) {
        if (!commands[i]) return 1;
        bool is_silent = commands[i][0] == '#' || commands[i][0] == '\n';
        bool ran_out = !is_silent && !strncmp(said, "memory\n", 7);
        const char *line_end = is_silent ? NULL : strchr(said, '\n');
        if (line_end) said = line_end + 1;
        if (!ran_out && ask(repository, commands[i]) != CAMP_DONE) return 2;
    }
    return 0;
}

/* After out of memory the repository is that after the first commands of the text, as many as were counted; then the others
 * are asked. `before` is the script of the repository before the text. */
static int is_as_counted(camp *repository, const char *const *commands, const char *before) {
    until = -1;
    camp other = CAMP_CLOSED;
    size_t executed = camp_executed(repository);
    char *said = answer(repository), *now = kept(repository), *wanted = NULL;
    int wrong = camp_open(&other) || ask(&other, before);
    if (!wrong) wrong = ask_first(&other, commands, executed, said);
    if (!wrong) wanted = kept(&other);
    if (!wrong && (!now || !wanted || strcmp(now, wanted))) wrong = 3;
    if (!wrong && ask(repository, text_from(commands, executed)) != CAMP_DONE) wrong = 4;
    camp_close(&other);
    free(said), free(now), free(wanted);
    return wrong;
}

/* Asks a text, and looks at what it leaves. */
static int ask_text(camp *repository, const char *const *commands) {
    long left = until;
    until = -1;
    char *before = kept(repository);
    int wrong = before ? 0 : 6;
    until = left;
    int32_t code = wrong ? CAMP_DONE : ask(repository, text_from(commands, 0));
    if (code == CAMP_MEMORY) wrong = is_as_counted(repository, commands, before);
    else if (code != CAMP_DONE) wrong = 5;
    left = until;
    until = -1;
    free(before);
    until = left;
    return wrong;
}

/* One run; the status says what was wrong. */
static int run(void) {
    camp repository = CAMP_CLOSED;
    camp_view view = CAMP_CLOSED, other = CAMP_CLOSED;
    int wrong = 0;
    int32_t code = camp_open(&repository);
    if (code == CAMP_MEMORY) {
        if (repository.is_open) return 1;
        until = -1;
        if (camp_open(&repository) != CAMP_DONE) return 2;
    }
    for (int i = 0; i < TEXTS && !wrong; i++) wrong = ask_text(&repository, texts[i]);
    if ((code = camp_look(&repository, &view)) != CAMP_DONE) {
        if (code != CAMP_MEMORY || view.is_open) return 4;
        until = -1;
        if (camp_look(&repository, &view) != CAMP_DONE) return 5;
    }
    if ((code = camp_view_ask(&view, (const uint8_t *)"tree main\nhistory\n", 18)) != CAMP_DONE) {
        if (code != CAMP_MEMORY || camp_view_answer_length(&view) != 0) return 6;
    }
    code = camp_view_again(&view, &other);
    if (code != CAMP_DONE && (code != CAMP_MEMORY || other.is_open)) return 7;
    camp_view_close(&other);
    camp_view_close(&view);
    camp_close(&repository);
    return wrong ? 10 + wrong : 0;
}

/* A call that runs out of memory, which changes nothing, is made once more. */
#define TWICE(call) ((code = (call)) == CAMP_MEMORY ? (until = -1, (call)) : code)

static bool gives(camp_member *member, const char *text) {
    uint8_t given[256];
    size_t length = camp_member_text(member, given, sizeof given);
    return length == strlen(text) && !memcmp(given, text, length);
}

/* A member asks calls over a log in memory; the status says what was wrong. */
static int run_member(void) {
    static const char entry[] = "entry 00000000000000010000000000000002 1\n#note why\nrecord main start add f\n";
    const uint8_t *text = (const uint8_t *)entry, *call = (const uint8_t *)strchr(entry, '#');
    size_t length = strlen(entry), call_length = strlen((const char *)call);
    camp_member member = CAMP_CLOSED;
    camp_view view = CAMP_CLOSED;
    int32_t code;
    if (TWICE(camp_member_open(&member, 1, 2, (const uint8_t *)"camp log 1\n", 11)) != CAMP_DONE) return 1;
    if (TWICE(camp_member_ask(&member, 7, call, call_length, 0)) != CAMP_DONE) return 2;
    if (TWICE(camp_member_want(&member)) != CAMP_APPEND || !gives(&member, entry)) return 3;
    if (TWICE(camp_member_found(&member, 1, text, length)) != CAMP_DONE || camp_member_accepted(&member) != 1) return 4;
    if (TWICE(camp_member_answer(&member)) != CAMP_REPLY || camp_member_number(&member) != 7 || !gives(&member, "ok 1\n")) return 5;
    if (TWICE(camp_member_call(&member, 0)) != CAMP_DONE || !gives(&member, (const char *)call)) return 6;
    if (TWICE(camp_member_ask(&member, 8, (const uint8_t *)"names main\n", 11, 5)) != CAMP_DONE) return 7;
    if (TWICE(camp_member_want(&member)) != CAMP_READ || TWICE(camp_member_ended(&member, 2)) != CAMP_DONE) return 8;
    if (TWICE(camp_member_answer(&member)) != CAMP_ENDED || camp_member_number(&member) != 8) return 9;
    if (TWICE(camp_member_ask(&member, 9, (const uint8_t *)"branch b main\n", 14, 0)) != CAMP_DONE) return 10;
    if (TWICE(camp_member_want(&member)) != CAMP_APPEND || TWICE(camp_member_refused(&member)) != CAMP_DONE) return 11;
    if (TWICE(camp_member_answer(&member)) != CAMP_REFUSED || camp_member_answer(&member) != CAMP_NOTHING) return 12;
    if (TWICE(camp_member_look(&member, &view)) != CAMP_DONE || !view.is_open) return 13;
    camp_view_close(&view);
    camp_member_close(&member);
    if (TWICE(camp_member_open(&member, 1, 3, (const uint8_t *)"camp log 1\n", 11)) != CAMP_DONE) return 14;
    if (TWICE(camp_member_restore(&member, 1, text, length)) != CAMP_DONE || camp_member_accepted(&member) != 1) return 15;
    camp_member_close(&member);
    return 0;
}

int main(void) {
    long refused = 0;
    for (int pass = 0; pass < 4; pass++) {
        ever_after = pass % 2 == 1;
        for (long n = 0;; n++) {
            long before = live;
            until = n;
            was_refused = false;
            int wrong = pass < 2 ? run() : run_member();
            until = -1;
            if (wrong || live != before) {
                printf("memory: pass %d: allocation %ld refused: wrong %d, %ld blocks left\n", pass, n, wrong, live - before);
                return 1;
            }
            if (!was_refused) break;
            refused++;
        }
    }
    printf("memory: %ld refusals, nothing left\n", refused);
    return refused ? 0 : 1;
}
