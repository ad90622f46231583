/* The version of the library, its codes in words, and the two functions that return a pointer, which an export can't. They are C and
 * not proved; clients/build compiles them with CAMP_VERSION. */
#include "camp.h"

/* The library's exports behind camp_answer_bytes and camp_view_answer_bytes. */
size_t camp_lend_answer(camp *repository, const uint8_t **at);
size_t camp_lend_view_answer(camp_view *view, const uint8_t **at);

const uint8_t *camp_answer_bytes(camp *repository, size_t *length) {
    const uint8_t *at = NULL;
    *length = camp_lend_answer(repository, &at);
    return at;
}

const uint8_t *camp_view_answer_bytes(camp_view *view, size_t *length) {
    const uint8_t *at = NULL;
    *length = camp_lend_view_answer(view, &at);
    return at;
}

#define TEXT_OF(name) TEXT_OF_IT(name)
#define TEXT_OF_IT(name) #name

const char *camp_version(void) { return TEXT_OF(CAMP_VERSION); }

const char *camp_code_text(int32_t code) {
    switch (code) {
    case CAMP_DONE: return "done: each command has its answer, or the handle was opened";
    case CAMP_NOT_OPEN: return "the handle is closed";
    case CAMP_MEMORY: return "out of memory";
    case CAMP_LIMITS: return "a limit is out of range";
    case CAMP_ALREADY_OPEN: return "the handle to be opened is open already";
    case CAMP_WRONG_KIND: return "a handle of another kind: a view in place of a repository, say";
    case CAMP_NO_TITLE: return "the first entry is no title of a log";
    case CAMP_NO_CALL: return "the text is not one call in canonical form";
    case CAMP_TOO_LONG: return "the call is too long for an entry";
    case CAMP_FOREIGN: return "no entry of a member stands there, or one of another process with this seat";
    case CAMP_OUT_OF_ORDER: return "another entry comes next";
    case CAMP_NOTHING: return "there is nothing";
    case CAMP_READ: return "the member wants to read its log";
    case CAMP_APPEND: return "the member wants to append an entry";
    case CAMP_REPLY: return "a reply";
    case CAMP_REFUSED: return "no reply: the log refused the entry";
    case CAMP_ENDED: return "no reply: the log ends too early";
    case CAMP_STOPPED: return "no reply: the log can be read no further";
    case CAMP_WAITS: return "a request waits";
    default: return "no code of this library";
    }
}
