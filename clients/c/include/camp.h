/* camp: a repository of named patches, embedded in a program.
 *
 * A repository stands behind a handle of the type camp, a view of it behind one of the type camp_view. Each handle
 * begins as zeros, which is closed: CAMP_CLOSED. A handle is opened, asked, and closed:
 *
 *     camp repository = CAMP_CLOSED;
 *     if (camp_open(&repository) != CAMP_DONE) ...
 *     camp_ask(&repository, (const uint8_t *)"names main\n", 11);
 *     size_t length;
 *     const uint8_t *answer = camp_answer_bytes(&repository, &length);
 *     camp_close(&repository);
 *
 * Threads: a handle serves one call at a time; where threads share one, put your own lock round it. A view shares
 * only what no call writes, and counts, with its repository and with other views. So each may be used on a thread of its own, with no
 * lock, while the repository goes on. Handles may be moved to other threads.
 *
 * Memory: comes from malloc, realloc and free. A call that finds none answers CAMP_MEMORY, or
 * CAMP_DONE and `memory` for a command that was not done, and never ends the program.
 *
 * Pointers: text and buffer point to length bytes, and are not null, also where length is 0. What a call is handed does
 * not overlap: two handles are two structs, and neither lies in the text or the buffer. Leave the members of a handle
 * alone; a handle that is copied is still one handle.
 */
#ifndef CAMP_H
#define CAMP_H

#include <stdbool.h>
#include <stddef.h>
#include <stdint.h>

#ifdef __cplusplus
extern "C" {
#endif

/* A repository, or closed. */
typedef struct camp {
    bool is_open;
    void *at;
} camp;

/* A view of a repository as it was at one moment, or closed. */
typedef struct camp_view {
    bool is_open;
    void *at;
} camp_view;

/* A member of a log that several processes share, or closed. */
typedef struct camp_member {
    bool is_open;
    void *at;
} camp_member;

#define CAMP_CLOSED {false, NULL}

enum {
    CAMP_DONE = 0,         /* each command has its answer, or the handle was opened */
    CAMP_NOT_OPEN = 1,     /* the handle is closed; nothing has changed */
    CAMP_MEMORY = 2,       /* out of memory */
    CAMP_LIMITS = 3,       /* a limit is out of range; the handle stays closed */
    CAMP_ALREADY_OPEN = 4, /* the handle to be opened is open already, and stays as it is */
    CAMP_WRONG_KIND = 5    /* the handle has a view where a repository is needed, or a repository where a view is needed; nothing
                              has changed */
};

/* The codes of members alone. */
enum {
    CAMP_NO_TITLE = 16,     /* the first entry is no title of a log; the handle stays closed */
    CAMP_NO_CALL = 17,      /* the text is not one call in canonical form; nothing has changed */
    CAMP_TOO_LONG = 18,     /* the call has more than 1,048,516 bytes with its note; nothing has changed */
    CAMP_FOREIGN = 19,      /* no entry of a member, or one of another process with this seat: the member reads no further */
    CAMP_OUT_OF_ORDER = 20, /* another entry comes next: that of camp_member_index; nothing has changed */
    CAMP_NOTHING = 21,      /* nothing is wanted, each answer was taken, or no accepted call has the index */
    CAMP_READ = 22,         /* the member wants to read the log, from the index that is the number */
    CAMP_APPEND = 23,       /* the member wants that the text is appended, once, under its seat and the number */
    CAMP_REPLY = 24,        /* the request of the number has the reply that is the text */
    CAMP_REFUSED = 25,      /* the request of the number gets none: the log refused its entry */
    CAMP_ENDED = 26,        /* the request of the number gets none: the log ends before the calls that it waits for */
    CAMP_STOPPED = 27,      /* the request of the number gets none: the log can be read no further */
    CAMP_WAITS = 28         /* a request waits for its answer; nothing has changed */
};

/* Opens a closed handle on a new repository: one branch `main` without patches.
 * CAMP_ALREADY_OPEN: it stays as it is. CAMP_MEMORY: it stays closed. */
int32_t camp_open(camp *repository);

/* The same, with other limits than 4,096 changes in a branch and 256 branches: catches is 1 to 16,777,216 changes in a
 * branch, branches 1 to 65,536. CAMP_LIMITS: one of them is not, and the handle, which was closed, stays closed. */
int32_t camp_open_with(camp *repository, size_t catches, size_t branches);

/* Asks the commands of a text, which is a conversation of its own: docs/conversation.md has the commands and their answers. The
 * answer is that of each command, one behind another; a refusal or a fault is an answer as any other. A body that is not
 * ended has its fault; lines count from 1 in each text.
 * CAMP_MEMORY: exactly the first commands of the text were executed, as many as camp_executed returns, and the answer is
 * theirs, but perhaps without that of the last one. Ask the others again: no command is executed twice.
 * CAMP_NOT_OPEN: the handle is closed. CAMP_WRONG_KIND: it is that of a view. */
int32_t camp_ask(camp *repository, const uint8_t *text, size_t length);

/* How many commands of the last text were executed: after CAMP_DONE all of them. Each blank line and each comment is one that
 * asks nothing. A command that was answered `memory` counts, since its answer is there, and has changed nothing. 0 where the
 * handle is closed. */
size_t camp_executed(camp *repository);

/* How many bytes the answer to the last text has; 0 where the handle is closed. */
size_t camp_answer_length(camp *repository);

/* Writes as much of that answer as the buffer takes, from its beginning, and tells how many bytes that is. */
size_t camp_answer(camp *repository, uint8_t *buffer, size_t length);

/* That answer itself: its bytes, and in `length` how many these are. They stay as they are until the next call with this
 * handle. NULL and 0 where the handle is closed. */
const uint8_t *camp_answer_bytes(camp *repository, size_t *length);

/* Closes a handle. One that is closed stays so. */
void camp_close(camp *repository);

/* Opens a closed handle on a view of a repository as it is now. That takes a count, whatever the repository holds.
 * CAMP_NOT_OPEN: the repository is closed. CAMP_WRONG_KIND: its handle is that of a view. CAMP_ALREADY_OPEN: the view is open.
 * CAMP_MEMORY: the view stays closed. */
int32_t camp_look(camp *repository, camp_view *view);

/* Asks the questions of a text of a view. A command that would write, or that asks about the history (`history`, `keep`) or
 * about an earlier command (`why`), is answered by the fault `not asked of a view`. Nothing but the answer changes.
 * CAMP_MEMORY: the answer is empty. CAMP_NOT_OPEN: the view is closed. CAMP_WRONG_KIND: its handle is that of a repository. */
int32_t camp_view_ask(camp_view *view, const uint8_t *text, size_t length);

/* How many bytes the answer to the last text of a view has; 0 where the view is closed. */
size_t camp_view_answer_length(camp_view *view);

/* Writes as much of that answer as the buffer takes, from its beginning, and tells how many bytes that is. */
size_t camp_view_answer(camp_view *view, uint8_t *buffer, size_t length);

/* That answer itself, until the next call with this handle, as camp_answer_bytes. */
const uint8_t *camp_view_answer_bytes(camp_view *view, size_t *length);

/* Opens a closed handle on one more view of what a view shows.
 * CAMP_NOT_OPEN: the view is closed. CAMP_WRONG_KIND: its handle is that of a repository. CAMP_ALREADY_OPEN: the other view is
 * open. CAMP_MEMORY: the other view stays closed. */
int32_t camp_view_again(camp_view *view, camp_view *other);

/* Closes a view. One that is closed stays so. */
void camp_view_close(camp_view *view);

/* Opens a closed handle on a member of a log whose entry 0 is this title: `camp log 1` and a line feed, or with limits
 * `camp log 1 catches N branches N`. Its seat has 128 bits, which nobody else may have: draw them at random for each
 * member that you open. A member does no input or output: it says what it wants of the log, and is told what came of it.
 *
 *     camp_member_ask(&member, 1, call, call_length, 0);
 *     while ((wanted = camp_member_want(&member)) != CAMP_NOTHING) {
 *         if (wanted == CAMP_APPEND) ... append camp_member_text under the seat and camp_member_number, if none is there under it;
 *                                        where the log refused it for certain: camp_member_refused(&member)
 *         ... camp_member_found(&member, index, text, length) for each entry of the log from camp_member_index on
 *         ... camp_member_ended(&member, index) where the log ends before an index, and wanted was CAMP_READ
 *     }
 *     while (camp_member_answer(&member) == CAMP_REPLY) ... camp_member_number, camp_member_text
 *
 * An append whose outcome is unknown needs nothing: the same entry is wanted until it is found or refused.
 * CAMP_ALREADY_OPEN: the handle stays as it is. CAMP_NO_TITLE, CAMP_MEMORY: it stays closed. */
int32_t camp_member_open(camp_member *member, uint64_t seat_high, uint64_t seat_low, const uint8_t *title, size_t length);

/* Gives a member another seat, which nobody else has: a process that was forked goes on under one of its own. CAMP_WAITS: a
 * request waits, and the seat stays. */
int32_t camp_member_take_seat(camp_member *member, uint64_t seat_high, uint64_t seat_low);

/* Queues one call in canonical form, after its note if it has one, under a number of yours: a command that writes, or
 * `tree`, `conflicts` or `names`. It is answered where at least so many calls were accepted: an `ok` that you have seen.
 * CAMP_NO_CALL, CAMP_TOO_LONG, CAMP_MEMORY: nothing is queued. */
int32_t camp_member_ask(camp_member *member, uint64_t request, const uint8_t *text, size_t length, uint64_t at_least);

/* Answers the first requests that can be answered at what was read, and says what is wanted of the log: CAMP_NOTHING,
 * CAMP_READ or CAMP_APPEND. CAMP_MEMORY: ask again; what was answered stays answered. */
int32_t camp_member_want(camp_member *member);

/* Gives a member the entry at an index of the log, in order; what it has read already is passed over. The requests of its
 * own entry are answered where that stands. CAMP_FOREIGN: it reads no further, and answers at what it has read.
 * CAMP_OUT_OF_ORDER, CAMP_MEMORY: nothing has changed. */
int32_t camp_member_found(camp_member *member, size_t index, const uint8_t *text, size_t length);

/* Gives a member, before it reads a log, what a snapshot of the log has at an index, in order: an entry, as the log has
 * them, which may stand for those before it. It then goes on after that index. All that a snapshot says: the accepted
 * calls in order, each under its seat, and of each seat the last number in the log. CAMP_FOREIGN: no entry, one of this seat, or its
 * number does not rise. CAMP_FOREIGN, CAMP_OUT_OF_ORDER, CAMP_MEMORY: nothing has changed. */
int32_t camp_member_restore(camp_member *member, size_t index, const uint8_t *text, size_t length);

/* Says that the log did not take the entry that is wanted, and never will. */
int32_t camp_member_refused(camp_member *member);

/* Says that the log ends at an index: it has so many entries, with its title. A request that waits for more is answered so. */
int32_t camp_member_ended(camp_member *member, size_t index);

/* Takes the next answer, in the order of the requests: CAMP_REPLY, CAMP_REFUSED, CAMP_ENDED, CAMP_STOPPED, or CAMP_NOTHING.
 * CAMP_MEMORY: it is not taken. */
int32_t camp_member_answer(camp_member *member);

/* Renders an accepted call of what was read, counted from 0, after its note: the text. CAMP_NOTHING: there is none. */
int32_t camp_member_call(camp_member *member, size_t index);

/* The number that was given last, by camp_member_want, camp_member_answer or camp_member_call; 0 where the handle is closed. */
uint64_t camp_member_number(camp_member *member);

/* How many bytes the text has that was given last; 0 where the handle is closed. */
size_t camp_member_text_length(camp_member *member);

/* Writes as much of that text as the buffer takes, from its beginning, and tells how many bytes that is. */
size_t camp_member_text(camp_member *member, uint8_t *buffer, size_t length);

/* The index of the entry that is read next; 0 where the handle is closed. */
size_t camp_member_index(camp_member *member);

/* How many calls were accepted in what was read; 0 where the handle is closed. */
uint64_t camp_member_accepted(camp_member *member);

/* Opens a closed handle on a view of the repository after what was read, as camp_look does. */
int32_t camp_member_look(camp_member *member, camp_view *view);

/* Closes a member. One that is closed stays so. */
void camp_member_close(camp_member *member);

/* The version of the library, as "0.1.0"; the text stays. */
const char *camp_version(void);

/* What a code means, in a few words for messages; the text stays. */
const char *camp_code_text(int32_t code);

#ifdef __cplusplus
}
#endif

#endif
