/* A library with each function of camp.h, for tests without the proved one: handles open and close, and each text finds no
 * memory. */
#include "camp.h"

const char *camp_version(void) { return CAMP_STAND_IN; }

const char *camp_code_text(int32_t code) {
    (void)code;
    return "";
}

static int32_t ask(size_t length) { return length ? CAMP_MEMORY : CAMP_DONE; }

int32_t camp_open(camp *repository) {
    repository->is_open = true;
    return CAMP_DONE;
}

int32_t camp_open_with(camp *repository, size_t catches, size_t branches) {
    (void)catches, (void)branches;
    return camp_open(repository);
}

int32_t camp_ask(camp *repository, const uint8_t *text, size_t length) {
    (void)repository, (void)text;
    return ask(length);
}

size_t camp_answer_length(camp *repository) {
    (void)repository;
    return 0;
}

size_t camp_answer(camp *repository, uint8_t *buffer, size_t length) {
    (void)repository, (void)buffer, (void)length;
    return 0;
}

size_t camp_executed(camp *repository) {
    (void)repository;
    return 0;
}

const uint8_t *camp_answer_bytes(camp *repository, size_t *length) {
    (void)repository;
    *length = 0;
    return NULL;
}

void camp_close(camp *repository) { repository->is_open = false; }

int32_t camp_look(camp *repository, camp_view *view) {
    view->is_open = repository->is_open;
    return CAMP_DONE;
}

int32_t camp_view_ask(camp_view *view, const uint8_t *text, size_t length) {
    (void)view, (void)text;
    return ask(length);
}

size_t camp_view_answer_length(camp_view *view) {
    (void)view;
    return 0;
}

size_t camp_view_answer(camp_view *view, uint8_t *buffer, size_t length) {
    (void)view, (void)buffer, (void)length;
    return 0;
}

const uint8_t *camp_view_answer_bytes(camp_view *view, size_t *length) {
    (void)view;
    *length = 0;
    return NULL;
}

int32_t camp_view_again(camp_view *view, camp_view *other) {
    other->is_open = view->is_open;
    return CAMP_DONE;
}

void camp_view_close(camp_view *view) { view->is_open = false; }

int32_t camp_member_open(camp_member *member, uint64_t seat_high, uint64_t seat_low, const uint8_t *title, size_t length) {
    (void)seat_high, (void)seat_low, (void)title, (void)length;
    member->is_open = true;
    return CAMP_DONE;
}

int32_t camp_member_take_seat(camp_member *member, uint64_t seat_high, uint64_t seat_low) {
    (void)member, (void)seat_high, (void)seat_low;
    return CAMP_DONE;
}

int32_t camp_member_ask(camp_member *member, uint64_t request, const uint8_t *text, size_t length, uint64_t at_least) {
    (void)member, (void)request, (void)text, (void)at_least;
    return ask(length);
}

int32_t camp_member_want(camp_member *member) {
    (void)member;
    return CAMP_NOTHING;
}

int32_t camp_member_found(camp_member *member, size_t index, const uint8_t *text, size_t length) {
    (void)member, (void)index, (void)text;
    return ask(length);
}

int32_t camp_member_restore(camp_member *member, size_t index, const uint8_t *text, size_t length) {
    (void)member, (void)index, (void)text;
    return ask(length);
}

int32_t camp_member_refused(camp_member *member) {
    (void)member;
    return CAMP_DONE;
}

int32_t camp_member_ended(camp_member *member, size_t index) {
    (void)member, (void)index;
    return CAMP_DONE;
}

int32_t camp_member_answer(camp_member *member) {
    (void)member;
    return CAMP_NOTHING;
}

int32_t camp_member_call(camp_member *member, size_t index) {
    (void)member, (void)index;
    return CAMP_NOTHING;
}

uint64_t camp_member_number(camp_member *member) {
    (void)member;
    return 0;
}

size_t camp_member_text_length(camp_member *member) {
    (void)member;
    return 0;
}

size_t camp_member_text(camp_member *member, uint8_t *buffer, size_t length) {
    (void)member, (void)buffer, (void)length;
    return 0;
}

size_t camp_member_index(camp_member *member) {
    (void)member;
    return 1;
}

uint64_t camp_member_accepted(camp_member *member) {
    (void)member;
    return 0;
}

int32_t camp_member_look(camp_member *member, camp_view *view) {
    view->is_open = member->is_open;
    return CAMP_DONE;
}

void camp_member_close(camp_member *member) { member->is_open = false; }
