/*
 * Calls every entry of the core and checks what it gets, the machines' under each profile; then says how much stack the calls took. tools/link
 * builds and runs it, as C and as C++.
 */
#define _XOPEN_SOURCE 700

#include "catkhize.h"

#include <stdio.h>
#include <stdlib.h>
#include <string.h>
#include <ucontext.h>

#define FILLING 0xa5

static unsigned checks;
static unsigned failures;

/* A profile, and how long a receiver and a sender of it wait. */
struct profile {
    uint8_t number;
    uint64_t receiver_waits, sender_waits;
};

static const struct profile profiles[2] = {{1, 300000u, 330000u}, {2, 120000u, 150000u}};

/* The one that machines are made with. */
static const struct profile *own = profiles;

#define CHECK(condition)                                                             \
    do {                                                                             \
        checks++;                                                                    \
        if (!(condition)) {                                                          \
            failures++;                                                              \
            printf("line %d, profile %u: %s\n", __LINE__, own->number, #condition);  \
        }                                                                            \
    } while (0)

static uint8_t record[CATKHIZE_RECEIVER_OCTETS];
static uint8_t sender[CATKHIZE_SENDER_OCTETS];
static uint8_t plan[CATKHIZE_PLAN_OCTETS];
static uint8_t frozen[CATKHIZE_PLAN_OCTETS];
static uint8_t heads[CATKHIZE_HEADS_OCTETS];
static uint8_t store[CATKHIZE_STORE_OCTETS + 8u];
static uint8_t output[CATKHIZE_STORE_OCTETS];
static uint8_t answer[96];

static const uint8_t message[7] = {0x30, 0x31, 0x32, 0x33, 0x34, 0x35, 0x36};

/* Every octet of a buffer is A5. */
static int untouched(const uint8_t *octets, size_t count) {
    size_t i;
    for (i = 0; i < count; i++) {
        if (octets[i] != FILLING) {
            return 0;
        }
    }
    return 1;
}

static int zero(const uint8_t *octets, size_t count) {
    size_t i;
    for (i = 0; i < count; i++) {
        if (octets[i] != 0) {
            return 0;
        }
    }
    return 1;
}

/* A REPLY, or a RECEPTION, has a response with this status and a map of so many entries, and these figures beside it. */
static int says(const uint8_t *reply, uint8_t status, unsigned entries, unsigned missing, unsigned first) {
    const uint8_t *response = reply + CATKHIZE_REPLY_AT_RESPONSE;
    return reply[CATKHIZE_REPLY_AT_PRESENT] == 1 && response[CATKHIZE_RESPONSE_AT_STATUS] == status
        && catkhize_get16(response + CATKHIZE_RESPONSE_AT_ENTRIES) == entries && catkhize_get16(reply + CATKHIZE_REPLY_AT_MISSING) == missing
        && catkhize_get16(reply + CATKHIZE_REPLY_AT_FIRST_MISSING) == first;
}

static void fill(uint8_t *octets, size_t count) { memset(octets, FILLING, count); }

/* A SEGMENT without parameters. */
static void segment_of(uint8_t *segment, uint8_t transaction, uint8_t sequence, uint8_t kind) {
    memset(segment, 0, CATKHIZE_SEGMENT_OCTETS);
    segment[CATKHIZE_SEGMENT_AT_TRANSACTION] = transaction;
    segment[CATKHIZE_SEGMENT_AT_SEQUENCE] = sequence;
    segment[CATKHIZE_SEGMENT_AT_KIND] = kind;
}

/* A SEGMENT of a Begin that asks for a window. */
static void begin_of(uint8_t *segment, uint8_t transaction, uint8_t window) {
    segment_of(segment, transaction, 0, CATKHIZE_KIND_BEGIN);
    segment[CATKHIZE_SEGMENT_AT_SERVICES_PRESENT] = 1;
    segment[CATKHIZE_SEGMENT_AT_WINDOW] = window;
}

static void test_numbers(void) {
    uint8_t octets[8];
    CHECK(CATKHIZE_REFUSED_FIELD_BEGIN_SEQUENCE_NUMBER == 1539u);
    CHECK(CATKHIZE_REFUSED_CLOSED == 9728u);
    CHECK(CATKHIZE_REFUSED_EXCEPTIONS_WINDOW == 6400u);
    CHECK(CATKHIZE_REFUSED_OTHER_PATTERN == 6656u);
    CHECK(CATKHIZE_REFUSED_ORDER_NUMBER == 7168u && CATKHIZE_REFUSED_OUTPUT_TOO_SHORT == 15616u);
    CHECK(CATKHIZE_REFUSED_PROFILE == 16384u && !CATKHIZE_IS_OWN_REFUSAL(CATKHIZE_REFUSED_PROFILE));
    CHECK(CATKHIZE_PROFILE_1 == 1u && CATKHIZE_PROFILE_2 == 2u);
    CHECK(CATKHIZE_REFUSAL_N(1539u) == 6u && CATKHIZE_REFUSAL_M(1539u) == 3u);
    CHECK(CATKHIZE_IS_REFUSAL(CATKHIZE_REFUSED_VERSION) && !CATKHIZE_IS_REFUSAL(CATKHIZE_NOTHING));
    CHECK(CATKHIZE_REFUSED_BUFFER_TOO_SHORT == 65536u);
    CHECK(CATKHIZE_REFUSED_BUFFER_SPELLS_NONE == 65792u);
    CHECK(CATKHIZE_REFUSED_NUMBER_NAMES_NONE == 66048u);
    CHECK(CATKHIZE_REFUSAL_N(65792u) == 257u && CATKHIZE_REFUSAL_M(65792u) == 0u);
    CHECK(CATKHIZE_IS_OWN_REFUSAL(CATKHIZE_REFUSED_BUFFER_TOO_SHORT) && !CATKHIZE_IS_OWN_REFUSAL(CATKHIZE_REFUSED_TICKETS));
    CHECK(!CATKHIZE_IS_OWN_REFUSAL(CATKHIZE_NOTHING) && !CATKHIZE_IS_OWN_REFUSAL(CATKHIZE_REFUSAL(255, 255)));
    catkhize_put64(octets, 0x0123456789abcdefu);
    CHECK(octets[0] == 0x01 && octets[7] == 0xef);
    CHECK(catkhize_get64(octets) == 0x0123456789abcdefu);
    CHECK(catkhize_get32(octets) == 0x01234567u && catkhize_get16(octets + 2) == 0x4567u);
}

/* Where the parts of an answer stand, one behind another; sizes, versions and offsets of the records. */
static void test_layouts(void) {
    CHECK(CATKHIZE_REPLY_AT_MISSING == CATKHIZE_REPLY_AT_RESPONSE + CATKHIZE_RESPONSE_OCTETS);
    CHECK(CATKHIZE_REPLY_AT_FIRST_MISSING == CATKHIZE_REPLY_AT_MISSING + 2u);
    CHECK(CATKHIZE_REPLY_OCTETS == CATKHIZE_REPLY_AT_FIRST_MISSING + 2u);
    CHECK(CATKHIZE_RECEPTION_AT_PRESENT == 0u && CATKHIZE_RECEPTION_AT_RESPONSE == 1u);
    CHECK(CATKHIZE_RECEPTION_AT_MISSING == 42u && CATKHIZE_RECEPTION_AT_FIRST_MISSING == 44u);
    CHECK(CATKHIZE_RECEPTION_AT_HANDED_OVER == 46u && CATKHIZE_RECEPTION_AT_MESSAGE_OCTETS == 47u);
    CHECK(CATKHIZE_RECEPTION_OCTETS == CATKHIZE_RECEPTION_AT_MESSAGE_OCTETS + 8u);
    CHECK(CATKHIZE_TRAIN_OCTETS == CATKHIZE_TRAIN_AT_RECEPTION + CATKHIZE_RECEPTION_OCTETS);
    CHECK(CATKHIZE_NONE_MISSING == 256u);
    CHECK(CATKHIZE_RECEIVER_OCTETS == 3931u && CATKHIZE_RECEIVER_LAYOUT_VERSION == 2u);
    CHECK(CATKHIZE_PLAN_OCTETS == 5958u && CATKHIZE_PLAN_LAYOUT_VERSION == 1u);
    CHECK(CATKHIZE_SENDER_OCTETS == 6131u && CATKHIZE_SENDER_LAYOUT_VERSION == 2u);
    CHECK(CATKHIZE_RECEIVER_AT_TRANSACTION == 13u && CATKHIZE_RECEIVER_AT_VERSION == 14u && CATKHIZE_RECEIVER_AT_PROFILE == 15u);
    CHECK(CATKHIZE_RECEIVER_AT_MAXIMUM == 16u && CATKHIZE_RECEIVER_AT_STATE == 24u && CATKHIZE_RECEIVER_AT_STATUS == 25u);
    CHECK(CATKHIZE_RECEIVER_AT_COMPRESSION == 26u && CATKHIZE_RECEIVER_AT_WINDOW == 27u && CATKHIZE_RECEIVER_AT_CRC_STATUS == 28u);
    CHECK(CATKHIZE_RECEIVER_AT_END_KNOWN == 29u && CATKHIZE_RECEIVER_AT_END == 30u);
    CHECK(CATKHIZE_RECEIVER_AT_LENGTH_STATED == 31u && CATKHIZE_RECEIVER_AT_LENGTH == 32u && CATKHIZE_RECEIVER_AT_STORED_OCTETS == 34u);
    CHECK(CATKHIZE_RECEIVER_AT_DEADLINE_RUNS == 42u && CATKHIZE_RECEIVER_AT_DEADLINE == 43u && CATKHIZE_RECEIVER_AT_LAST_READING == 51u);
    CHECK(CATKHIZE_RECEIVER_AT_HELD == 59u && CATKHIZE_RECEIVER_AT_DATA_LENGTHS == 91u && CATKHIZE_RECEIVER_AT_SLOTS == 603u);
    CHECK(CATKHIZE_SENDER_AT_VERSION == 13u && CATKHIZE_SENDER_AT_PROFILE == 14u && CATKHIZE_SENDER_AT_NUMBER == 15u);
    CHECK(CATKHIZE_SENDER_AT_STATE == 23u && CATKHIZE_SENDER_AT_SUBMISSION_PRESENT == 27u && CATKHIZE_SENDER_AT_SUBMISSION_TICKET == 28u);
    CHECK(CATKHIZE_SENDER_AT_SUBMISSION_INDEX == 36u && CATKHIZE_SENDER_AT_SUBMISSION_PREPARED == 37u && CATKHIZE_SENDER_AT_LAST_TICKET == 45u);
    CHECK(CATKHIZE_SENDER_AT_SUBMITTED == 53u && CATKHIZE_SENDER_AT_RETRY == 85u && CATKHIZE_SENDER_AT_RECEIVED == 117u);
    CHECK(CATKHIZE_SENDER_AT_DEADLINE_RUNS == 149u && CATKHIZE_SENDER_AT_DEADLINE == 150u && CATKHIZE_SENDER_AT_LAST_READING == 158u);
    CHECK(CATKHIZE_SENDER_AT_SUBMISSIONS == 166u && CATKHIZE_SENDER_AT_PLAN == 174u);
}

static void test_encode(void) {
    static const uint8_t data[2] = {0x41, 0x42};
    static const uint8_t expected[5] = {0x0b, 0x01, 0x02, 0x41, 0x42};
    uint8_t segment[CATKHIZE_SEGMENT_OCTETS];
    segment_of(segment, 3, 1, CATKHIZE_KIND_CONTINUE);
    fill(output, 8);
    fill(answer, sizeof answer);
    CHECK(catkhize_encode(segment, sizeof segment, data, 2, 1, output, 8, answer, sizeof answer) == CATKHIZE_DONE);
    CHECK(catkhize_get64(answer) == 5 && untouched(answer + 8, sizeof answer - 8));
    CHECK(memcmp(output, expected, 5) == 0 && untouched(output + 5, 3));

    fill(output, 8);
    fill(answer, sizeof answer);
    CHECK(catkhize_encode(segment, sizeof segment, data, 2, 1, output, 4, answer, sizeof answer) == CATKHIZE_REFUSED_OUTPUT_TOO_SHORT);
    CHECK(catkhize_encode(segment, sizeof segment, data, 2, 0, output, 8, answer, sizeof answer) == CATKHIZE_REFUSED_VERSION);
    CHECK(catkhize_encode(segment, 14, data, 2, 1, output, 8, answer, sizeof answer) == CATKHIZE_REFUSED_BUFFER_TOO_SHORT);
    CHECK(catkhize_encode(segment, sizeof segment, data, 2, 1, output, 8, answer, 7) == CATKHIZE_REFUSED_BUFFER_TOO_SHORT);
    segment[CATKHIZE_SEGMENT_AT_KIND] = 3;
    CHECK(catkhize_encode(segment, sizeof segment, data, 2, 1, output, 8, answer, sizeof answer) == CATKHIZE_REFUSED_BUFFER_SPELLS_NONE);
    segment[CATKHIZE_SEGMENT_AT_KIND] = CATKHIZE_KIND_BEGIN;
    CHECK(catkhize_encode(segment, sizeof segment, data, 2, 1, output, 8, answer, sizeof answer) == CATKHIZE_REFUSED_FIELD_BEGIN_SEQUENCE_NUMBER);
    CHECK(untouched(output, 8) && untouched(answer, sizeof answer));
}

static void test_decode(void) {
    static const uint8_t octets[6] = {0x10, 0x01, 0x00, 0x21, 0x23, 0x40};
    static const uint8_t unparsed[5] = {0x08, 0x01, 0x00, 0x20, 0x08};
    fill(answer, sizeof answer);
    CHECK(catkhize_decode(octets, 6, 1, answer, CATKHIZE_DECODED_OCTETS) == CATKHIZE_DONE);
    CHECK(answer[CATKHIZE_SEGMENT_AT_KIND] == CATKHIZE_KIND_END);
    CHECK(answer[CATKHIZE_SEGMENT_AT_CRC_KIND] == CATKHIZE_CRC_16);
    CHECK(catkhize_get32(answer + CATKHIZE_SEGMENT_AT_CRC) == 0x1234u);
    CHECK(catkhize_get64(answer + CATKHIZE_HEAD_AT_DATA_LENGTH) == 0);
    CHECK(catkhize_get64(answer + CATKHIZE_DECODED_AT_UNPARSED) == 0);
    CHECK(untouched(answer + CATKHIZE_DECODED_OCTETS, sizeof answer - CATKHIZE_DECODED_OCTETS));
    CHECK(catkhize_decode(unparsed, 5, 1, answer, CATKHIZE_DECODED_OCTETS) == CATKHIZE_DONE);
    CHECK(catkhize_get64(answer + CATKHIZE_DECODED_AT_UNPARSED) == 2);
    fill(answer, sizeof answer);
    CHECK(catkhize_decode(octets, 5, 1, answer, CATKHIZE_DECODED_OCTETS) == CATKHIZE_REFUSED_TRUNCATED);
    CHECK(catkhize_decode(octets, 6, 1, answer, CATKHIZE_DECODED_OCTETS - 1u) == CATKHIZE_REFUSED_BUFFER_TOO_SHORT);
    CHECK(untouched(answer, sizeof answer));
}

/* The plan's segments have these lengths and offsets, and there are no others. The answer is that of the last. */
static void cuts(uint8_t count, const uint64_t *lengths, const uint64_t *offsets) {
    uint8_t i;
    CHECK(catkhize_get64(plan + CATKHIZE_PLAN_AT_COUNT) == count);
    fill(answer, sizeof answer);
    CHECK(catkhize_plan_segment(plan, sizeof plan, count, answer, CATKHIZE_PART_OCTETS) == CATKHIZE_NOTHING);
    CHECK(untouched(answer, sizeof answer));
    for (i = 0; i < count; i++) {
        fill(answer, sizeof answer);
        CHECK(catkhize_plan_segment(plan, sizeof plan, i, answer, CATKHIZE_PART_OCTETS) == CATKHIZE_DONE);
        CHECK(answer[CATKHIZE_SEGMENT_AT_SEQUENCE] == i);
        CHECK(catkhize_get64(answer + CATKHIZE_HEAD_AT_DATA_LENGTH) == lengths[i]);
        CHECK(catkhize_get64(answer + CATKHIZE_PART_AT_OFFSET) == offsets[i]);
    }
}

static void test_plan(void) {
    static const uint64_t lengths[3] = {1, 3, 3};
    static const uint64_t offsets[3] = {0, 1, 4};
    fill(plan, sizeof plan);
    CHECK(catkhize_plan_message(message, 7, 7, 0, CATKHIZE_WINDOW_PROHIBITED, 1, 7, plan, sizeof plan) == CATKHIZE_NOTHING);
    CHECK(catkhize_plan_message(message, 7, 6, 0, CATKHIZE_WINDOW_PROHIBITED, 1, 5, plan, sizeof plan) == CATKHIZE_REFUSED_PAYLOAD_BUDGET);
    CHECK(catkhize_plan_message(message, 7, 3, 0, CATKHIZE_WINDOW_PROHIBITED, 1, 5, plan, sizeof plan) == CATKHIZE_REFUSED_HEADER_CAPACITY);
    CHECK(catkhize_plan_message(message, 7, 6, 0, 6, 1, 6, plan, sizeof plan) == CATKHIZE_REFUSED_NUMBER_NAMES_NONE);
    CHECK(catkhize_plan_message(message, 7, 6, 0, CATKHIZE_WINDOW_PROHIBITED, 1, 6, plan, sizeof plan - 1) == CATKHIZE_REFUSED_BUFFER_TOO_SHORT);
    CHECK(untouched(plan, sizeof plan));
    CHECK(catkhize_plan_message(message, 7, 6, 0, CATKHIZE_WINDOW_PROHIBITED, 1, 6, plan, sizeof plan) == CATKHIZE_DONE);
    CHECK(plan[0] == CATKHIZE_PLAN_LAYOUT_VERSION && plan[CATKHIZE_PLAN_AT_FORM] == CATKHIZE_PLAN_PLANNED);
    CHECK(plan[CATKHIZE_PLAN_AT_STATES_LENGTH] == 1);
    cuts(3, lengths, offsets);
    CHECK(catkhize_get16(answer + CATKHIZE_SEGMENT_AT_LENGTH) == 0 && answer[CATKHIZE_SEGMENT_AT_KIND] == CATKHIZE_KIND_END);
    fill(answer, sizeof answer);
    CHECK(catkhize_plan_segment(plan, sizeof plan, 0, answer, CATKHIZE_PART_OCTETS - 1u) == CATKHIZE_REFUSED_BUFFER_TOO_SHORT);
    plan[0] = 2;
    CHECK(catkhize_plan_segment(plan, sizeof plan, 0, answer, CATKHIZE_PART_OCTETS) == CATKHIZE_REFUSED_BUFFER_SPELLS_NONE);
    plan[0] = CATKHIZE_PLAN_LAYOUT_VERSION;
    CHECK(untouched(answer, sizeof answer));
}

/* The heads of the plan's segments. */
static void take_heads(uint8_t count) {
    uint8_t i;
    memset(heads, 0, sizeof heads);
    for (i = 0; i < count; i++) {
        CHECK(catkhize_plan_segment(plan, sizeof plan, i, answer, sizeof answer) == CATKHIZE_DONE);
        memcpy(heads + CATKHIZE_HEAD_OCTETS * i, answer, CATKHIZE_HEAD_OCTETS);
    }
}

/* The plan's own segments, given as a frozen cutting. */
static void test_frozen(void) {
    static const uint8_t other[7] = {0x30, 0x31, 0x32, 0x33, 0x34, 0x35, 0x37};
    take_heads(3);
    fill(frozen, sizeof frozen);
    CHECK(catkhize_try_from_frozen(heads, sizeof heads, 3, message, 7, other, 7, 6, 1, 6, frozen, sizeof frozen) == CATKHIZE_REFUSED_FROZEN_PLAN);
    CHECK(catkhize_try_from_frozen(heads, sizeof heads, 3, message, 6, message, 7, 6, 1, 6, frozen, sizeof frozen) == CATKHIZE_REFUSED_JOINED_LENGTH);
    CHECK(catkhize_try_from_frozen(heads, sizeof heads, 1, message, 7, message, 7, 6, 1, 6, frozen, sizeof frozen) == CATKHIZE_REFUSED_SEGMENT_COUNT);
    CHECK(catkhize_try_from_frozen(heads, sizeof heads - 1, 3, message, 7, message, 7, 6, 1, 6, frozen, sizeof frozen) == CATKHIZE_REFUSED_BUFFER_TOO_SHORT);
    CHECK(untouched(frozen, sizeof frozen));
    CHECK(catkhize_try_from_frozen(heads, sizeof heads, 3, message, 7, message, 7, 6, 1, 6, frozen, sizeof frozen) == CATKHIZE_DONE);
    CHECK(frozen[CATKHIZE_PLAN_AT_FORM] == CATKHIZE_PLAN_FROZEN);
    CHECK(catkhize_get64(frozen + CATKHIZE_PLAN_AT_FROZEN_COUNT) == 3);
    CHECK(memcmp(frozen + CATKHIZE_PLAN_AT_FROZEN_HEADS, heads, sizeof heads) == 0);
    CHECK(catkhize_plan_segment(frozen, sizeof frozen, 2, answer, sizeof answer) == CATKHIZE_DONE);
    CHECK(catkhize_get64(answer + CATKHIZE_PART_AT_OFFSET) == 4);
}

static const uint8_t eight[8] = {0x30, 0x31, 0x32, 0x33, 0x34, 0x35, 0x36, 0x37};
static const uint64_t even_lengths[4] = {1, 3, 2, 2};
static const uint64_t even_offsets[4] = {0, 1, 4, 6};

/* The even planner refuses as the other does, and cuts into as many segments with the same Begin. */
static void test_even(void) {
    static const uint64_t lengths[4] = {1, 3, 3, 1};
    static const uint64_t offsets[4] = {0, 1, 4, 7};
    uint8_t begin[CATKHIZE_PART_OCTETS];
    fill(plan, sizeof plan);
    CHECK(catkhize_plan_even(eight, 8, 8, 0, CATKHIZE_WINDOW_PROHIBITED, 1, 8, plan, sizeof plan) == CATKHIZE_NOTHING);
    CHECK(catkhize_plan_even(eight, 8, 6, 0, CATKHIZE_WINDOW_PROHIBITED, 1, 5, plan, sizeof plan) == CATKHIZE_REFUSED_PAYLOAD_BUDGET);
    CHECK(catkhize_plan_even(eight, 8, 6, 0, CATKHIZE_WINDOW_PROHIBITED, 0, 6, plan, sizeof plan) == CATKHIZE_REFUSED_VERSION);
    CHECK(catkhize_plan_even(eight, 8, 6, 8, CATKHIZE_WINDOW_PROHIBITED, 1, 6, plan, sizeof plan) == CATKHIZE_REFUSED_FIELD_TRANSACTION_ID);
    CHECK(catkhize_plan_even(eight, 8, 3, 0, CATKHIZE_WINDOW_PROHIBITED, 1, 6, plan, sizeof plan) == CATKHIZE_REFUSED_HEADER_CAPACITY);
    CHECK(catkhize_plan_even(output, 257, 4, 0, CATKHIZE_WINDOW_PROHIBITED, 1, 6, plan, sizeof plan) == CATKHIZE_REFUSED_SEGMENT_COUNT);
    CHECK(catkhize_plan_even(eight, 8, 6, 0, 6, 1, 6, plan, sizeof plan) == CATKHIZE_REFUSED_NUMBER_NAMES_NONE);
    CHECK(catkhize_plan_even(eight, 8, 6, 0, CATKHIZE_WINDOW_PROHIBITED, 1, 6, plan, sizeof plan - 1) == CATKHIZE_REFUSED_BUFFER_TOO_SHORT);
    CHECK(untouched(plan, sizeof plan));
    CHECK(catkhize_plan_message(eight, 8, 6, 0, CATKHIZE_WINDOW_PROHIBITED, 1, 6, plan, sizeof plan) == CATKHIZE_DONE);
    CHECK(catkhize_get64(plan + CATKHIZE_PLAN_AT_LATER_CAPACITY) == 3);
    cuts(4, lengths, offsets);
    CHECK(catkhize_plan_segment(plan, sizeof plan, 0, begin, sizeof begin) == CATKHIZE_DONE);
    fill(plan, sizeof plan);
    CHECK(catkhize_plan_even(eight, 8, 6, 0, CATKHIZE_WINDOW_PROHIBITED, 1, 6, plan, sizeof plan) == CATKHIZE_DONE);
    CHECK(plan[0] == CATKHIZE_PLAN_LAYOUT_VERSION && plan[CATKHIZE_PLAN_AT_FORM] == CATKHIZE_PLAN_PLANNED);
    CHECK(catkhize_get64(plan + CATKHIZE_PLAN_AT_LATER_CAPACITY) == 2);
    cuts(4, even_lengths, even_offsets);
    CHECK(answer[CATKHIZE_SEGMENT_AT_KIND] == CATKHIZE_KIND_END);
    CHECK(catkhize_plan_segment(plan, sizeof plan, 0, answer, sizeof answer) == CATKHIZE_DONE && memcmp(answer, begin, sizeof begin) == 0);
}

typedef uint32_t planner(const uint8_t *, size_t, uint64_t, uint8_t, uint8_t, uint8_t, uint64_t, uint8_t *, size_t);

/* 25 of a planner, behind 256, 258, 20 and 'nothing to plan' and before 1, 6/1, 21 and 22, which Last has in its place. */
static void refuses_exceptions(planner *plans) {
    const uint8_t exceptions = CATKHIZE_WINDOW_EXCEPTIONS;
    const uint8_t last = CATKHIZE_WINDOW_LAST;
    uint8_t window;
    fill(plan, sizeof plan);
    CHECK(plans(eight, 8, 7, 8, exceptions, 0, 6, plan, sizeof plan - 1) == CATKHIZE_REFUSED_BUFFER_TOO_SHORT);
    CHECK(plans(eight, 8, 7, 8, 6, 0, 6, plan, sizeof plan) == CATKHIZE_REFUSED_NUMBER_NAMES_NONE);
    CHECK(plans(eight, 8, 7, 2, exceptions, 1, 6, plan, sizeof plan) == CATKHIZE_REFUSED_PAYLOAD_BUDGET);
    CHECK(plans(eight, 8, 8, 2, exceptions, 1, 8, plan, sizeof plan) == CATKHIZE_NOTHING);
    CHECK(plans(eight, 8, 8, 8, exceptions, 0, 8, plan, sizeof plan) == CATKHIZE_NOTHING);
    CHECK(plans(eight, 8, 7, 2, exceptions, 1, 7, plan, sizeof plan) == CATKHIZE_REFUSED_EXCEPTIONS_WINDOW);
    CHECK(plans(eight, 8, 7, 2, last, 0, 7, plan, sizeof plan) == CATKHIZE_REFUSED_VERSION);
    CHECK(plans(eight, 8, 7, 2, exceptions, 0, 7, plan, sizeof plan) == CATKHIZE_REFUSED_EXCEPTIONS_WINDOW);
    CHECK(plans(eight, 8, 7, 8, last, 1, 7, plan, sizeof plan) == CATKHIZE_REFUSED_FIELD_TRANSACTION_ID);
    CHECK(plans(eight, 8, 7, 8, exceptions, 1, 7, plan, sizeof plan) == CATKHIZE_REFUSED_EXCEPTIONS_WINDOW);
    CHECK(plans(eight, 8, 4, 2, last, 1, 7, plan, sizeof plan) == CATKHIZE_REFUSED_HEADER_CAPACITY);
    CHECK(plans(eight, 8, 4, 2, exceptions, 1, 7, plan, sizeof plan) == CATKHIZE_REFUSED_EXCEPTIONS_WINDOW);
    CHECK(plans(output, 511, 5, 2, last, 1, 7, plan, sizeof plan) == CATKHIZE_REFUSED_SEGMENT_COUNT);
    CHECK(plans(output, 511, 5, 2, exceptions, 1, 7, plan, sizeof plan) == CATKHIZE_REFUSED_EXCEPTIONS_WINDOW);
    CHECK(untouched(plan, sizeof plan));
    for (window = 0; window < exceptions; window++) {
        CHECK(plans(eight, 8, 7, 2, window, 1, 7, plan, sizeof plan) == CATKHIZE_DONE && plan[CATKHIZE_PLAN_AT_WINDOW] == window);
    }
}

static void test_exceptions(void) {
    refuses_exceptions(catkhize_plan_message);
    refuses_exceptions(catkhize_plan_even);
}

static uint8_t begin_only[CATKHIZE_PLAN_OCTETS];
static uint8_t every[CATKHIZE_PLAN_OCTETS];
static uint8_t converted[CATKHIZE_PLAN_OCTETS];

/* Head i states the length of the message, or states none. */
static void state_length(uint8_t i, uint8_t stated) {
    uint8_t *head = heads + CATKHIZE_HEAD_OCTETS * i;
    head[CATKHIZE_SEGMENT_AT_LENGTH_STATED] = stated;
    catkhize_put16(head + CATKHIZE_SEGMENT_AT_LENGTH, stated ? 7 : 0);
}

/* The message in segments of 1, 3 and 3 octets under Last: frozen plans in both dialects, and the heads of the second. */
static void two_dialects(void) {
    CHECK(catkhize_plan_message(message, 7, 6, 2, CATKHIZE_WINDOW_PROHIBITED, 1, 6, plan, sizeof plan) == CATKHIZE_DONE);
    take_heads(3);
    heads[CATKHIZE_SEGMENT_AT_SERVICES_PRESENT] = 1;
    heads[CATKHIZE_SEGMENT_AT_WINDOW] = CATKHIZE_WINDOW_LAST;
    CHECK(catkhize_try_from_frozen(heads, sizeof heads, 3, message, 7, message, 7, 8, 1, 8, begin_only, sizeof begin_only) == CATKHIZE_DONE);
    state_length(1, 1);
    state_length(2, 1);
    CHECK(catkhize_try_from_frozen(heads, sizeof heads, 3, message, 7, message, 7, 8, 1, 8, every, sizeof every) == CATKHIZE_DONE);
}

/* Converts 3 segments of the message. */
static uint32_t convert(const uint8_t *of, uint64_t budget, uint8_t dialect, uint8_t *to) {
    fill(to, CATKHIZE_PLAN_OCTETS);
    return catkhize_convert(of, CATKHIZE_HEADS_OCTETS, 3, message, 7, message, 7, budget, 1, 8, dialect, to, CATKHIZE_PLAN_OCTETS);
}

/* Both ways and back, by whole plans. */
static void test_convert(void) {
    two_dialects();
    CHECK(memcmp(begin_only, every, sizeof every) != 0);
    CHECK(convert(begin_only + CATKHIZE_PLAN_AT_FROZEN_HEADS, 8, CATKHIZE_DIALECT_BEGIN_ONLY, converted) == CATKHIZE_DONE);
    CHECK(memcmp(converted, every, sizeof every) == 0);
    CHECK(convert(converted + CATKHIZE_PLAN_AT_FROZEN_HEADS, 8, CATKHIZE_DIALECT_EVERY, plan) == CATKHIZE_DONE);
    CHECK(memcmp(plan, begin_only, sizeof begin_only) == 0);
    CHECK(convert(every + CATKHIZE_PLAN_AT_FROZEN_HEADS, 8, CATKHIZE_DIALECT_EVERY, converted) == CATKHIZE_DONE);
    CHECK(memcmp(converted, begin_only, sizeof begin_only) == 0);
    CHECK(convert(converted + CATKHIZE_PLAN_AT_FROZEN_HEADS, 8, CATKHIZE_DIALECT_BEGIN_ONLY, plan) == CATKHIZE_DONE);
    CHECK(memcmp(plan, every, sizeof every) == 0);
    CHECK(plan[0] == CATKHIZE_PLAN_LAYOUT_VERSION && plan[CATKHIZE_PLAN_AT_FORM] == CATKHIZE_PLAN_FROZEN);
    CHECK(catkhize_plan_segment(plan, sizeof plan, 2, answer, sizeof answer) == CATKHIZE_DONE);
    CHECK(answer[CATKHIZE_SEGMENT_AT_LENGTH_STATED] == 1 && catkhize_get16(answer + CATKHIZE_SEGMENT_AT_LENGTH) == 7);
    CHECK(catkhize_get64(answer + CATKHIZE_HEAD_AT_DATA_LENGTH) == 3 && catkhize_get64(answer + CATKHIZE_PART_AT_OFFSET) == 4);

    /* A head past the count comes out empty. */
    memcpy(heads + 3u * CATKHIZE_HEAD_OCTETS, heads + CATKHIZE_HEAD_OCTETS, CATKHIZE_HEAD_OCTETS);
    CHECK(convert(heads, 8, CATKHIZE_DIALECT_EVERY, converted) == CATKHIZE_DONE);
    CHECK(memcmp(converted, begin_only, sizeof begin_only) == 0);

    /* A planner's train, whose budget is 6. */
    CHECK(catkhize_plan_message(message, 7, 6, 2, CATKHIZE_WINDOW_PROHIBITED, 1, 6, plan, sizeof plan) == CATKHIZE_DONE);
    take_heads(3);
    CHECK(convert(heads, 6, CATKHIZE_DIALECT_BEGIN_ONLY, converted) == CATKHIZE_REFUSED_PAYLOAD_BUDGET && untouched(converted, sizeof converted));
    CHECK(convert(heads, 7, CATKHIZE_DIALECT_BEGIN_ONLY, converted) == CATKHIZE_REFUSED_PAYLOAD_BUDGET && untouched(converted, sizeof converted));
    CHECK(convert(heads, 8, CATKHIZE_DIALECT_BEGIN_ONLY, converted) == CATKHIZE_DONE);
    CHECK(catkhize_get64(converted + CATKHIZE_PLAN_AT_FROZEN_BUDGET) == 8);
}

/* Every pattern of lengths that 3 segments state: each dialect has one, and all others are refused with 26. */
static void test_patterns(void) {
    uint8_t dialect, pattern, i;
    two_dialects();
    for (dialect = CATKHIZE_DIALECT_BEGIN_ONLY; dialect <= CATKHIZE_DIALECT_EVERY; dialect++) {
        for (pattern = 0; pattern < 8; pattern++) {
            for (i = 0; i < 3; i++) {
                state_length(i, pattern >> i & 1);
            }
            if (pattern == (dialect == CATKHIZE_DIALECT_EVERY ? 7 : 1)) {
                CHECK(convert(heads, 8, dialect, converted) == CATKHIZE_DONE);
                CHECK(memcmp(converted, dialect == CATKHIZE_DIALECT_EVERY ? begin_only : every, sizeof converted) == 0);
            } else {
                CHECK(convert(heads, 8, dialect, converted) == CATKHIZE_REFUSED_OTHER_PATTERN);
                CHECK(untouched(converted, sizeof converted));
            }
        }
    }
}

/* Converting the heads is refused so under a ceiling of 8, and the plan is as it was. */
static int refuses_to_convert(uint32_t refusal, size_t heads_octets, uint64_t count, size_t joined_octets, const uint8_t *of, uint64_t budget,
    uint8_t version, uint8_t dialect, size_t plan_octets) {
    fill(converted, sizeof converted);
    return catkhize_convert(heads, heads_octets, count, message, joined_octets, of, 7, budget, version, 8, dialect, converted, plan_octets) == refusal
        && untouched(converted, sizeof converted);
}

/* What a conversion is refused with, each before the next: the exports' own, the frozen check's, 26, 20. */
static void test_convert_refused(void) {
    static const uint8_t other[7] = {0x30, 0x31, 0x32, 0x33, 0x34, 0x35, 0x37};
    const size_t all = sizeof heads, whole = sizeof converted;
    uint8_t dialect;
    CHECK(catkhize_plan_message(message, 7, 6, 2, CATKHIZE_WINDOW_PROHIBITED, 1, 6, plan, sizeof plan) == CATKHIZE_DONE);
    take_heads(3);
    state_length(0, 0);
    heads[CATKHIZE_SEGMENT_AT_KIND] = 3;
    CHECK(refuses_to_convert(CATKHIZE_REFUSED_BUFFER_TOO_SHORT, all - 1, 1, 6, other, 9, 0, 2, whole));
    CHECK(refuses_to_convert(CATKHIZE_REFUSED_BUFFER_TOO_SHORT, all, 1, 6, other, 9, 0, 2, whole - 1));
    CHECK(refuses_to_convert(CATKHIZE_REFUSED_BUFFER_SPELLS_NONE, all, 1, 6, other, 9, 0, 2, whole));
    heads[CATKHIZE_SEGMENT_AT_KIND] = CATKHIZE_KIND_BEGIN;
    CHECK(refuses_to_convert(CATKHIZE_REFUSED_NUMBER_NAMES_NONE, all, 1, 6, other, 9, 0, 2, whole));
    CHECK(refuses_to_convert(CATKHIZE_REFUSED_NUMBER_NAMES_NONE, all, 1, 6, other, 9, 0, 255, whole));
    for (dialect = CATKHIZE_DIALECT_BEGIN_ONLY; dialect <= CATKHIZE_DIALECT_EVERY; dialect++) {
        CHECK(refuses_to_convert(CATKHIZE_REFUSED_PAYLOAD_BUDGET, all, 1, 6, other, 9, 0, dialect, whole));
        CHECK(refuses_to_convert(CATKHIZE_REFUSED_SEGMENT_COUNT, all, 1, 6, other, 6, 0, dialect, whole));
        CHECK(refuses_to_convert(CATKHIZE_REFUSED_JOINED_LENGTH, all, 3, 6, other, 6, 0, dialect, whole));
        CHECK(refuses_to_convert(CATKHIZE_REFUSED_VERSION, all, 3, 7, other, 6, 0, dialect, whole));
        CHECK(refuses_to_convert(CATKHIZE_REFUSED_FROZEN_PLAN, all, 3, 7, other, 6, 1, dialect, whole));
        CHECK(refuses_to_convert(CATKHIZE_REFUSED_PAYLOAD_BUDGET, all, 3, 7, message, 5, 1, dialect, whole));
        CHECK(refuses_to_convert(CATKHIZE_REFUSED_OTHER_PATTERN, all, 3, 7, message, 6, 1, dialect, whole));
    }
    state_length(0, 1);
    CHECK(refuses_to_convert(CATKHIZE_REFUSED_OTHER_PATTERN, all, 3, 7, message, 6, 1, CATKHIZE_DIALECT_EVERY, whole));
    CHECK(refuses_to_convert(CATKHIZE_REFUSED_PAYLOAD_BUDGET, all, 3, 7, message, 6, 1, CATKHIZE_DIALECT_BEGIN_ONLY, whole));
}

static uint8_t order[9];

/* How many orders 2 to 6 segments have. */
static const uint64_t order_counts[5] = {1, 2, 6, 24, 120};

/* Writes an order to so many octets of a filled buffer. */
static uint32_t deliver(uint8_t segments, uint64_t number, size_t octets) {
    fill(order, sizeof order);
    return catkhize_delivery_order(segments, number, order, octets);
}

static void swap(uint8_t *one, uint8_t *other) {
    const uint8_t octet = *one;
    *one = *other;
    *other = octet;
}

/* Turns an order into the next one in lexicographic order, the Begin staying first; 0 where there is none. */
static int next_order(uint8_t *of, size_t segments) {
    size_t from = segments - 1, to = segments - 1, greater = segments - 1;
    while (from > 1 && of[from - 1] > of[from]) {
        from--;
    }
    if (from == 1) {
        return 0;
    }
    while (of[greater] < of[from - 1]) {
        greater--;
    }
    swap(of + from - 1, of + greater);
    for (; from < to; from++, to--) {
        swap(of + from, of + to);
    }
    return 1;
}

/* All orders of 2 to 6 segments, counted up until 28, in an output with octets to spare and in one without. */
static void test_orders(void) {
    uint8_t segments;
    for (segments = 2; segments <= 6; segments++) {
        uint8_t expected[6] = {0, 1, 2, 3, 4, 5};
        uint64_t number = 0;
        int left = 1;
        while (left && deliver(segments, number, sizeof order) == CATKHIZE_DONE) {
            CHECK(memcmp(order, expected, segments) == 0 && untouched(order + segments, sizeof order - segments));
            CHECK(deliver(segments, number, segments) == CATKHIZE_DONE);
            CHECK(memcmp(order, expected, segments) == 0 && untouched(order + segments, sizeof order - segments));
            left = next_order(expected, segments);
            number++;
        }
        CHECK(!left && number == order_counts[segments - 2]);
        CHECK(deliver(segments, number, sizeof order) == CATKHIZE_REFUSED_ORDER_NUMBER && untouched(order, sizeof order));
    }
}

/* An order is refused so, and the output is as it was. */
static int refuses_order(uint32_t refusal, uint8_t segments, uint64_t number, size_t octets) {
    return deliver(segments, number, octets) == refusal && untouched(order, sizeof order);
}

/* 28, for an output of any length, and after it 61. */
static void test_orders_refused(void) {
    static const uint8_t others[6] = {0, 1, 7, 8, 130, 255};
    uint8_t segments;
    size_t i, octets;
    for (octets = 0; octets <= sizeof order; octets++) {
        for (i = 0; i < sizeof others; i++) {
            CHECK(refuses_order(CATKHIZE_REFUSED_ORDER_NUMBER, others[i], 0, octets));
            CHECK(refuses_order(CATKHIZE_REFUSED_ORDER_NUMBER, others[i], UINT64_MAX, octets));
        }
        for (segments = 2; segments <= 6; segments++) {
            const uint64_t count = order_counts[segments - 2];
            CHECK(refuses_order(CATKHIZE_REFUSED_ORDER_NUMBER, segments, count, octets));
            CHECK(refuses_order(CATKHIZE_REFUSED_ORDER_NUMBER, segments, (uint64_t)1 << 8, octets));
            CHECK(refuses_order(CATKHIZE_REFUSED_ORDER_NUMBER, segments, (uint64_t)1 << 16, octets));
            CHECK(refuses_order(CATKHIZE_REFUSED_ORDER_NUMBER, segments, (uint64_t)1 << 32, octets));
            CHECK(refuses_order(CATKHIZE_REFUSED_ORDER_NUMBER, segments, (uint64_t)1 << 63, octets));
            CHECK(refuses_order(CATKHIZE_REFUSED_ORDER_NUMBER, segments, UINT64_MAX, octets));
            if (octets < segments) {
                CHECK(refuses_order(CATKHIZE_REFUSED_OUTPUT_TOO_SHORT, segments, 0, octets));
                CHECK(refuses_order(CATKHIZE_REFUSED_OUTPUT_TOO_SHORT, segments, count - 1, octets));
            }
        }
    }
}

#define PEER 0, 34, 5
#define PROTOCOL CATKHIZE_PROTOCOL_SEGMENTED, 1

static uint32_t receive(const uint8_t *segment, const uint8_t *data, size_t octets, uint64_t reading) {
    fill(answer, sizeof answer);
    return catkhize_receiver_receive(record, sizeof record, store, sizeof store, output, sizeof output, PEER, PROTOCOL, segment,
        CATKHIZE_SEGMENT_OCTETS, data, octets, 0, reading, answer, sizeof answer);
}

static void new_receiver(uint64_t reading) {
    fill(record, sizeof record);
    fill(store, sizeof store);
    fill(output, sizeof output);
    CHECK(catkhize_receiver_new(record, sizeof record, PEER, PROTOCOL, 2, 1, own->number, CATKHIZE_STORE_OCTETS, reading) == CATKHIZE_DONE);
    CHECK(record[CATKHIZE_RECEIVER_AT_PROFILE] == own->number);
    CHECK(record[CATKHIZE_RECEIVER_AT_STATE] == CATKHIZE_RECEIVER_AWAITING_BEGIN);
    CHECK(untouched(store, sizeof store) && untouched(output, sizeof output));
}

static void test_receiver(void) {
    uint8_t segment[CATKHIZE_SEGMENT_OCTETS];
    fill(record, sizeof record);
    CHECK(catkhize_receiver_new(record, sizeof record, 0, 34, 0, PROTOCOL, 2, 1, own->number, 100, 0) == CATKHIZE_REFUSED_IDENTITY);
    CHECK(catkhize_receiver_new(record, sizeof record, PEER, CATKHIZE_PROTOCOL_OTHER, 0, 2, 1, own->number, 100, 0) == CATKHIZE_REFUSED_SERVICE);
    CHECK(catkhize_receiver_new(record, sizeof record, PEER, 3, 0, 2, 1, own->number, 100, 0) == CATKHIZE_REFUSED_NUMBER_NAMES_NONE);
    CHECK(catkhize_receiver_new(record, sizeof record - 1, PEER, PROTOCOL, 2, 1, own->number, 100, 0) == CATKHIZE_REFUSED_BUFFER_TOO_SHORT);
    CHECK(untouched(record, sizeof record));

    new_receiver(1000);
    segment_of(segment, 2, 1, CATKHIZE_KIND_END);
    CHECK(receive(segment, message + 4, 3, 1000) == CATKHIZE_REFUSED_BEGIN_REQUIRED);
    CHECK(untouched(answer, sizeof answer) && untouched(store, sizeof store));
    begin_of(segment, 2, CATKHIZE_WINDOW_LAST);
    CHECK(receive(segment, message, 4, 1000) == CATKHIZE_DONE);
    CHECK(zero(answer, CATKHIZE_RECEPTION_OCTETS));
    CHECK(untouched(answer + CATKHIZE_RECEPTION_OCTETS, sizeof answer - CATKHIZE_RECEPTION_OCTETS));
    CHECK(memcmp(store, message, 4) == 0 && untouched(store + 4, sizeof store - 4));
    CHECK(record[CATKHIZE_RECEIVER_AT_STATE] == CATKHIZE_RECEIVER_RECEIVING);
    CHECK(catkhize_get64(record + CATKHIZE_RECEIVER_AT_STORED_OCTETS) == 4);
    CHECK(record[CATKHIZE_RECEIVER_AT_DEADLINE_RUNS] == 1);
    CHECK(catkhize_get64(record + CATKHIZE_RECEIVER_AT_DEADLINE) == 1000 + own->receiver_waits);
    CHECK(catkhize_entry(record + CATKHIZE_RECEIVER_AT_HELD, 0) && !catkhize_entry(record + CATKHIZE_RECEIVER_AT_HELD, 1));
    segment_of(segment, 2, 1, CATKHIZE_KIND_END);
    CHECK(receive(segment, message + 4, 3, 2000) == CATKHIZE_DONE);
    CHECK(answer[CATKHIZE_RECEPTION_AT_PRESENT] == 1);
    CHECK(answer[CATKHIZE_RECEPTION_AT_RESPONSE + CATKHIZE_RESPONSE_AT_STATUS] == CATKHIZE_STATUS_RECEIVED);
    CHECK(catkhize_get16(answer + CATKHIZE_RECEPTION_AT_RESPONSE + CATKHIZE_RESPONSE_AT_ENTRIES) == 2);
    CHECK(catkhize_entry(answer + CATKHIZE_RECEPTION_AT_RESPONSE + CATKHIZE_RESPONSE_AT_MAP, 1));
    CHECK(catkhize_get16(answer + CATKHIZE_RECEPTION_AT_MISSING) == 0);
    CHECK(catkhize_get16(answer + CATKHIZE_RECEPTION_AT_FIRST_MISSING) == CATKHIZE_NONE_MISSING);
    CHECK(answer[CATKHIZE_RECEPTION_AT_HANDED_OVER] == 1);
    CHECK(catkhize_get64(answer + CATKHIZE_RECEPTION_AT_MESSAGE_OCTETS) == 7);
    CHECK(memcmp(output, message, 7) == 0 && untouched(output + 7, sizeof output - 7));
    CHECK(record[CATKHIZE_RECEIVER_AT_STATE] == CATKHIZE_RECEIVER_COMPLETE);
    CHECK(catkhize_receiver_cancel(record, sizeof record, store, sizeof store, 2000) == CATKHIZE_REFUSED_CLOSED);
    CHECK(catkhize_receiver_cancel(record, sizeof record, store, CATKHIZE_STORE_OCTETS - 1u, 2000) == CATKHIZE_REFUSED_STORE_TOO_SHORT);
    record[CATKHIZE_RECEIVER_AT_STORED_OCTETS + 7] = 8;
    CHECK(catkhize_receiver_cancel(record, sizeof record, store, sizeof store, 2000) == CATKHIZE_REFUSED_IMPOSSIBLE_STATE);
}

static void test_receiver_time(void) {
    uint8_t segment[CATKHIZE_SEGMENT_OCTETS];
    new_receiver(0);
    begin_of(segment, 2, CATKHIZE_WINDOW_EVERY4);
    CHECK(receive(segment, message, 1, 0) == CATKHIZE_DONE);
    fill(answer, sizeof answer);
    CHECK(catkhize_receiver_advance(record, sizeof record, store, sizeof store, own->receiver_waits - 1, answer, sizeof answer) == CATKHIZE_DONE);
    CHECK(zero(answer, CATKHIZE_REPLY_OCTETS) && untouched(answer + CATKHIZE_REPLY_OCTETS, sizeof answer - CATKHIZE_REPLY_OCTETS));
    fill(answer, sizeof answer);
    CHECK(catkhize_receiver_advance(record, sizeof record, store, sizeof store, own->receiver_waits, answer, sizeof answer) == CATKHIZE_DONE);
    CHECK(says(answer, CATKHIZE_STATUS_INTER_SEGMENT_TIMEOUT, 2, 1, 1));
    CHECK(untouched(answer + CATKHIZE_REPLY_OCTETS, sizeof answer - CATKHIZE_REPLY_OCTETS));
    CHECK(catkhize_receiver_advance(record, sizeof record, store, sizeof store, own->receiver_waits - 1, answer, sizeof answer) == CATKHIZE_REFUSED_CLOCK_REGRESSION);
    CHECK(catkhize_receiver_cancel(record, sizeof record, store, sizeof store, own->receiver_waits) == CATKHIZE_DONE);
    CHECK(record[CATKHIZE_RECEIVER_AT_STATE] == CATKHIZE_RECEIVER_CANCELED);
    CHECK(zero(store, CATKHIZE_STORE_OCTETS) && untouched(store + CATKHIZE_STORE_OCTETS, 8));
    CHECK(receive(segment, message, 1, own->receiver_waits) == CATKHIZE_REFUSED_CLOSED);
}

static uint8_t record_before[CATKHIZE_RECEIVER_OCTETS];
static uint8_t store_before[sizeof store];

static void remember(void) {
    memcpy(record_before, record, sizeof record);
    memcpy(store_before, store, sizeof store);
}

/* Record and store are as they were remembered. */
static int as_before(void) { return memcmp(record, record_before, sizeof record) == 0 && memcmp(store, store_before, sizeof store) == 0; }

static uint32_t release(uint64_t reading) { return catkhize_receiver_release(record, sizeof record, store, sizeof store, reading); }

/* A Complete receiver at the reading 2000, whose parts are of 4 and 3 octets. Before that it cannot be released. */
static void complete_receiver(const uint8_t *begin, const uint8_t *end) {
    new_receiver(1000);
    remember();
    CHECK(release(1000) == CATKHIZE_REFUSED_CLOSED && as_before());
    CHECK(receive(begin, message, 4, 1000) == CATKHIZE_DONE);
    CHECK(record[CATKHIZE_RECEIVER_AT_STATE] == CATKHIZE_RECEIVER_RECEIVING);
    remember();
    CHECK(release(1500) == CATKHIZE_REFUSED_CLOSED && as_before());
    CHECK(release(999) == CATKHIZE_REFUSED_CLOCK_REGRESSION && as_before());
    CHECK(receive(end, message + 4, 3, 2000) == CATKHIZE_DONE);
    CHECK(record[CATKHIZE_RECEIVER_AT_STATE] == CATKHIZE_RECEIVER_COMPLETE);
    CHECK(memcmp(store, message, 4) == 0 && untouched(store + 4, 251) && memcmp(store + 255, message + 4, 3) == 0);
    CHECK(untouched(store + 258, sizeof store - 258));
}

/* What a release is refused with, on a Complete receiver: 256, 257, 60, 62, 33, each before the next. */
static void test_release_refused(void) {
    uint8_t begin[CATKHIZE_SEGMENT_OCTETS], end[CATKHIZE_SEGMENT_OCTETS];
    begin_of(begin, 2, CATKHIZE_WINDOW_LAST);
    segment_of(end, 2, 1, CATKHIZE_KIND_END);
    complete_receiver(begin, end);
    remember();
    CHECK(release(1999) == CATKHIZE_REFUSED_CLOCK_REGRESSION && as_before());
    CHECK(catkhize_receiver_release(record, sizeof record, store, CATKHIZE_STORE_OCTETS - 1u, 2000) == CATKHIZE_REFUSED_STORE_TOO_SHORT && as_before());
    CHECK(catkhize_receiver_release(record, sizeof record - 1, store, sizeof store, 2000) == CATKHIZE_REFUSED_BUFFER_TOO_SHORT && as_before());
    record[CATKHIZE_RECEIVER_AT_STORED_OCTETS + 7] = 8;
    remember();
    CHECK(release(1999) == CATKHIZE_REFUSED_IMPOSSIBLE_STATE && as_before());
    CHECK(catkhize_receiver_release(record, sizeof record, store, CATKHIZE_STORE_OCTETS - 1u, 1999) == CATKHIZE_REFUSED_STORE_TOO_SHORT && as_before());
    record[0] = 0;
    remember();
    CHECK(catkhize_receiver_release(record, sizeof record, store, CATKHIZE_STORE_OCTETS - 1u, 1999) == CATKHIZE_REFUSED_BUFFER_SPELLS_NONE && as_before());
    CHECK(catkhize_receiver_release(record, sizeof record - 1, store, 0, 1999) == CATKHIZE_REFUSED_BUFFER_TOO_SHORT && as_before());
}

/* What a release leaves, and what comes after it. */
static void test_release(void) {
    uint8_t begin[CATKHIZE_SEGMENT_OCTETS], end[CATKHIZE_SEGMENT_OCTETS], other[CATKHIZE_SEGMENT_OCTETS];
    begin_of(begin, 2, CATKHIZE_WINDOW_LAST);
    segment_of(end, 2, 1, CATKHIZE_KIND_END);
    segment_of(other, 2, 2, CATKHIZE_KIND_CONTINUE);
    complete_receiver(begin, end);
    CHECK(receive(end, message + 4, 3, 2000) == CATKHIZE_DONE && says(answer, CATKHIZE_STATUS_RECEIVED, 2, 0, CATKHIZE_NONE_MISSING));
    remember();
    CHECK(catkhize_receiver_cancel(record, sizeof record, store, sizeof store, 3000) == CATKHIZE_REFUSED_CLOSED && as_before());
    CHECK(release(3000) == CATKHIZE_DONE);
    CHECK(zero(store, CATKHIZE_STORE_OCTETS) && untouched(store + CATKHIZE_STORE_OCTETS, 8));
    CHECK(memcmp(output, message, 7) == 0 && untouched(output + 7, sizeof output - 7));
    CHECK(record[CATKHIZE_RECEIVER_AT_STATE] == CATKHIZE_RECEIVER_CANCELED);
    CHECK(catkhize_get64(record + CATKHIZE_RECEIVER_AT_LAST_READING) == 3000u);
    CHECK(zero(record + CATKHIZE_RECEIVER_AT_STORED_OCTETS, 8) && zero(record + CATKHIZE_RECEIVER_AT_DEADLINE_RUNS, 9));
    CHECK(zero(record + CATKHIZE_RECEIVER_AT_HELD, CATKHIZE_RECEIVER_OCTETS - CATKHIZE_RECEIVER_AT_HELD));
    CHECK(memcmp(record, record_before, CATKHIZE_RECEIVER_AT_STATE) == 0);
    CHECK(memcmp(record + CATKHIZE_RECEIVER_AT_STATUS, record_before + CATKHIZE_RECEIVER_AT_STATUS, CATKHIZE_RECEIVER_AT_STORED_OCTETS - CATKHIZE_RECEIVER_AT_STATUS) == 0);

    /* A repeat, one that differs, a segment that was not held, a second release, a cancel. */
    remember();
    CHECK(receive(end, message + 4, 3, 3000) == CATKHIZE_REFUSED_CLOSED && untouched(answer, sizeof answer) && as_before());
    CHECK(receive(end, message + 3, 3, 3000) == CATKHIZE_REFUSED_CLOSED && untouched(answer, sizeof answer) && as_before());
    CHECK(receive(other, message, 1, 4000) == CATKHIZE_REFUSED_CLOSED && untouched(answer, sizeof answer) && as_before());
    CHECK(release(4000) == CATKHIZE_REFUSED_CLOSED && as_before());
    CHECK(catkhize_receiver_cancel(record, sizeof record, store, sizeof store, 4000) == CATKHIZE_REFUSED_CLOSED && as_before());
}

/* Segments of one octet each, the octet their sequence number, under Every4 and with End 5. */
static uint32_t receive_one(uint8_t sequence, uint64_t reading) {
    uint8_t segment[CATKHIZE_SEGMENT_OCTETS];
    if (sequence == 0) {
        begin_of(segment, 2, CATKHIZE_WINDOW_EVERY4);
    } else {
        segment_of(segment, 2, sequence, sequence == 5 ? CATKHIZE_KIND_END : CATKHIZE_KIND_CONTINUE);
    }
    return receive(segment, &sequence, 1, reading);
}

/* The figures beside every response of a reception with gaps; where there is no response, they are 0. */
static void test_figures(void) {
    uint8_t segment[CATKHIZE_SEGMENT_OCTETS];
    const uint8_t other = 9;
    const uint64_t waits = own->receiver_waits;
    new_receiver(0);
    CHECK(receive_one(0, 0) == CATKHIZE_DONE && zero(answer, CATKHIZE_RECEPTION_OCTETS));
    CHECK(receive_one(3, 0) == CATKHIZE_DONE && says(answer, CATKHIZE_STATUS_CONTINUING, 4, 2, 1));
    CHECK(zero(answer + CATKHIZE_RECEPTION_AT_HANDED_OVER, 9));
    CHECK(untouched(answer + CATKHIZE_RECEPTION_OCTETS, sizeof answer - CATKHIZE_RECEPTION_OCTETS));
    CHECK(receive_one(5, 0) == CATKHIZE_DONE && says(answer, CATKHIZE_STATUS_CONTINUING, 6, 3, 1));
    fill(answer, sizeof answer);
    CHECK(catkhize_receiver_advance(record, sizeof record, store, sizeof store, waits, answer, sizeof answer) == CATKHIZE_DONE);
    CHECK(says(answer, CATKHIZE_STATUS_INTER_SEGMENT_TIMEOUT, 6, 3, 1));
    CHECK(receive_one(1, waits) == CATKHIZE_DONE && zero(answer, CATKHIZE_RECEPTION_OCTETS));
    CHECK(receive_one(2, waits) == CATKHIZE_DONE && zero(answer, CATKHIZE_RECEPTION_OCTETS));
    CHECK(receive_one(3, waits) == CATKHIZE_DONE && says(answer, CATKHIZE_STATUS_CONTINUING, 6, 1, 4));
    CHECK(receive_one(4, waits) == CATKHIZE_DONE && says(answer, CATKHIZE_STATUS_RECEIVED, 6, 0, CATKHIZE_NONE_MISSING));
    CHECK(answer[CATKHIZE_RECEPTION_AT_HANDED_OVER] == 1 && catkhize_get64(answer + CATKHIZE_RECEPTION_AT_MESSAGE_OCTETS) == 6);

    /* A repeat that differs: its slot is held, and the map ends there. */
    new_receiver(0);
    CHECK(receive_one(0, 0) == CATKHIZE_DONE && receive_one(2, 0) == CATKHIZE_DONE);
    segment_of(segment, 2, 2, CATKHIZE_KIND_CONTINUE);
    CHECK(receive(segment, &other, 1, 0) == CATKHIZE_DONE && says(answer, CATKHIZE_STATUS_ABORTED, 3, 1, 1));

    /* A Begin that fails is not held. */
    new_receiver(0);
    begin_of(segment, 2, CATKHIZE_WINDOW_EVERY4);
    segment[CATKHIZE_SEGMENT_AT_COMPRESSION] = CATKHIZE_COMPRESSION_V42BIS;
    CHECK(receive(segment, &other, 1, 0) == CATKHIZE_DONE && says(answer, CATKHIZE_STATUS_COMPRESSION_UNSUPPORTED, 1, 1, 0));
    CHECK(record[CATKHIZE_RECEIVER_AT_STATE] == CATKHIZE_RECEIVER_FAILED && record[CATKHIZE_RECEIVER_AT_PROFILE] == own->number);
}

/* A message in six segments of 1, 3, 3, 3, 3 and 3 octets, delivered in order 77 of 120: the last of them hands it over, and no other. */
static void test_order_received(void) {
    static const uint8_t sixteen[16] = {0x30, 0x31, 0x32, 0x33, 0x34, 0x35, 0x36, 0x37, 0x38, 0x39, 0x3a, 0x3b, 0x3c, 0x3d, 0x3e, 0x3f};
    static const uint8_t expected[6] = {0, 4, 1, 5, 3, 2};
    size_t i;
    CHECK(catkhize_plan_message(sixteen, 16, 6, 2, CATKHIZE_WINDOW_PROHIBITED, 1, 6, plan, sizeof plan) == CATKHIZE_DONE);
    CHECK(catkhize_get64(plan + CATKHIZE_PLAN_AT_COUNT) == 6);
    CHECK(deliver(6, 77, sizeof order) == CATKHIZE_DONE && memcmp(order, expected, 6) == 0);
    new_receiver(0);
    for (i = 0; i < 6; i++) {
        uint8_t part[CATKHIZE_PART_OCTETS], octets[6], decoded[CATKHIZE_DECODED_OCTETS];
        fill(part, sizeof part);
        fill(octets, sizeof octets);
        fill(decoded, sizeof decoded);
        CHECK(catkhize_plan_segment(plan, sizeof plan, order[i], part, sizeof part) == CATKHIZE_DONE);
        CHECK(catkhize_encode(part, CATKHIZE_SEGMENT_OCTETS, sixteen + catkhize_get64(part + CATKHIZE_PART_AT_OFFSET),
                  (size_t)catkhize_get64(part + CATKHIZE_HEAD_AT_DATA_LENGTH), 1, octets, sizeof octets, answer, sizeof answer)
            == CATKHIZE_DONE);
        CHECK(catkhize_decode(octets, (size_t)catkhize_get64(answer), 1, decoded, sizeof decoded) == CATKHIZE_DONE);
        CHECK(memcmp(decoded, part, CATKHIZE_HEAD_OCTETS) == 0);
        CHECK(untouched(output, sizeof output));
        CHECK(receive(decoded, octets + 3, (size_t)catkhize_get64(decoded + CATKHIZE_HEAD_AT_DATA_LENGTH), i) == CATKHIZE_DONE);
        CHECK(zero(answer, CATKHIZE_REPLY_OCTETS) && answer[CATKHIZE_RECEPTION_AT_HANDED_OVER] == (i == 5));
    }
    CHECK(catkhize_get64(answer + CATKHIZE_RECEPTION_AT_MESSAGE_OCTETS) == 16);
    CHECK(memcmp(output, sixteen, 16) == 0 && untouched(output + 16, sizeof output - 16));
    CHECK(record[CATKHIZE_RECEIVER_AT_STATE] == CATKHIZE_RECEIVER_COMPLETE);
}

static uint32_t take_train(const uint8_t *octets, size_t octets_octets, const uint8_t *lengths, size_t lengths_octets) {
    fill(answer, sizeof answer);
    return catkhize_receiver_train(record, sizeof record, store, sizeof store, output, sizeof output, PEER, PROTOCOL, octets, octets_octets, lengths,
        lengths_octets, 7, answer, sizeof answer);
}

static void test_train(void) {
    static const uint8_t octets[16] = {0x02, 0x00, 0x01, 0x41, 0x12, 0x01, 0x01, 0x42, 0x12, 0x01, 0x01, 0x42, 0x0a, 0x02, 0x01, 0x43};
    uint8_t lengths[8];
    catkhize_put16(lengths, 4);
    catkhize_put16(lengths + 2, 4);
    catkhize_put16(lengths + 4, 4);
    catkhize_put16(lengths + 6, 9);

    /* It stops behind the message; the third segment repeats the second, and the fourth is refused. */
    new_receiver(0);
    CHECK(take_train(octets, sizeof octets, lengths, sizeof lengths) == CATKHIZE_DONE);
    CHECK(catkhize_get64(answer + CATKHIZE_TRAIN_AT_RECEIVED) == 2);
    CHECK(zero(answer + CATKHIZE_TRAIN_AT_RECEPTION, CATKHIZE_REPLY_OCTETS));
    CHECK(answer[CATKHIZE_TRAIN_AT_RECEPTION + CATKHIZE_RECEPTION_AT_HANDED_OVER] == 1);
    CHECK(catkhize_get64(answer + CATKHIZE_TRAIN_AT_RECEPTION + CATKHIZE_RECEPTION_AT_MESSAGE_OCTETS) == 2);
    CHECK(output[0] == 0x41 && output[1] == 0x42 && untouched(output + 2, sizeof output - 2));
    CHECK(untouched(answer + CATKHIZE_TRAIN_OCTETS, sizeof answer - CATKHIZE_TRAIN_OCTETS));
    CHECK(take_train(octets + 8, sizeof octets - 8, lengths + 4, sizeof lengths - 4) == CATKHIZE_REFUSED_CLOSED);
    CHECK(catkhize_get64(answer + CATKHIZE_TRAIN_AT_RECEIVED) == 1);
    CHECK(zero(answer + CATKHIZE_TRAIN_AT_RECEPTION, CATKHIZE_RECEPTION_OCTETS));
    CHECK(record[CATKHIZE_RECEIVER_AT_STATE] == CATKHIZE_RECEIVER_COMPLETE);

    /* Fewer segments than it needs: all are received, and nothing is carried. */
    new_receiver(0);
    CHECK(take_train(octets, 4, lengths, 2) == CATKHIZE_DONE);
    CHECK(catkhize_get64(answer + CATKHIZE_TRAIN_AT_RECEIVED) == 1);
    CHECK(zero(answer + CATKHIZE_TRAIN_AT_RECEPTION, CATKHIZE_RECEPTION_OCTETS));
}

/* A train under Every4, gone on with behind each stop: the fourth segment is answered, and the last hands over. */
static void test_train_goes_on(void) {
    static const uint8_t octets[26] = {0x02, 0x00, 0x01, 0x41, 0x20, 0x08, 0x0a, 0x01, 0x01, 0x42, 0x0a, 0x02, 0x01, 0x43, 0x0a, 0x03, 0x01, 0x44,
        0x0a, 0x04, 0x01, 0x45, 0x12, 0x05, 0x01, 0x46};
    static const uint8_t lengths[12] = {0, 6, 0, 4, 0, 4, 0, 4, 0, 4, 0, 4};
    static const uint64_t behind[2] = {4, 6};
    size_t at = 0, received = 0, stops = 0;
    new_receiver(0);
    while (received < 6 && stops < 2) {
        size_t until;
        CHECK(take_train(octets + at, sizeof octets - at, lengths + 2 * received, sizeof lengths - 2 * received) == CATKHIZE_DONE);
        until = received + (size_t)catkhize_get64(answer + CATKHIZE_TRAIN_AT_RECEIVED);
        for (; received < until; received++)
            at += catkhize_get16(lengths + 2 * received);
        CHECK(received == behind[stops]);
        CHECK(says(answer + CATKHIZE_TRAIN_AT_RECEPTION, received == 6 ? CATKHIZE_STATUS_RECEIVED : CATKHIZE_STATUS_CONTINUING, (unsigned)received, 0,
            CATKHIZE_NONE_MISSING));
        CHECK(answer[CATKHIZE_TRAIN_AT_RECEPTION + CATKHIZE_RECEPTION_AT_HANDED_OVER] == (received == 6));
        stops++;
    }
    CHECK(stops == 2);
    CHECK(memcmp(output, "ABCDEF", 6) == 0 && untouched(output + 6, sizeof output - 6));
}

/* The same train without its third segment, which comes last: the figures of each answer. */
static void test_train_figures(void) {
    static const uint8_t octets[26] = {0x02, 0x00, 0x01, 0x41, 0x20, 0x08, 0x0a, 0x01, 0x01, 0x42, 0x0a, 0x03, 0x01, 0x44, 0x0a, 0x04, 0x01, 0x45,
        0x12, 0x05, 0x01, 0x46, 0x0a, 0x02, 0x01, 0x43};
    static const uint8_t lengths[12] = {0, 6, 0, 4, 0, 4, 0, 4, 0, 4, 0, 4};
    const uint8_t *reception = answer + CATKHIZE_TRAIN_AT_RECEPTION;
    new_receiver(0);
    CHECK(take_train(octets, sizeof octets, lengths, sizeof lengths) == CATKHIZE_DONE);
    CHECK(catkhize_get64(answer + CATKHIZE_TRAIN_AT_RECEIVED) == 3 && says(reception, CATKHIZE_STATUS_CONTINUING, 4, 1, 2));
    CHECK(take_train(octets + 14, sizeof octets - 14, lengths + 6, sizeof lengths - 6) == CATKHIZE_DONE);
    CHECK(catkhize_get64(answer + CATKHIZE_TRAIN_AT_RECEIVED) == 2 && says(reception, CATKHIZE_STATUS_CONTINUING, 6, 1, 2));
    CHECK(reception[CATKHIZE_RECEPTION_AT_HANDED_OVER] == 0);
    CHECK(take_train(octets + 22, sizeof octets - 22, lengths + 10, sizeof lengths - 10) == CATKHIZE_DONE);
    CHECK(catkhize_get64(answer + CATKHIZE_TRAIN_AT_RECEIVED) == 1);
    CHECK(says(reception, CATKHIZE_STATUS_RECEIVED, 6, 0, CATKHIZE_NONE_MISSING));
    CHECK(reception[CATKHIZE_RECEPTION_AT_HANDED_OVER] == 1);
    CHECK(untouched(answer + CATKHIZE_TRAIN_OCTETS, sizeof answer - CATKHIZE_TRAIN_OCTETS));
}

/* Answers that are too short, by an octet and by the figures. */
static void test_short_answers(void) {
    static const uint8_t octets[4] = {0x02, 0x00, 0x01, 0x41};
    static const uint8_t lengths[2] = {0, 4};
    uint8_t segment[CATKHIZE_SEGMENT_OCTETS];
    unsigned less;
    new_receiver(0);
    begin_of(segment, 2, CATKHIZE_WINDOW_EVERY4);
    fill(answer, sizeof answer);
    for (less = 1; less <= 4; less += 3) {
        CHECK(catkhize_receiver_receive(record, sizeof record, store, sizeof store, output, sizeof output, PEER, PROTOCOL, segment, sizeof segment,
                  message, 1, 0, 0, answer, CATKHIZE_RECEPTION_OCTETS - less)
            == CATKHIZE_REFUSED_BUFFER_TOO_SHORT);
        CHECK(catkhize_receiver_advance(record, sizeof record, store, sizeof store, 0, answer, CATKHIZE_REPLY_OCTETS - less)
            == CATKHIZE_REFUSED_BUFFER_TOO_SHORT);
        CHECK(catkhize_receiver_train(record, sizeof record, store, sizeof store, output, sizeof output, PEER, PROTOCOL, octets, sizeof octets, lengths,
                  sizeof lengths, 0, answer, CATKHIZE_TRAIN_OCTETS - less)
            == CATKHIZE_REFUSED_BUFFER_TOO_SHORT);
    }
    CHECK(record[CATKHIZE_RECEIVER_AT_STATE] == CATKHIZE_RECEIVER_AWAITING_BEGIN);
    CHECK(untouched(answer, sizeof answer) && untouched(store, sizeof store));
}

/* Numbers that are no profile. */
static const uint8_t neither[9] = {0, 3, 4, 127, 128, 129, 130, 254, 255};

/* Making a receiver is refused so, and the record is as it was. */
static int refuses_receiver(uint32_t refusal, size_t octets, uint64_t peer_value, uint8_t protocol, uint8_t transaction, uint8_t version, uint8_t profile) {
    fill(record, sizeof record);
    return catkhize_receiver_new(record, octets, 0, 34, peer_value, protocol, 1, transaction, version, profile, 100, 0) == refusal
        && untouched(record, sizeof record);
}

/* What the making of a receiver is refused with: 256, 258, 30, 31, 64, 1, 6/1, each before the next. */
static void test_receiver_refused(void) {
    const size_t all = sizeof record;
    unsigned profile;
    size_t i;
    for (i = 0; i < sizeof neither; i++) {
        CHECK(refuses_receiver(CATKHIZE_REFUSED_BUFFER_TOO_SHORT, all - 1, 0, 3, 8, 0, neither[i]));
        CHECK(refuses_receiver(CATKHIZE_REFUSED_NUMBER_NAMES_NONE, all, 0, 3, 8, 0, neither[i]));
        CHECK(refuses_receiver(CATKHIZE_REFUSED_IDENTITY, all, 0, CATKHIZE_PROTOCOL_OTHER, 8, 0, neither[i]));
        CHECK(refuses_receiver(CATKHIZE_REFUSED_SERVICE, all, 5, CATKHIZE_PROTOCOL_OTHER, 8, 0, neither[i]));
        CHECK(refuses_receiver(CATKHIZE_REFUSED_PROFILE, all, 5, CATKHIZE_PROTOCOL_SEGMENTED, 8, 0, neither[i]));
        CHECK(refuses_receiver(CATKHIZE_REFUSED_PROFILE, all, 5, CATKHIZE_PROTOCOL_SEGMENTED, 8, 1, neither[i]));
        CHECK(refuses_receiver(CATKHIZE_REFUSED_PROFILE, all, 5, CATKHIZE_PROTOCOL_SEGMENTED, 2, 0, neither[i]));
    }
    CHECK(refuses_receiver(CATKHIZE_REFUSED_VERSION, all, 5, CATKHIZE_PROTOCOL_SEGMENTED, 8, 0, own->number));
    CHECK(refuses_receiver(CATKHIZE_REFUSED_FIELD_TRANSACTION_ID, all, 5, CATKHIZE_PROTOCOL_SEGMENTED, 8, 1, own->number));
    for (profile = 0; profile < 256; profile++) {
        const int known = profile == CATKHIZE_PROFILE_1 || profile == CATKHIZE_PROFILE_2;
        CHECK(refuses_receiver(CATKHIZE_REFUSED_PROFILE, all, 5, CATKHIZE_PROTOCOL_SEGMENTED, 2, 1, (uint8_t)profile) != known);
    }
}

static uint8_t longer[CATKHIZE_SENDER_OCTETS + 8u];
static uint8_t expected_octets[sizeof longer];

/* A receiver in octets, in a buffer with octets to spare: a new one, and one that holds a Begin and the End. */
static void test_receiver_octets(void) {
    const size_t all = 3931 + 8;
    uint8_t begin[CATKHIZE_SEGMENT_OCTETS], end[CATKHIZE_SEGMENT_OCTETS];
    fill(store, sizeof store);
    fill(longer, sizeof longer);
    CHECK(catkhize_receiver_new(longer, all, 7, 34, 0x203040506u, CATKHIZE_PROTOCOL_CARRIER_SPECIFIC, 0xc1, 2, 6, own->number, 65279, 0x99aabbccddeeu)
        == CATKHIZE_DONE);
    fill(expected_octets, sizeof expected_octets);
    memset(expected_octets, 0, 3931);
    expected_octets[0] = 2;
    expected_octets[1] = 7;
    expected_octets[2] = 34;
    catkhize_put64(expected_octets + 3, 0x203040506u);
    expected_octets[11] = 1;
    expected_octets[12] = 0xc1;
    expected_octets[13] = 2;
    expected_octets[14] = 6;
    expected_octets[15] = own->number;
    catkhize_put64(expected_octets + 16, 65279);
    catkhize_put64(expected_octets + 51, 0x99aabbccddeeu);
    CHECK(memcmp(longer, expected_octets, sizeof longer) == 0);

    begin_of(begin, 2, CATKHIZE_WINDOW_EVERY8);
    begin[CATKHIZE_SEGMENT_AT_LENGTH_STATED] = 1;
    catkhize_put16(begin + CATKHIZE_SEGMENT_AT_LENGTH, 0x123);
    segment_of(end, 2, 2, CATKHIZE_KIND_END);
    CHECK(catkhize_receiver_receive(longer, all, store, sizeof store, output, sizeof output, 7, 34, 0x203040506u, 1, 0xc1, begin, sizeof begin, message, 1,
              0, 0x99aabbccddeeu, answer, sizeof answer)
        == CATKHIZE_DONE);
    CHECK(catkhize_receiver_receive(longer, all, store, sizeof store, output, sizeof output, 7, 34, 0x203040506u, 1, 0xc1, end, sizeof end, message + 4, 3,
              0, 0x99aabbccddefu, answer, sizeof answer)
        == CATKHIZE_DONE);
    expected_octets[24] = CATKHIZE_RECEIVER_RECEIVING;
    expected_octets[27] = CATKHIZE_WINDOW_EVERY8;
    expected_octets[29] = 1;
    expected_octets[30] = 2;
    expected_octets[31] = 1;
    catkhize_put16(expected_octets + 32, 0x123);
    catkhize_put64(expected_octets + 34, 4);
    expected_octets[42] = 1;
    catkhize_put64(expected_octets + 43, 0x99aabbccddefu + own->receiver_waits);
    catkhize_put64(expected_octets + 51, 0x99aabbccddefu);
    catkhize_put64(expected_octets + 59, 0x5u);
    catkhize_put16(expected_octets + 91, 1);
    catkhize_put16(expected_octets + 91 + 4, 3);
    memcpy(expected_octets + 603, begin + 2, 13);
    memcpy(expected_octets + 603 + 26, end + 2, 13);
    CHECK(memcmp(longer, expected_octets, sizeof longer) == 0);
}

static uint64_t receiver_deadline(void) {
    return record[CATKHIZE_RECEIVER_AT_DEADLINE_RUNS] == 1 ? catkhize_get64(record + CATKHIZE_RECEIVER_AT_DEADLINE) : 0;
}

static uint32_t advance(uint64_t reading) {
    fill(answer, sizeof answer);
    return catkhize_receiver_advance(record, sizeof record, store, sizeof store, reading, answer, sizeof answer);
}

/* A receiver that has a Begin under a window since the reading 1000. */
static void begun_receiver(uint8_t window) {
    uint8_t segment[CATKHIZE_SEGMENT_OCTETS];
    new_receiver(500);
    CHECK(receiver_deadline() == 0);
    begin_of(segment, 2, window);
    CHECK(receive(segment, message, 1, 1000) == CATKHIZE_DONE && receiver_deadline() == 1000 + own->receiver_waits);
}

/* The receiver's own interval: after a Begin, a repeat, another segment, one that a train brings, and one after a timeout answer. At the deadline
 * and past it. */
static void test_receiver_waits(void) {
    static const uint8_t octets[4] = {0x0a, 0x02, 0x01, 0x41};
    static const uint8_t lengths[2] = {0, 4};
    const uint64_t waits = own->receiver_waits;
    uint8_t begin[CATKHIZE_SEGMENT_OCTETS], segment[CATKHIZE_SEGMENT_OCTETS];
    begin_of(begin, 2, CATKHIZE_WINDOW_EVERY16);
    segment_of(segment, 2, 1, CATKHIZE_KIND_CONTINUE);
    begun_receiver(CATKHIZE_WINDOW_EVERY16);
    CHECK(receive(begin, message, 1, 1001) == CATKHIZE_DONE && receiver_deadline() == 1001 + waits);
    CHECK(receive(segment, message, 2, 1003) == CATKHIZE_DONE && receiver_deadline() == 1003 + waits);
    CHECK(receive(segment, message, 2, 1007) == CATKHIZE_DONE && receiver_deadline() == 1007 + waits);
    fill(answer, sizeof answer);
    CHECK(catkhize_receiver_train(record, sizeof record, store, sizeof store, output, sizeof output, PEER, PROTOCOL, octets, sizeof octets, lengths,
              sizeof lengths, 1010, answer, sizeof answer)
        == CATKHIZE_DONE);
    CHECK(catkhize_get64(answer) == 1 && receiver_deadline() == 1010 + waits);
    CHECK(advance(1009 + waits) == CATKHIZE_DONE && zero(answer, CATKHIZE_REPLY_OCTETS) && receiver_deadline() == 1010 + waits);
    CHECK(advance(1010 + waits) == CATKHIZE_DONE && says(answer, CATKHIZE_STATUS_INTER_SEGMENT_TIMEOUT, 4, 1, 3) && receiver_deadline() == 0);
    CHECK(receive(segment, message, 2, 2000 + waits) == CATKHIZE_DONE && receiver_deadline() == 2000 + 2 * waits);
    CHECK(record[CATKHIZE_RECEIVER_AT_PROFILE] == own->number);

    /* A segment at the deadline is taken; past it receiving gives 37, or under Prohibited 38, and the receiver has expired. */
    begun_receiver(CATKHIZE_WINDOW_EVERY16);
    CHECK(receive(segment, message, 2, 1000 + waits) == CATKHIZE_DONE && receiver_deadline() == 1000 + 2 * waits);
    remember();
    CHECK(receive(segment, message, 2, 1001 + 2 * waits) == CATKHIZE_REFUSED_TIMER_DUE && untouched(answer, sizeof answer) && as_before());
    begun_receiver(CATKHIZE_WINDOW_PROHIBITED);
    CHECK(receive(segment, message, 2, 1000 + waits) == CATKHIZE_DONE && receiver_deadline() == 1000 + 2 * waits);
    CHECK(receive(segment, message, 2, 1001 + 2 * waits) == CATKHIZE_REFUSED_CLOSED && untouched(answer, sizeof answer));
    CHECK(record[CATKHIZE_RECEIVER_AT_STATE] == CATKHIZE_RECEIVER_EXPIRED && receiver_deadline() == 0 && zero(store, CATKHIZE_STORE_OCTETS));
    begun_receiver(CATKHIZE_WINDOW_PROHIBITED);
    CHECK(advance(999 + waits) == CATKHIZE_DONE && record[CATKHIZE_RECEIVER_AT_STATE] == CATKHIZE_RECEIVER_RECEIVING);
    CHECK(advance(1000 + waits) == CATKHIZE_DONE && record[CATKHIZE_RECEIVER_AT_STATE] == CATKHIZE_RECEIVER_EXPIRED);
    CHECK(zero(answer, CATKHIZE_REPLY_OCTETS) && record[CATKHIZE_RECEIVER_AT_PROFILE] == own->number);
}

/* The last reading from which the receiver's own interval fits, and 34 one past it: for a Begin, a repeat, the End and a train. */
static void test_receiver_latest(void) {
    static const uint8_t octets[4] = {0x12, 0x01, 0x01, 0x41};
    static const uint8_t lengths[2] = {0, 4};
    const uint64_t latest = UINT64_MAX - own->receiver_waits;
    uint8_t begin[CATKHIZE_SEGMENT_OCTETS], end[CATKHIZE_SEGMENT_OCTETS];
    begin_of(begin, 2, CATKHIZE_WINDOW_LAST);
    segment_of(end, 2, 1, CATKHIZE_KIND_END);
    new_receiver(latest);
    remember();
    CHECK(receive(begin, message, 1, latest + 1) == CATKHIZE_REFUSED_TIME_OVERFLOW && untouched(answer, sizeof answer) && as_before());
    CHECK(receive(begin, message, 1, latest) == CATKHIZE_DONE && receiver_deadline() == UINT64_MAX);
    remember();
    CHECK(receive(begin, message, 1, latest + 1) == CATKHIZE_REFUSED_TIME_OVERFLOW && untouched(answer, sizeof answer) && as_before());
    CHECK(receive(begin, message, 1, latest) == CATKHIZE_DONE && receiver_deadline() == UINT64_MAX);
    CHECK(receive(end, message, 1, latest + 1) == CATKHIZE_REFUSED_TIME_OVERFLOW && untouched(answer, sizeof answer) && as_before());
    fill(answer, sizeof answer);
    CHECK(catkhize_receiver_train(record, sizeof record, store, sizeof store, output, sizeof output, PEER, PROTOCOL, octets, sizeof octets, lengths,
              sizeof lengths, latest + 1, answer, sizeof answer)
        == CATKHIZE_REFUSED_TIME_OVERFLOW);
    CHECK(zero(answer, CATKHIZE_TRAIN_OCTETS) && as_before());
    CHECK(receive(end, message, 1, latest) == CATKHIZE_DONE && record[CATKHIZE_RECEIVER_AT_STATE] == CATKHIZE_RECEIVER_COMPLETE);
    CHECK(receive(end, message, 1, latest + 1) == CATKHIZE_REFUSED_TIME_OVERFLOW);
}

/* receive and train refuse the record so, with these lengths and this reading, and record, store and output are as they were. */
static int takes_refuse(uint32_t refusal, size_t record_octets, size_t store_octets, size_t output_octets, uint64_t reading) {
    static const uint8_t octets[4] = {0x02, 0x00, 0x01, 0x41};
    static const uint8_t lengths[2] = {0, 4};
    uint8_t segment[CATKHIZE_SEGMENT_OCTETS];
    int one, train;
    segment_of(segment, 2, 0, CATKHIZE_KIND_BEGIN);
    fill(output, sizeof output);
    fill(answer, sizeof answer);
    one = catkhize_receiver_receive(record, record_octets, store, store_octets, output, output_octets, PEER, PROTOCOL, segment, sizeof segment, octets + 3,
              1, 0, reading, answer, sizeof answer)
            == refusal
        && untouched(answer, sizeof answer) && as_before();
    train = catkhize_receiver_train(record, record_octets, store, store_octets, output, output_octets, PEER, PROTOCOL, octets, sizeof octets, lengths,
                sizeof lengths, reading, answer, sizeof answer)
            == refusal
        && (CATKHIZE_IS_OWN_REFUSAL(refusal) ? untouched(answer, sizeof answer) : zero(answer, CATKHIZE_TRAIN_OCTETS)) && as_before();
    return one && train && untouched(output, sizeof output);
}

/* The same of advance, cancel and release. */
static int others_refuse(uint32_t refusal, size_t record_octets, size_t store_octets, uint64_t reading) {
    fill(answer, sizeof answer);
    return catkhize_receiver_advance(record, record_octets, store, store_octets, reading, answer, sizeof answer) == refusal
        && catkhize_receiver_cancel(record, record_octets, store, store_octets, reading) == refusal
        && catkhize_receiver_release(record, record_octets, store, store_octets, reading) == refusal && untouched(answer, sizeof answer) && as_before();
}

/* A receiver of neither profile, whose last reading is after 999: 62 from every call, behind 60 and 61 and before 33, and nothing is changed. A train of
 * no segments asks nothing. With its own profile the same record gets 33. */
static void receiver_of_neither(void) {
    const size_t all = sizeof record, room = sizeof store, space = sizeof output;
    const uint64_t now = catkhize_get64(record + CATKHIZE_RECEIVER_AT_LAST_READING);
    size_t i;
    CHECK(record[CATKHIZE_RECEIVER_AT_PROFILE] == own->number);
    for (i = 0; i < sizeof neither; i++) {
        record[CATKHIZE_RECEIVER_AT_PROFILE] = neither[i];
        remember();
        CHECK(takes_refuse(CATKHIZE_REFUSED_IMPOSSIBLE_STATE, all, room, space, now));
        CHECK(others_refuse(CATKHIZE_REFUSED_IMPOSSIBLE_STATE, all, room, now));
        CHECK(takes_refuse(CATKHIZE_REFUSED_IMPOSSIBLE_STATE, all, room, space, 999));
        CHECK(others_refuse(CATKHIZE_REFUSED_IMPOSSIBLE_STATE, all, room, 999));
        CHECK(takes_refuse(CATKHIZE_REFUSED_OUTPUT_TOO_SHORT, all, room, space - 1, 999));
        CHECK(takes_refuse(CATKHIZE_REFUSED_STORE_TOO_SHORT, all, CATKHIZE_STORE_OCTETS - 1u, space - 1, 999));
        CHECK(others_refuse(CATKHIZE_REFUSED_STORE_TOO_SHORT, all, CATKHIZE_STORE_OCTETS - 1u, 999));
        CHECK(take_train(message, 0, message, 0) == CATKHIZE_DONE && zero(answer, CATKHIZE_TRAIN_OCTETS) && as_before());
    }
    record[CATKHIZE_RECEIVER_AT_PROFILE] = own->number;
    remember();
    CHECK(takes_refuse(CATKHIZE_REFUSED_CLOCK_REGRESSION, all, room, space, 999) && others_refuse(CATKHIZE_REFUSED_CLOCK_REGRESSION, all, room, 999));
}

static void test_receiver_neither(void) {
    uint8_t begin[CATKHIZE_SEGMENT_OCTETS], end[CATKHIZE_SEGMENT_OCTETS];
    begin_of(begin, 2, CATKHIZE_WINDOW_LAST);
    segment_of(end, 2, 1, CATKHIZE_KIND_END);
    new_receiver(1000);
    receiver_of_neither();
    begun_receiver(CATKHIZE_WINDOW_LAST);
    receiver_of_neither();
    CHECK(catkhize_receiver_cancel(record, sizeof record, store, sizeof store, 1000) == CATKHIZE_DONE);
    receiver_of_neither();
    complete_receiver(begin, end);
    receiver_of_neither();
    CHECK(release(2000) == CATKHIZE_DONE);
}

/* Makes a record one of the layout before 2026-11: its version is 1, and it has no profile. The octet behind it is A5. */
static void make_former(uint8_t *octets, size_t count, size_t profile_at) {
    octets[0] = 1;
    memmove(octets + profile_at, octets + profile_at + 1, count - profile_at - 1);
    octets[count - 1] = FILLING;
}

/* Other versions of the layout, and a record of the one before: 257 from every call, in a buffer of the former size 256. */
static void test_receiver_former(void) {
    static const uint8_t versions[5] = {0, 1, 3, 130, 255};
    const size_t all = sizeof record, room = sizeof store, space = sizeof output;
    size_t i;
    begun_receiver(CATKHIZE_WINDOW_LAST);
    for (i = 0; i < sizeof versions; i++) {
        record[0] = versions[i];
        remember();
        CHECK(takes_refuse(CATKHIZE_REFUSED_BUFFER_SPELLS_NONE, all, 0, 0, 0) && others_refuse(CATKHIZE_REFUSED_BUFFER_SPELLS_NONE, all, 0, 0));
    }
    make_former(record, sizeof record, CATKHIZE_RECEIVER_AT_PROFILE);
    remember();
    CHECK(takes_refuse(CATKHIZE_REFUSED_BUFFER_SPELLS_NONE, all, room, space, 1000) && others_refuse(CATKHIZE_REFUSED_BUFFER_SPELLS_NONE, all, room, 1000));
    CHECK(takes_refuse(CATKHIZE_REFUSED_BUFFER_TOO_SHORT, 3930, room, space, 1000) && others_refuse(CATKHIZE_REFUSED_BUFFER_TOO_SHORT, 3930, room, 1000));
}

#define NUMBER 77u

static uint32_t submission(void) {
    fill(answer, sizeof answer);
    return catkhize_sender_submission(sender, sizeof sender, answer, CATKHIZE_SUBMISSION_OCTETS);
}

/* A sender of a plan of the message. */
static void open_sender(const uint8_t *of) {
    fill(sender, sizeof sender);
    CHECK(catkhize_sender_new(sender, sizeof sender, PEER, PROTOCOL, of, CATKHIZE_PLAN_OCTETS, message, 7, 1, own->number, NUMBER, 0) == CATKHIZE_DONE);
    CHECK(sender[CATKHIZE_SENDER_AT_PROFILE] == own->number);
    CHECK(sender[CATKHIZE_SENDER_AT_STATE] == CATKHIZE_SENDER_PREPARED);
}

static void new_sender(uint8_t window) {
    CHECK(catkhize_plan_message(message, 7, 6, 2, window, 1, 6, plan, sizeof plan) == CATKHIZE_DONE);
    open_sender(plan);
}

/* The plan under Exceptions that a library before 2026-09 made of the message: no sender is made of it. Its segments as a frozen plan. */
static void plan_exceptions(void) {
    CHECK(catkhize_plan_message(message, 7, 6, 2, CATKHIZE_WINDOW_LAST, 1, 6, plan, sizeof plan) == CATKHIZE_DONE);
    plan[CATKHIZE_PLAN_AT_WINDOW] = CATKHIZE_WINDOW_EXCEPTIONS;
    fill(sender, sizeof sender);
    CHECK(catkhize_sender_new(sender, sizeof sender, PEER, PROTOCOL, plan, sizeof plan, message, 7, 1, own->number, NUMBER, 0) == CATKHIZE_REFUSED_PLAN);
    CHECK(untouched(sender, sizeof sender));
    take_heads(3);
    fill(frozen, sizeof frozen);
    CHECK(catkhize_try_from_frozen(heads, sizeof heads, 3, message, 7, message, 7, 6, 1, 6, frozen, sizeof frozen) == CATKHIZE_DONE);
    CHECK(frozen[CATKHIZE_PLAN_AT_FORM] == CATKHIZE_PLAN_FROZEN && frozen[CATKHIZE_PLAN_AT_FROZEN_WINDOW] == CATKHIZE_WINDOW_EXCEPTIONS);
}

/* Layer 3 takes and accepts what is offered, at the reading 10. */
static void send_one(uint64_t ticket) {
    uint8_t state[CATKHIZE_STATE_OCTETS];
    CHECK(submission() == CATKHIZE_DONE);
    CHECK(catkhize_get64(answer + CATKHIZE_SUBMISSION_AT_NUMBER) == NUMBER);
    CHECK(catkhize_get64(answer + CATKHIZE_SUBMISSION_AT_TICKET) == ticket);
    CHECK(answer[CATKHIZE_SUBMISSION_AT_INDEX] == ticket);
    CHECK(answer[CATKHIZE_SUBMISSION_AT_HEAD + CATKHIZE_SEGMENT_AT_TRANSACTION] == 2);
    CHECK(catkhize_sender_submitted(sender, sizeof sender, NUMBER, ticket, 10, 10, state, sizeof state) == CATKHIZE_DONE);
    CHECK(state[0] == CATKHIZE_SENDER_AWAITING_ACCEPT);
    CHECK(submission() == CATKHIZE_NOTHING && untouched(answer, sizeof answer));
    CHECK(catkhize_sender_accepted(sender, sizeof sender, NUMBER + 1, ticket, 10, state, sizeof state) == CATKHIZE_REFUSED_STALE_SUBMISSION);
    CHECK(catkhize_sender_accepted(sender, sizeof sender, NUMBER, ticket, 10, state, sizeof state) == CATKHIZE_DONE);
}

static void test_sender(void) {
    uint8_t state[CATKHIZE_STATE_OCTETS];
    uint8_t response[CATKHIZE_RESPONSE_OCTETS];
    uint64_t count;
    new_sender(CATKHIZE_WINDOW_LAST);
    fill(sender, sizeof sender);
    CHECK(catkhize_sender_new(sender, sizeof sender, PEER, PROTOCOL, plan, sizeof plan, message, 6, 1, own->number, NUMBER, 0) == CATKHIZE_REFUSED_PLAN);
    CHECK(catkhize_sender_new(sender, sizeof sender, PEER, PROTOCOL, plan, sizeof plan - 1, message, 7, 1, own->number, NUMBER, 0) == CATKHIZE_REFUSED_BUFFER_TOO_SHORT);
    CHECK(untouched(sender, sizeof sender));
    new_sender(CATKHIZE_WINDOW_LAST);
    CHECK(catkhize_get64(plan + CATKHIZE_PLAN_AT_COUNT) == 3);
    for (count = 0; count < 3; count++) {
        send_one(count);
    }
    CHECK(sender[CATKHIZE_SENDER_AT_STATE] == CATKHIZE_SENDER_AWAITING_RESPONSE);
    CHECK(catkhize_get64(sender + CATKHIZE_SENDER_AT_SUBMISSIONS) == 3);
    CHECK(catkhize_entry(sender + CATKHIZE_SENDER_AT_SUBMITTED, 2) && !catkhize_entry(sender + CATKHIZE_SENDER_AT_SUBMITTED, 3));

    /* Segment 1 is missing. */
    memset(response, 0, sizeof response);
    response[CATKHIZE_RESPONSE_AT_TRANSACTION] = 2;
    catkhize_put16(response + CATKHIZE_RESPONSE_AT_ENTRIES, 3);
    catkhize_put64(response + CATKHIZE_RESPONSE_AT_MAP, 0x5u);
    CHECK(catkhize_sender_receive_response(sender, sizeof sender, 1, 34, 5, PROTOCOL, response, sizeof response, 0, 20, state, sizeof state) == CATKHIZE_REFUSED_PEER);
    CHECK(catkhize_sender_receive_response(sender, sizeof sender, PEER, PROTOCOL, response, sizeof response, 0, 20, state, sizeof state) == CATKHIZE_DONE);
    CHECK(state[0] == CATKHIZE_SENDER_PREPARED);
    CHECK(submission() == CATKHIZE_DONE && answer[CATKHIZE_SUBMISSION_AT_INDEX] == 1);
    CHECK(catkhize_get64(answer + CATKHIZE_SUBMISSION_AT_TICKET) == 3);
    CHECK(catkhize_get64(answer + CATKHIZE_SUBMISSION_AT_OFFSET) == 1);
    response[CATKHIZE_RESPONSE_AT_STATUS] = CATKHIZE_STATUS_RECEIVED;
    catkhize_put64(response + CATKHIZE_RESPONSE_AT_MAP, 0x7u);
    CHECK(catkhize_sender_receive_response(sender, sizeof sender, PEER, PROTOCOL, response, sizeof response, 0, 30, state, sizeof state) == CATKHIZE_DONE);
    CHECK(state[CATKHIZE_STATE_AT_STATE] == CATKHIZE_SENDER_COMPLETE);
    CHECK(state[CATKHIZE_STATE_AT_COMPLETION] == CATKHIZE_COMPLETE_PEER_RECEIVED);
    CHECK(catkhize_sender_cancel(sender, sizeof sender, 31, state, sizeof state) == CATKHIZE_DONE && state[0] == CATKHIZE_SENDER_COMPLETE);
}

static void test_sender_ends(void) {
    uint8_t state[CATKHIZE_STATE_OCTETS];
    new_sender(CATKHIZE_WINDOW_PROHIBITED);
    CHECK(catkhize_sender_submitted(sender, sizeof sender, NUMBER, 0, 5, 5, state, sizeof state) == CATKHIZE_DONE);
    CHECK(catkhize_sender_lower_failed(sender, sizeof sender, NUMBER, 0, 3, 0, 6, state, sizeof state) == CATKHIZE_REFUSED_NUMBER_NAMES_NONE);
    CHECK(catkhize_sender_lower_failed(sender, sizeof sender, NUMBER, 0, CATKHIZE_LOWER_LAYER_REJECTED, 9, 6, state, sizeof state) == CATKHIZE_DONE);
    CHECK(state[0] == CATKHIZE_SENDER_FAILED && state[CATKHIZE_STATE_AT_FAILURE] == CATKHIZE_FAILED_LOWER_LAYER);
    CHECK(state[CATKHIZE_STATE_AT_LOWER_LAYER] == CATKHIZE_LOWER_LAYER_REJECTED && state[CATKHIZE_STATE_AT_VALUE] == 9);

    new_sender(CATKHIZE_WINDOW_PROHIBITED);
    CHECK(catkhize_sender_submitted(sender, sizeof sender, NUMBER, 0, 5, 5, state, sizeof state) == CATKHIZE_DONE);
    fill(state, sizeof state);
    CHECK(catkhize_sender_accepted(sender, sizeof sender, NUMBER, 0, 5 + own->sender_waits, state, sizeof state) == CATKHIZE_REFUSED_STALE_SUBMISSION);
    CHECK(untouched(state, sizeof state) && sender[CATKHIZE_SENDER_AT_STATE] == CATKHIZE_SENDER_FAILED);

    plan_exceptions();
    open_sender(frozen);
    CHECK(catkhize_sender_advance(sender, sizeof sender, 100, state, sizeof state) == CATKHIZE_DONE && state[0] == CATKHIZE_SENDER_PREPARED);
    CHECK(catkhize_sender_advance(sender, sizeof sender, 99, state, sizeof state) == CATKHIZE_REFUSED_CLOCK_REGRESSION);
    CHECK(catkhize_sender_advance(sender, sizeof sender, 100, state, 3) == CATKHIZE_REFUSED_BUFFER_TOO_SHORT);
    sender[0] = 0;
    CHECK(catkhize_sender_advance(sender, sizeof sender, 100, state, sizeof state) == CATKHIZE_REFUSED_BUFFER_SPELLS_NONE);
    sender[0] = CATKHIZE_SENDER_LAYOUT_VERSION;
    CHECK(catkhize_sender_cancel(sender, sizeof sender, 100, state, sizeof state) == CATKHIZE_DONE && state[0] == CATKHIZE_SENDER_CANCELLED);
}

/* Under Exceptions: a train that nothing is answered to, and a sender that completes at its deadline. */
static void exceptions_complete(void) {
    uint8_t state[CATKHIZE_STATE_OCTETS];
    uint64_t ticket;
    new_receiver(0);
    for (ticket = 0; ticket < 3; ticket++) {
        uint8_t offer[CATKHIZE_SUBMISSION_OCTETS];
        CHECK(submission() == CATKHIZE_DONE);
        memcpy(offer, answer, sizeof offer);
        CHECK(offer[CATKHIZE_SUBMISSION_AT_HEAD + CATKHIZE_SEGMENT_AT_WINDOW] == (ticket == 0 ? CATKHIZE_WINDOW_EXCEPTIONS : 0));
        send_one(ticket);
        CHECK(receive(offer + CATKHIZE_SUBMISSION_AT_HEAD, message + catkhize_get64(offer + CATKHIZE_SUBMISSION_AT_OFFSET),
                  (size_t)catkhize_get64(offer + CATKHIZE_SUBMISSION_AT_HEAD + CATKHIZE_HEAD_AT_DATA_LENGTH), 10)
            == CATKHIZE_DONE);
        CHECK(zero(answer, CATKHIZE_REPLY_OCTETS) && answer[CATKHIZE_RECEPTION_AT_HANDED_OVER] == (ticket == 2));
    }
    CHECK(catkhize_get64(answer + CATKHIZE_RECEPTION_AT_MESSAGE_OCTETS) == 7);
    CHECK(memcmp(output, message, 7) == 0 && untouched(output + 7, sizeof output - 7));
    CHECK(submission() == CATKHIZE_NOTHING);
    CHECK(catkhize_sender_advance(sender, sizeof sender, 9 + own->sender_waits, state, sizeof state) == CATKHIZE_DONE);
    CHECK(state[0] == CATKHIZE_SENDER_AWAITING_RESPONSE);
    CHECK(catkhize_sender_advance(sender, sizeof sender, 10 + own->sender_waits, state, sizeof state) == CATKHIZE_DONE);
    CHECK(state[0] == CATKHIZE_SENDER_COMPLETE && state[CATKHIZE_STATE_AT_COMPLETION] == CATKHIZE_COMPLETE_EXCEPTION_INTERVAL_ELAPSED);
}

/* A frozen train under Exceptions; and a sender whose record has a planned one, which goes on. */
static void test_sender_exceptions(void) {
    plan_exceptions();
    open_sender(frozen);
    exceptions_complete();
    new_sender(CATKHIZE_WINDOW_LAST);
    sender[CATKHIZE_SENDER_AT_PLAN + CATKHIZE_PLAN_AT_WINDOW - 1u] = CATKHIZE_WINDOW_EXCEPTIONS;
    exceptions_complete();

    /* Of an even plan under Exceptions no sender is made either. */
    CHECK(catkhize_plan_even(eight, 8, 6, 2, CATKHIZE_WINDOW_LAST, 1, 6, plan, sizeof plan) == CATKHIZE_DONE);
    CHECK(catkhize_sender_new(sender, sizeof sender, PEER, PROTOCOL, plan, sizeof plan, eight, 8, 1, own->number, NUMBER, 0) == CATKHIZE_DONE);
    plan[CATKHIZE_PLAN_AT_WINDOW] = CATKHIZE_WINDOW_EXCEPTIONS;
    fill(sender, sizeof sender);
    CHECK(catkhize_sender_new(sender, sizeof sender, PEER, PROTOCOL, plan, sizeof plan, eight, 8, 1, own->number, NUMBER, 0) == CATKHIZE_REFUSED_PLAN);
    CHECK(untouched(sender, sizeof sender));
}

/* A sender of an even plan, sent to its end. Of the later capacities 1 to 4 those of the planners are taken, 2 and 3. */
static void test_sender_even(void) {
    uint64_t later, ticket;
    fill(plan, sizeof plan);
    CHECK(catkhize_plan_even(eight, 8, 6, 2, CATKHIZE_WINDOW_PROHIBITED, 1, 6, plan, sizeof plan) == CATKHIZE_DONE);
    for (later = 1; later <= 4; later += 3) {
        catkhize_put64(plan + CATKHIZE_PLAN_AT_LATER_CAPACITY, later);
        fill(sender, sizeof sender);
        CHECK(catkhize_sender_new(sender, sizeof sender, PEER, PROTOCOL, plan, sizeof plan, eight, 8, 1, own->number, NUMBER, 0) == CATKHIZE_REFUSED_PLAN);
        CHECK(untouched(sender, sizeof sender));
    }
    catkhize_put64(plan + CATKHIZE_PLAN_AT_LATER_CAPACITY, 3); /* plan_message's */
    fill(sender, sizeof sender);
    CHECK(catkhize_sender_new(sender, sizeof sender, PEER, PROTOCOL, plan, sizeof plan, eight, 8, 1, own->number, NUMBER, 0) == CATKHIZE_DONE);
    fill(plan, sizeof plan);
    CHECK(catkhize_plan_even(eight, 8, 6, 2, CATKHIZE_WINDOW_PROHIBITED, 1, 6, plan, sizeof plan) == CATKHIZE_DONE);
    fill(sender, sizeof sender);
    CHECK(catkhize_sender_new(sender, sizeof sender, PEER, PROTOCOL, plan, sizeof plan, eight, 8, 1, own->number, NUMBER, 0) == CATKHIZE_DONE);
    CHECK(sender[CATKHIZE_SENDER_AT_STATE] == CATKHIZE_SENDER_PREPARED);
    for (ticket = 0; ticket < 4; ticket++) {
        CHECK(submission() == CATKHIZE_DONE);
        CHECK(catkhize_get64(answer + CATKHIZE_SUBMISSION_AT_HEAD + CATKHIZE_HEAD_AT_DATA_LENGTH) == even_lengths[ticket]);
        CHECK(catkhize_get64(answer + CATKHIZE_SUBMISSION_AT_OFFSET) == even_offsets[ticket]);
        send_one(ticket);
    }
    CHECK(submission() == CATKHIZE_NOTHING);
    CHECK(catkhize_get64(sender + CATKHIZE_SENDER_AT_SUBMISSIONS) == 4);
    CHECK(sender[CATKHIZE_SENDER_AT_STATE] == CATKHIZE_SENDER_COMPLETE);
    CHECK(sender[CATKHIZE_SENDER_AT_STATE + CATKHIZE_STATE_AT_COMPLETION] == CATKHIZE_COMPLETE_LOWER_LAYER_ACCEPTED);
}

/* A sender of a plan in 3 segments, whose train is encoded so, and a receiver that the train is given to. */
static void sent_as(const uint8_t *of, const uint8_t *train, size_t train_octets) {
    uint8_t octets[24], lengths[6], state[CATKHIZE_STATE_OCTETS];
    const uint8_t *reception = answer + CATKHIZE_TRAIN_AT_RECEPTION;
    size_t at = 0;
    uint64_t ticket;
    open_sender(of);
    for (ticket = 0; ticket < 3; ticket++) {
        uint8_t offer[CATKHIZE_SUBMISSION_OCTETS];
        const uint8_t *head = offer + CATKHIZE_SUBMISSION_AT_HEAD;
        CHECK(submission() == CATKHIZE_DONE);
        memcpy(offer, answer, sizeof offer);
        send_one(ticket);
        CHECK(catkhize_encode(head, CATKHIZE_SEGMENT_OCTETS, message + catkhize_get64(offer + CATKHIZE_SUBMISSION_AT_OFFSET),
                  (size_t)catkhize_get64(head + CATKHIZE_HEAD_AT_DATA_LENGTH), 1, octets + at, sizeof octets - at, answer, sizeof answer)
            == CATKHIZE_DONE);
        catkhize_put16(lengths + 2 * ticket, (uint16_t)catkhize_get64(answer));
        at += (size_t)catkhize_get64(answer);
    }
    CHECK(at == train_octets && memcmp(octets, train, train_octets) == 0);
    new_receiver(0);
    CHECK(take_train(octets, at, lengths, sizeof lengths) == CATKHIZE_DONE);
    CHECK(catkhize_get64(answer + CATKHIZE_TRAIN_AT_RECEIVED) == 3 && says(reception, CATKHIZE_STATUS_RECEIVED, 3, 0, CATKHIZE_NONE_MISSING));
    CHECK(reception[CATKHIZE_RECEPTION_AT_HANDED_OVER] == 1 && catkhize_get64(reception + CATKHIZE_RECEPTION_AT_MESSAGE_OCTETS) == 7);
    CHECK(memcmp(output, message, 7) == 0 && untouched(output + 7, sizeof output - 7));
    CHECK(store[0] == message[0] && memcmp(store + 255, message + 1, 3) == 0 && memcmp(store + 510, message + 4, 3) == 0);
    CHECK(untouched(store + 1, 254) && untouched(store + 258, 252) && untouched(store + 513, sizeof store - 513));
    CHECK(record[CATKHIZE_RECEIVER_AT_STATE] == CATKHIZE_RECEIVER_COMPLETE);
    CHECK(catkhize_sender_receive_response(sender, sizeof sender, PEER, PROTOCOL, reception + CATKHIZE_RECEPTION_AT_RESPONSE, CATKHIZE_RESPONSE_OCTETS, 0,
              10, state, sizeof state)
        == CATKHIZE_DONE);
    CHECK(state[0] == CATKHIZE_SENDER_COMPLETE && state[CATKHIZE_STATE_AT_COMPLETION] == CATKHIZE_COMPLETE_PEER_RECEIVED);
    CHECK(record[CATKHIZE_RECEIVER_AT_PROFILE] == own->number && sender[CATKHIZE_SENDER_AT_PROFILE] == own->number);
}

/* Plans that were converted, sent and received to their end. */
static void test_sender_converted(void) {
    static const uint8_t long_train[24] = {0x02, 0x00, 0x01, 0x30, 0x10, 0x07, 0x20, 0x20, 0x0a, 0x01, 0x03, 0x31, 0x32, 0x33, 0x10, 0x07, 0x12, 0x02,
        0x03, 0x34, 0x35, 0x36, 0x10, 0x07};
    static const uint8_t short_train[20] = {0x02, 0x00, 0x01, 0x30, 0x10, 0x07, 0x20, 0x20, 0x0a, 0x01, 0x03, 0x31, 0x32, 0x33, 0x12, 0x02, 0x03, 0x34,
        0x35, 0x36};
    two_dialects();
    CHECK(convert(begin_only + CATKHIZE_PLAN_AT_FROZEN_HEADS, 8, CATKHIZE_DIALECT_BEGIN_ONLY, converted) == CATKHIZE_DONE);
    sent_as(converted, long_train, sizeof long_train);
    CHECK(convert(every + CATKHIZE_PLAN_AT_FROZEN_HEADS, 8, CATKHIZE_DIALECT_EVERY, converted) == CATKHIZE_DONE);
    sent_as(converted, short_train, sizeof short_train);
}

/* Making a sender of the plan is refused so, and the record is as it was. */
static int refuses_sender(uint32_t refusal, size_t octets, uint64_t peer_value, uint8_t protocol, size_t message_octets, uint8_t version, uint8_t profile) {
    fill(sender, sizeof sender);
    return catkhize_sender_new(sender, octets, 0, 34, peer_value, protocol, 1, plan, sizeof plan, message, message_octets, version, profile, NUMBER, 0)
            == refusal
        && untouched(sender, sizeof sender);
}

/* What the making of a sender is refused with: 256, 257, 258, 30, 31, 64, 40, 1, each before the next. */
static void test_sender_refused(void) {
    const size_t all = sizeof sender;
    unsigned profile;
    size_t i;
    CHECK(catkhize_plan_message(message, 7, 6, 2, CATKHIZE_WINDOW_LAST, 1, 6, plan, sizeof plan) == CATKHIZE_DONE);
    for (i = 0; i < sizeof neither; i++) {
        plan[0] = 2;
        CHECK(refuses_sender(CATKHIZE_REFUSED_BUFFER_TOO_SHORT, all - 1, 0, 3, 6, 0, neither[i]));
        CHECK(refuses_sender(CATKHIZE_REFUSED_BUFFER_SPELLS_NONE, all, 0, 3, 6, 0, neither[i]));
        plan[0] = CATKHIZE_PLAN_LAYOUT_VERSION;
        CHECK(refuses_sender(CATKHIZE_REFUSED_NUMBER_NAMES_NONE, all, 0, 3, 6, 0, neither[i]));
        CHECK(refuses_sender(CATKHIZE_REFUSED_IDENTITY, all, 0, CATKHIZE_PROTOCOL_OTHER, 6, 0, neither[i]));
        CHECK(refuses_sender(CATKHIZE_REFUSED_SERVICE, all, 5, CATKHIZE_PROTOCOL_OTHER, 6, 0, neither[i]));
        CHECK(refuses_sender(CATKHIZE_REFUSED_PROFILE, all, 5, CATKHIZE_PROTOCOL_SEGMENTED, 6, 0, neither[i]));
        CHECK(refuses_sender(CATKHIZE_REFUSED_PROFILE, all, 5, CATKHIZE_PROTOCOL_SEGMENTED, 6, 1, neither[i]));
        CHECK(refuses_sender(CATKHIZE_REFUSED_PROFILE, all, 5, CATKHIZE_PROTOCOL_SEGMENTED, 7, 0, neither[i]));
    }
    CHECK(refuses_sender(CATKHIZE_REFUSED_PLAN, all, 5, CATKHIZE_PROTOCOL_SEGMENTED, 6, 0, own->number));
    CHECK(refuses_sender(CATKHIZE_REFUSED_VERSION, all, 5, CATKHIZE_PROTOCOL_SEGMENTED, 7, 0, own->number));
    for (profile = 0; profile < 256; profile++) {
        const int known = profile == CATKHIZE_PROFILE_1 || profile == CATKHIZE_PROFILE_2;
        CHECK(refuses_sender(CATKHIZE_REFUSED_PROFILE, all, 5, CATKHIZE_PROTOCOL_SEGMENTED, 7, 1, (uint8_t)profile) != known);
    }
}

/* A response to three segments. */
static void response_of(uint8_t *response, uint8_t status, uint64_t map) {
    memset(response, 0, CATKHIZE_RESPONSE_OCTETS);
    response[CATKHIZE_RESPONSE_AT_TRANSACTION] = 2;
    response[CATKHIZE_RESPONSE_AT_STATUS] = status;
    catkhize_put16(response + CATKHIZE_RESPONSE_AT_ENTRIES, 3);
    catkhize_put64(response + CATKHIZE_RESPONSE_AT_MAP, map);
}

/* A sender in octets, in a buffer with octets to spare: a new one, and one that was told that segment 1 of 3 is missing. */
static void test_sender_octets(void) {
    const uint64_t number = 0x1122334455667788u;
    uint8_t response[CATKHIZE_RESPONSE_OCTETS], state[CATKHIZE_STATE_OCTETS];
    uint64_t ticket;
    CHECK(catkhize_plan_message(message, 7, 6, 2, CATKHIZE_WINDOW_LAST, 1, 6, plan, sizeof plan) == CATKHIZE_DONE);
    fill(longer, sizeof longer);
    CHECK(catkhize_sender_new(longer, sizeof longer, 7, 34, 0x203040506u, CATKHIZE_PROTOCOL_CARRIER_SPECIFIC, 0xc1, plan, sizeof plan, message, 7, 6,
              own->number, number, 100)
        == CATKHIZE_DONE);
    fill(expected_octets, sizeof expected_octets);
    memset(expected_octets, 0, 6131);
    expected_octets[0] = 2;
    expected_octets[1] = 7;
    expected_octets[2] = 34;
    catkhize_put64(expected_octets + 3, 0x203040506u);
    expected_octets[11] = 1;
    expected_octets[12] = 0xc1;
    expected_octets[13] = 6;
    expected_octets[14] = own->number;
    catkhize_put64(expected_octets + 15, number);
    expected_octets[27] = 1;
    catkhize_put64(expected_octets + 37, 100);
    catkhize_put64(expected_octets + 158, 100);
    memcpy(expected_octets + 174, plan + 1, 5957);
    CHECK(memcmp(longer, expected_octets, sizeof longer) == 0);

    for (ticket = 0; ticket < 3; ticket++) {
        const uint64_t queued = 110 + 30 * ticket;
        CHECK(catkhize_sender_submitted(longer, sizeof longer, number, ticket, queued, queued + 10, state, sizeof state) == CATKHIZE_DONE);
        CHECK(catkhize_sender_accepted(longer, sizeof longer, number, ticket, queued + 20, state, sizeof state) == CATKHIZE_DONE);
    }
    response_of(response, CATKHIZE_STATUS_CONTINUING, 0x5u);
    CHECK(catkhize_sender_receive_response(longer, sizeof longer, 7, 34, 0x203040506u, 1, 0xc1, response, sizeof response, 0, 200, state, sizeof state)
        == CATKHIZE_DONE);
    catkhize_put64(expected_octets + 28, 3);
    expected_octets[36] = 1;
    catkhize_put64(expected_octets + 37, 200);
    catkhize_put64(expected_octets + 45, 3);
    catkhize_put64(expected_octets + 53, 0x7u);
    catkhize_put64(expected_octets + 85, 0x2u);
    catkhize_put64(expected_octets + 117, 0x5u);
    expected_octets[149] = 1;
    catkhize_put64(expected_octets + 150, 170 + own->sender_waits);
    catkhize_put64(expected_octets + 158, 200);
    catkhize_put64(expected_octets + 166, 3);
    CHECK(memcmp(longer, expected_octets, sizeof longer) == 0);
    response_of(response, CATKHIZE_STATUS_ABORTED, 0x5u);
    CHECK(catkhize_sender_receive_response(longer, sizeof longer, 7, 34, 0x203040506u, 1, 0xc1, response, sizeof response, 0, 200, state, sizeof state)
        == CATKHIZE_DONE);
    CHECK(longer[23] == CATKHIZE_SENDER_FAILED && longer[24] == CATKHIZE_FAILED_PEER && longer[25] == 0 && longer[26] == CATKHIZE_STATUS_ABORTED);
    CHECK(zero(longer + 27, 18) && zero(longer + 149, 9));
}

static uint64_t sender_deadline(void) {
    return sender[CATKHIZE_SENDER_AT_DEADLINE_RUNS] == 1 ? catkhize_get64(sender + CATKHIZE_SENDER_AT_DEADLINE) : 0;
}

static uint32_t submit(uint64_t ticket, uint64_t queued, uint64_t observed) {
    fill(answer, sizeof answer);
    return catkhize_sender_submitted(sender, sizeof sender, NUMBER, ticket, queued, observed, answer, sizeof answer);
}

static uint32_t accept_one(uint64_t ticket, uint64_t reading) {
    fill(answer, sizeof answer);
    return catkhize_sender_accepted(sender, sizeof sender, NUMBER, ticket, reading, answer, sizeof answer);
}

static uint32_t fail_one(uint64_t ticket, uint64_t reading) {
    fill(answer, sizeof answer);
    return catkhize_sender_lower_failed(sender, sizeof sender, NUMBER, ticket, CATKHIZE_LOWER_LAYER_TIMED_OUT, 0, reading, answer, sizeof answer);
}

static uint32_t advance_sender(uint64_t reading) {
    fill(answer, sizeof answer);
    return catkhize_sender_advance(sender, sizeof sender, reading, answer, sizeof answer);
}

static uint32_t respond(uint8_t status, uint64_t map, uint64_t reading) {
    uint8_t response[CATKHIZE_RESPONSE_OCTETS];
    response_of(response, status, map);
    fill(answer, sizeof answer);
    return catkhize_sender_receive_response(sender, sizeof sender, PEER, PROTOCOL, response, sizeof response, 0, reading, answer, sizeof answer);
}

static uint8_t sender_before[CATKHIZE_SENDER_OCTETS];

static void remember_sender(void) { memcpy(sender_before, sender, sizeof sender); }

static int sender_as_before(void) { return memcmp(sender, sender_before, sizeof sender) == 0; }

/* The sender has failed for a segment that was too late. */
static int interval_failed(void) {
    const uint8_t *state = sender + CATKHIZE_SENDER_AT_STATE;
    return state[0] == CATKHIZE_SENDER_FAILED && state[CATKHIZE_STATE_AT_FAILURE] == CATKHIZE_FAILED_SEGMENT_INTERVAL && sender_deadline() == 0;
}

/* Segment index is offered under a ticket, and no deadline runs. */
static int offers(uint64_t ticket, uint8_t index) {
    return submission() == CATKHIZE_DONE && catkhize_get64(answer + CATKHIZE_SUBMISSION_AT_TICKET) == ticket
        && answer[CATKHIZE_SUBMISSION_AT_INDEX] == index && sender_deadline() == 0;
}

/* The sender's own interval: after each submission from queued on, up to the deadline, at it and past it. */
static void test_sender_waits(void) {
    const uint64_t waits = own->sender_waits;
    new_sender(CATKHIZE_WINDOW_LAST);
    CHECK(sender_deadline() == 0);
    CHECK(submit(0, 10, 20) == CATKHIZE_DONE && answer[0] == CATKHIZE_SENDER_AWAITING_ACCEPT && sender_deadline() == 10 + waits);
    CHECK(accept_one(0, 30) == CATKHIZE_DONE && answer[0] == CATKHIZE_SENDER_PREPARED && sender_deadline() == 10 + waits);
    CHECK(submit(1, 40, 50) == CATKHIZE_DONE && sender_deadline() == 40 + waits);
    CHECK(advance_sender(39 + waits) == CATKHIZE_DONE && answer[0] == CATKHIZE_SENDER_AWAITING_ACCEPT && sender_deadline() == 40 + waits);
    CHECK(advance_sender(40 + waits) == CATKHIZE_DONE && answer[0] == CATKHIZE_SENDER_PREPARED && offers(2, 1));
    CHECK(sender[CATKHIZE_SENDER_AT_PROFILE] == own->number);

    /* Observed before the deadline, and at it. */
    new_sender(CATKHIZE_WINDOW_LAST);
    CHECK(submit(0, 10, 9 + waits) == CATKHIZE_DONE && answer[0] == CATKHIZE_SENDER_AWAITING_ACCEPT && sender_deadline() == 10 + waits);
    new_sender(CATKHIZE_WINDOW_LAST);
    CHECK(submit(0, 10, 10 + waits) == CATKHIZE_DONE && answer[0] == CATKHIZE_SENDER_PREPARED && offers(1, 0));

    /* Accepted, and given up. */
    new_sender(CATKHIZE_WINDOW_LAST);
    CHECK(submit(0, 10, 20) == CATKHIZE_DONE && accept_one(0, 9 + waits) == CATKHIZE_DONE && sender_deadline() == 10 + waits);
    new_sender(CATKHIZE_WINDOW_LAST);
    CHECK(submit(0, 10, 20) == CATKHIZE_DONE && accept_one(0, 10 + waits) == CATKHIZE_REFUSED_STALE_SUBMISSION);
    CHECK(untouched(answer, sizeof answer) && offers(1, 0));
    new_sender(CATKHIZE_WINDOW_LAST);
    CHECK(submit(0, 10, 20) == CATKHIZE_DONE && fail_one(0, 9 + waits) == CATKHIZE_DONE && answer[0] == CATKHIZE_SENDER_FAILED);
    new_sender(CATKHIZE_WINDOW_LAST);
    CHECK(submit(0, 10, 20) == CATKHIZE_DONE && fail_one(0, 10 + waits) == CATKHIZE_REFUSED_STALE_SUBMISSION);
    CHECK(untouched(answer, sizeof answer) && offers(1, 0));
}

/* The same under Prohibited: the sender fails at the deadline, a segment that is queued there is too late, and the last one has none. */
static void test_sender_waits_prohibited(void) {
    const uint64_t waits = own->sender_waits;
    new_sender(CATKHIZE_WINDOW_PROHIBITED);
    CHECK(submit(0, 10, 20) == CATKHIZE_DONE && sender_deadline() == 10 + waits);
    CHECK(advance_sender(9 + waits) == CATKHIZE_DONE && answer[0] == CATKHIZE_SENDER_AWAITING_ACCEPT);
    CHECK(advance_sender(10 + waits) == CATKHIZE_DONE && answer[0] == CATKHIZE_SENDER_FAILED && interval_failed());
    CHECK(sender[CATKHIZE_SENDER_AT_PROFILE] == own->number);
    new_sender(CATKHIZE_WINDOW_PROHIBITED);
    CHECK(submit(0, 10, 20) == CATKHIZE_DONE && accept_one(0, 30) == CATKHIZE_DONE);
    CHECK(submit(1, 10 + waits, 11 + waits) == CATKHIZE_REFUSED_RECEIPT_TIME && untouched(answer, sizeof answer) && interval_failed());
    new_sender(CATKHIZE_WINDOW_PROHIBITED);
    CHECK(submit(0, 10, 20) == CATKHIZE_DONE && accept_one(0, 30) == CATKHIZE_DONE);
    CHECK(submit(1, 9 + waits, 11 + waits) == CATKHIZE_DONE && sender_deadline() == 9 + 2 * waits && accept_one(1, 12 + waits) == CATKHIZE_DONE);
    CHECK(submit(2, 12 + waits, 12 + waits) == CATKHIZE_DONE && sender_deadline() == 0);
    CHECK(accept_one(2, UINT64_MAX) == CATKHIZE_DONE && answer[0] == CATKHIZE_SENDER_COMPLETE);
}

/* A sender of a plan of three segments, all of which were queued and accepted at 10. */
static void sent_all(const uint8_t *of) {
    uint64_t ticket;
    open_sender(of);
    for (ticket = 0; ticket < 3; ticket++) {
        send_one(ticket);
    }
    CHECK(sender[CATKHIZE_SENDER_AT_STATE] == CATKHIZE_SENDER_AWAITING_RESPONSE && sender_deadline() == 10 + own->sender_waits);
}

/* Responses before the deadline and at it; under Exceptions past it too. */
static void test_sender_responses(void) {
    const uint64_t deadline = 10 + own->sender_waits;
    const uint8_t *state = sender + CATKHIZE_SENDER_AT_STATE;
    CHECK(catkhize_plan_message(message, 7, 6, 2, CATKHIZE_WINDOW_LAST, 1, 6, plan, sizeof plan) == CATKHIZE_DONE);
    sent_all(plan);
    CHECK(respond(CATKHIZE_STATUS_CONTINUING, 0x7u, deadline - 1) == CATKHIZE_DONE && answer[0] == CATKHIZE_SENDER_AWAITING_RESPONSE);
    CHECK(respond(CATKHIZE_STATUS_CONTINUING, 0x7u, deadline) == CATKHIZE_DONE && answer[0] == CATKHIZE_SENDER_PREPARED && offers(3, 2));
    sent_all(plan);
    CHECK(respond(CATKHIZE_STATUS_RECEIVED, 0x7u, deadline) == CATKHIZE_DONE && answer[0] == CATKHIZE_SENDER_COMPLETE);
    sent_all(plan);
    CHECK(advance_sender(deadline) == CATKHIZE_DONE && answer[0] == CATKHIZE_SENDER_PREPARED && offers(3, 0));

    plan_exceptions();
    sent_all(frozen);
    CHECK(respond(CATKHIZE_STATUS_CONTINUING, 0x7u, deadline - 1) == CATKHIZE_DONE && answer[0] == CATKHIZE_SENDER_AWAITING_RESPONSE);
    CHECK(respond(CATKHIZE_STATUS_CONTINUING, 0x7u, deadline) == CATKHIZE_DONE);
    CHECK(state[0] == CATKHIZE_SENDER_COMPLETE && state[CATKHIZE_STATE_AT_COMPLETION] == CATKHIZE_COMPLETE_EXCEPTION_INTERVAL_ELAPSED);
    sent_all(frozen);
    CHECK(respond(CATKHIZE_STATUS_CONTINUING, 0x7u, deadline + 1) == CATKHIZE_REFUSED_CLOSED && untouched(answer, sizeof answer));
    CHECK(state[0] == CATKHIZE_SENDER_COMPLETE && state[CATKHIZE_STATE_AT_COMPLETION] == CATKHIZE_COMPLETE_EXCEPTION_INTERVAL_ELAPSED);
}

/* The last queued reading from which the sender's own interval fits, and 34 one past it. The last segment under Prohibited sets no deadline and has
 * no 34. */
static void test_sender_latest(void) {
    const uint64_t latest = UINT64_MAX - own->sender_waits;
    uint64_t ticket;
    new_sender(CATKHIZE_WINDOW_LAST);
    remember_sender();
    CHECK(submit(0, latest + 1, latest + 1) == CATKHIZE_REFUSED_TIME_OVERFLOW && untouched(answer, sizeof answer) && sender_as_before());
    CHECK(submit(0, UINT64_MAX, UINT64_MAX) == CATKHIZE_REFUSED_TIME_OVERFLOW && untouched(answer, sizeof answer) && sender_as_before());
    CHECK(submit(0, latest, latest) == CATKHIZE_DONE && answer[0] == CATKHIZE_SENDER_AWAITING_ACCEPT && sender_deadline() == UINT64_MAX);
    new_sender(CATKHIZE_WINDOW_PROHIBITED);
    for (ticket = 0; ticket < 2; ticket++) {
        remember_sender();
        CHECK(submit(ticket, latest + 1, latest + 1) == CATKHIZE_REFUSED_TIME_OVERFLOW && untouched(answer, sizeof answer) && sender_as_before());
        CHECK(submit(ticket, latest, latest) == CATKHIZE_DONE && sender_deadline() == UINT64_MAX && accept_one(ticket, latest) == CATKHIZE_DONE);
    }
    CHECK(submit(2, UINT64_MAX - 1, UINT64_MAX - 1) == CATKHIZE_DONE && sender_deadline() == 0);
    CHECK(accept_one(2, UINT64_MAX) == CATKHIZE_DONE && answer[0] == CATKHIZE_SENDER_COMPLETE);
}

/* Every call but submission refuses the sender so, with so many octets and this reading, and the record is as it was. */
static int sender_refuses(uint32_t refusal, size_t octets, uint64_t reading) {
    uint8_t response[CATKHIZE_RESPONSE_OCTETS];
    response_of(response, CATKHIZE_STATUS_CONTINUING, 0x7u);
    fill(answer, sizeof answer);
    return catkhize_sender_advance(sender, octets, reading, answer, sizeof answer) == refusal
        && catkhize_sender_cancel(sender, octets, reading, answer, sizeof answer) == refusal
        && catkhize_sender_submitted(sender, octets, NUMBER, 0, reading, reading, answer, sizeof answer) == refusal
        && catkhize_sender_accepted(sender, octets, NUMBER, 0, reading, answer, sizeof answer) == refusal
        && catkhize_sender_lower_failed(sender, octets, NUMBER, 0, CATKHIZE_LOWER_LAYER_REJECTED, 9, reading, answer, sizeof answer) == refusal
        && catkhize_sender_receive_response(sender, octets, PEER, PROTOCOL, response, sizeof response, 0, reading, answer, sizeof answer) == refusal
        && untouched(answer, sizeof answer) && sender_as_before();
}

/* A sender of neither profile, at the reading 1000: 62 from every call, behind 257 and 258 and before 33, and nothing is changed; what it offers is as
 * it was. With its own profile the same record gets 33. */
static void sender_of_neither(void) {
    uint8_t response[CATKHIZE_RESPONSE_OCTETS], offer[sizeof answer];
    uint32_t given;
    size_t i;
    CHECK(advance_sender(1000) == CATKHIZE_DONE && sender[CATKHIZE_SENDER_AT_PROFILE] == own->number);
    given = submission();
    memcpy(offer, answer, sizeof offer);
    response_of(response, 14, 0x7u);
    for (i = 0; i < sizeof neither; i++) {
        sender[CATKHIZE_SENDER_AT_PROFILE] = neither[i];
        remember_sender();
        CHECK(sender_refuses(CATKHIZE_REFUSED_IMPOSSIBLE_STATE, sizeof sender, 1000));
        CHECK(sender_refuses(CATKHIZE_REFUSED_IMPOSSIBLE_STATE, sizeof sender, 999));
        CHECK(catkhize_sender_lower_failed(sender, sizeof sender, NUMBER, 0, 3, 9, 999, answer, sizeof answer) == CATKHIZE_REFUSED_NUMBER_NAMES_NONE);
        CHECK(catkhize_sender_receive_response(sender, sizeof sender, PEER, PROTOCOL, response, sizeof response, 0, 999, answer, sizeof answer)
            == CATKHIZE_REFUSED_BUFFER_SPELLS_NONE);
        CHECK(submission() == given && memcmp(answer, offer, sizeof offer) == 0 && sender_as_before());
    }
    sender[CATKHIZE_SENDER_AT_PROFILE] = own->number;
    remember_sender();
    CHECK(sender_refuses(CATKHIZE_REFUSED_CLOCK_REGRESSION, sizeof sender, 999));
}

static void test_sender_neither(void) {
    new_sender(CATKHIZE_WINDOW_LAST);
    sender_of_neither();
    new_sender(CATKHIZE_WINDOW_LAST);
    CHECK(submit(0, 10, 20) == CATKHIZE_DONE && answer[0] == CATKHIZE_SENDER_AWAITING_ACCEPT);
    sender_of_neither();
    sent_all(plan);
    sender_of_neither();
    CHECK(respond(CATKHIZE_STATUS_RECEIVED, 0x7u, 1000) == CATKHIZE_DONE && answer[0] == CATKHIZE_SENDER_COMPLETE);
    sender_of_neither();
    new_sender(CATKHIZE_WINDOW_LAST);
    CHECK(catkhize_sender_cancel(sender, sizeof sender, 1000, answer, sizeof answer) == CATKHIZE_DONE && answer[0] == CATKHIZE_SENDER_CANCELLED);
    sender_of_neither();
}

/* Other versions of the layout, and a record of the one before: 257 from every call, in a buffer of the former size 256. */
static void test_sender_former(void) {
    static const uint8_t versions[5] = {0, 1, 3, 130, 255};
    size_t i;
    new_sender(CATKHIZE_WINDOW_LAST);
    for (i = 0; i < sizeof versions; i++) {
        sender[0] = versions[i];
        remember_sender();
        CHECK(sender_refuses(CATKHIZE_REFUSED_BUFFER_SPELLS_NONE, sizeof sender, 0));
        CHECK(submission() == CATKHIZE_REFUSED_BUFFER_SPELLS_NONE && untouched(answer, sizeof answer) && sender_as_before());
    }
    make_former(sender, sizeof sender, CATKHIZE_SENDER_AT_PROFILE);
    remember_sender();
    CHECK(sender_refuses(CATKHIZE_REFUSED_BUFFER_SPELLS_NONE, sizeof sender, 0));
    CHECK(submission() == CATKHIZE_REFUSED_BUFFER_SPELLS_NONE && untouched(answer, sizeof answer) && sender_as_before());
    CHECK(sender_refuses(CATKHIZE_REFUSED_BUFFER_TOO_SHORT, 6130, 0));
    CHECK(catkhize_sender_submission(sender, 6130, answer, sizeof answer) == CATKHIZE_REFUSED_BUFFER_TOO_SHORT && untouched(answer, sizeof answer));
}

/* The machines, of one profile. */
static void run_machines(void) {
    test_receiver();
    test_receiver_time();
    test_release_refused();
    test_release();
    test_figures();
    test_order_received();
    test_train();
    test_train_goes_on();
    test_train_figures();
    test_short_answers();
    test_receiver_refused();
    test_receiver_octets();
    test_receiver_waits();
    test_receiver_latest();
    test_receiver_neither();
    test_receiver_former();
    test_sender();
    test_sender_ends();
    test_sender_exceptions();
    test_sender_even();
    test_sender_converted();
    test_sender_refused();
    test_sender_octets();
    test_sender_waits();
    test_sender_waits_prohibited();
    test_sender_responses();
    test_sender_latest();
    test_sender_neither();
    test_sender_former();
}

static void run(void) {
    size_t i;
    test_numbers();
    test_layouts();
    test_encode();
    test_decode();
    test_plan();
    test_frozen();
    test_even();
    test_exceptions();
    test_convert();
    test_patterns();
    test_convert_refused();
    test_orders();
    test_orders_refused();
    for (i = 0; i < 2; i++) {
        own = profiles + i;
        run_machines();
    }
}

/* The tests run on a stack of their own, which was filled before. */
#define STACK (4u * 1024u * 1024u)

static ucontext_t outside, inside;

/* How many octets of a filled stack were written, from its high end down. */
static size_t taken(const uint8_t *stack) {
    size_t free_octets = 0;
    while (free_octets < STACK && stack[free_octets] == FILLING) {
        free_octets++;
    }
    return STACK - free_octets;
}

static int run_on(uint8_t *stack) {
    fill(stack, STACK);
    if (getcontext(&inside) != 0) {
        return -1;
    }
    inside.uc_stack.ss_sp = stack;
    inside.uc_stack.ss_size = STACK;
    inside.uc_link = &outside;
    makecontext(&inside, run, 0);
    return swapcontext(&outside, &inside);
}

int main(void) {
    uint8_t *stack = (uint8_t *)malloc(STACK);
    if (stack == NULL || run_on(stack) != 0) {
        return EXIT_FAILURE;
    }
    CHECK(taken(stack) <= CATKHIZE_STACK_OCTETS);
    printf("%u checks, %u failures, %lu octets of stack\n", checks, failures, (unsigned long)taken(stack));
    free(stack);
    return failures == 0 ? EXIT_SUCCESS : EXIT_FAILURE;
}
