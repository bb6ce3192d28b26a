/*
 * catkhize.h: the TSAR core of the bench cell, for C99 and C++.
 *
 * Every call takes numbers and lent octets (a pointer and the number of octets after it) and gives a
 * number of 32 bits. The library keeps nothing between calls, uses no heap, needs memcpy and memset of
 * the C library and no other function, and may be used from several threads: a machine (receiver or
 * sender) lies whole in a record buffer of the caller's, and calls on different records do not touch
 * one another.
 *
 * Rules for the caller. The library cannot check them.
 *  - No pointer is NULL, also where its number of octets is 0.
 *  - A buffer that a call writes overlaps no other buffer of that call. Buffers that it only reads (const)
 *    may overlap one another.
 *  - Nothing else writes to a call's buffers while it runs.
 *  - The calls keep whole records on the stack. CATKHIZE_STACK_OCTETS says how much to set aside.
 *
 * What a call changes. Record, plan and answer buffers may be longer than their layout: only the first
 * octets are read or written. A call writes its answer only where it gives CATKHIZE_DONE
 * (catkhize_receiver_train also where document 01 refuses). A call that is refused changes nothing,
 * except in the late cases, and with 38 on a Complete receiver, that catkhize_receiver_receive,
 * catkhize_receiver_train, catkhize_sender_submitted, catkhize_sender_accepted,
 * catkhize_sender_lower_failed and catkhize_sender_receive_response name below: the record then spells
 * what the machine became. A train keeps what its segments before the refused one did.
 *
 * 'Document 01' is docs/01-scope.md with what docs/02-change-requests.md adds to it: 25 is of request
 * 2026-09, 26 of 2026-06, 28 of 2026-10, 64 of 2026-11. n/m is its refusal n with field m.
 */
#ifndef CATKHIZE_H
#define CATKHIZE_H

#include <stddef.h>
#include <stdint.h>

#ifdef __cplusplus
extern "C" {
#endif

/* ---- The number that a call gives ---- */

#define CATKHIZE_DONE 0u
/* No refusal either: nothing to plan, no such segment, nothing offered. The answer is as it was. */
#define CATKHIZE_NOTHING 1u

/* Refusal n/m: of document 01 where n is below 256, else of these calls alone. m is 0 where there is none. */
#define CATKHIZE_REFUSAL(n, m) (256u * (n) + (m))
#define CATKHIZE_IS_REFUSAL(given) ((given) >= 256u)
#define CATKHIZE_REFUSAL_N(given) ((given) / 256u)
#define CATKHIZE_REFUSAL_M(given) ((given) % 256u)
/* A refusal of these calls alone: the last three below. */
#define CATKHIZE_IS_OWN_REFUSAL(given) (CATKHIZE_REFUSAL_N(given) >= 256u)

/* The codec's refusals. */
#define CATKHIZE_REFUSED_VERSION CATKHIZE_REFUSAL(1, 0)
#define CATKHIZE_REFUSED_TRUNCATED CATKHIZE_REFUSAL(2, 0)
#define CATKHIZE_REFUSED_PROTOCOL CATKHIZE_REFUSAL(3, 0)
#define CATKHIZE_REFUSED_MESSAGE_TYPE CATKHIZE_REFUSAL(4, 0)
#define CATKHIZE_REFUSED_UNSUPPORTED_RESPONSE CATKHIZE_REFUSAL(5, 0)
#define CATKHIZE_REFUSED_FIELD_TRANSACTION_ID CATKHIZE_REFUSAL(6, 1)
#define CATKHIZE_REFUSED_FIELD_SEGMENT_DATA_LENGTH CATKHIZE_REFUSAL(6, 2)
#define CATKHIZE_REFUSED_FIELD_BEGIN_SEQUENCE_NUMBER CATKHIZE_REFUSAL(6, 3)
#define CATKHIZE_REFUSED_FIELD_MESSAGE_LENGTH CATKHIZE_REFUSAL(6, 4)
#define CATKHIZE_REFUSED_FIELD_CRC24 CATKHIZE_REFUSAL(6, 5)
#define CATKHIZE_REFUSED_FIELD_ACKNOWLEDGMENT_MAP_LENGTH CATKHIZE_REFUSAL(6, 6)
#define CATKHIZE_REFUSED_FIELD_SUPPORT_STATUS CATKHIZE_REFUSAL(6, 7)
#define CATKHIZE_REFUSED_RESERVED CATKHIZE_REFUSAL(7, 0)
#define CATKHIZE_REFUSED_DUPLICATE_PARAMETER CATKHIZE_REFUSAL(8, 0)
/* The planners', the frozen check's, the converter's and the delivery orders'. */
#define CATKHIZE_REFUSED_PAYLOAD_BUDGET CATKHIZE_REFUSAL(20, 0)
#define CATKHIZE_REFUSED_HEADER_CAPACITY CATKHIZE_REFUSAL(21, 0)
#define CATKHIZE_REFUSED_SEGMENT_COUNT CATKHIZE_REFUSAL(22, 0)
#define CATKHIZE_REFUSED_FROZEN_PLAN CATKHIZE_REFUSAL(23, 0)
#define CATKHIZE_REFUSED_JOINED_LENGTH CATKHIZE_REFUSAL(24, 0)
#define CATKHIZE_REFUSED_EXCEPTIONS_WINDOW CATKHIZE_REFUSAL(25, 0)
#define CATKHIZE_REFUSED_OTHER_PATTERN CATKHIZE_REFUSAL(26, 0)
#define CATKHIZE_REFUSED_ORDER_NUMBER CATKHIZE_REFUSAL(28, 0)
/* The machines'. */
#define CATKHIZE_REFUSED_IDENTITY CATKHIZE_REFUSAL(30, 0)
#define CATKHIZE_REFUSED_SERVICE CATKHIZE_REFUSAL(31, 0)
#define CATKHIZE_REFUSED_TRANSACTION_ID CATKHIZE_REFUSAL(32, 0)
#define CATKHIZE_REFUSED_CLOCK_REGRESSION CATKHIZE_REFUSAL(33, 0)
#define CATKHIZE_REFUSED_TIME_OVERFLOW CATKHIZE_REFUSAL(34, 0)
#define CATKHIZE_REFUSED_UNPARSED_SEGMENT CATKHIZE_REFUSAL(35, 0)
#define CATKHIZE_REFUSED_BEGIN_REQUIRED CATKHIZE_REFUSAL(36, 0)
#define CATKHIZE_REFUSED_TIMER_DUE CATKHIZE_REFUSAL(37, 0)
#define CATKHIZE_REFUSED_CLOSED CATKHIZE_REFUSAL(38, 0)
#define CATKHIZE_REFUSED_PLAN CATKHIZE_REFUSAL(40, 0)
#define CATKHIZE_REFUSED_COUNTER_OVERFLOW CATKHIZE_REFUSAL(41, 0)
#define CATKHIZE_REFUSED_STALE_SUBMISSION CATKHIZE_REFUSAL(42, 0)
#define CATKHIZE_REFUSED_NOT_SUBMITTED CATKHIZE_REFUSAL(43, 0)
#define CATKHIZE_REFUSED_RECEIPT_TIME CATKHIZE_REFUSAL(44, 0)
#define CATKHIZE_REFUSED_PEER CATKHIZE_REFUSAL(45, 0)
#define CATKHIZE_REFUSED_RESPONSES_PROHIBITED CATKHIZE_REFUSAL(46, 0)
#define CATKHIZE_REFUSED_UNPARSED_RESPONSE CATKHIZE_REFUSAL(47, 0)
#define CATKHIZE_REFUSED_UNSUBMITTED_ACKNOWLEDGMENT CATKHIZE_REFUSAL(48, 0)
#define CATKHIZE_REFUSED_CONTRADICTORY_RECEIPT CATKHIZE_REFUSAL(49, 0)
/* Of lent buffers and records. */
#define CATKHIZE_REFUSED_STORE_TOO_SHORT CATKHIZE_REFUSAL(60, 0)
#define CATKHIZE_REFUSED_OUTPUT_TOO_SHORT CATKHIZE_REFUSAL(61, 0)
#define CATKHIZE_REFUSED_IMPOSSIBLE_STATE CATKHIZE_REFUSAL(62, 0)
#define CATKHIZE_REFUSED_TICKETS CATKHIZE_REFUSAL(63, 0)
/* When a machine is made, right after 31: a profile that is neither 1 nor 2. */
#define CATKHIZE_REFUSED_PROFILE CATKHIZE_REFUSAL(64, 0)
/* Of these calls alone, in this order and before any of document 01's; nothing is changed. A window above 5, a
 * protocol or failure above 2 and a dialect above 1 name no case. A profile is no such number: one that is neither
 * 1 nor 2 gives 64 in its place, never 258. */
#define CATKHIZE_REFUSED_BUFFER_TOO_SHORT CATKHIZE_REFUSAL(256, 0) /* a buffer with a layout is shorter than it */
#define CATKHIZE_REFUSED_BUFFER_SPELLS_NONE CATKHIZE_REFUSAL(257, 0) /* such a buffer that is read spells nothing */
#define CATKHIZE_REFUSED_NUMBER_NAMES_NONE CATKHIZE_REFUSAL(258, 0) /* a number that is given names no case */

/* ---- Sizes ---- */

/* A receiver's store: 255 octets for each of 256 sequence numbers. Octets past these are never touched. */
#define CATKHIZE_STORE_OCTETS 65280u
/* The longest segment that encode writes. */
#define CATKHIZE_ENCODING_OCTETS 264u
/* What a call needs of stack at the most, measured on x86-64 and rounded up. */
#define CATKHIZE_STACK_OCTETS 131072u

#define CATKHIZE_SEGMENT_OCTETS 15u
#define CATKHIZE_HEAD_OCTETS 23u
#define CATKHIZE_HEADS_OCTETS (256u * CATKHIZE_HEAD_OCTETS)
#define CATKHIZE_DECODED_OCTETS 31u
#define CATKHIZE_PART_OCTETS 31u
#define CATKHIZE_RESPONSE_OCTETS 41u
#define CATKHIZE_RECEPTION_OCTETS 55u
#define CATKHIZE_REPLY_OCTETS 46u
#define CATKHIZE_WRITTEN_OCTETS 8u
#define CATKHIZE_RECEIVER_OCTETS 3931u
#define CATKHIZE_PLAN_OCTETS 5958u
#define CATKHIZE_SENDER_OCTETS 6131u
#define CATKHIZE_STATE_OCTETS 4u
#define CATKHIZE_SUBMISSION_OCTETS 48u
#define CATKHIZE_TRAIN_OCTETS 63u
/* REPLY, RECEPTION and TRAIN had 42, 51 and 59 octets before the figures of missing entries came into them.
 * An answer of that size gives CATKHIZE_REFUSED_BUFFER_TOO_SHORT now. In a longer one the message stands four
 * octets further on: a program that is linked anew and not compiled anew reads the figures there, and misses
 * the message. */

/* The first octet of a receiver's, a plan's and a sender's buffer. */
#define CATKHIZE_RECEIVER_LAYOUT_VERSION 2u
#define CATKHIZE_PLAN_LAYOUT_VERSION 1u
#define CATKHIZE_SENDER_LAYOUT_VERSION 2u
/* WARNING to whoever keeps records in octets from one version of the library to the next: RECEIVER and SENDER
 * had 3930 and 6130 octets and layout version 1 before the profile came into them (2026-11). A record of that
 * version gives CATKHIZE_REFUSED_BUFFER_SPELLS_NONE in every call that takes it, and in a buffer of its own
 * size CATKHIZE_REFUSED_BUFFER_TOO_SHORT before that. It is not changed, and there is no converter: bring
 * machines to their end with the library that made them, or make them anew. A PLAN is read as it was written.
 * Compile anew what calls catkhize_receiver_new or catkhize_sender_new, which take one argument more: the
 * profile stands behind the version. */

/* ---- Layouts ----
 *
 * CATKHIZE_layout_AT_field is the offset of a field. Numbers stand highest octet first; flags are 0 or
 * 1; a field that may be absent is a flag, then the value in its full width, 0 where the flag is 0. */

/* SEGMENT: a segment without its data. A kind that is not Begin has no services, one that is not End no
 * CRC: those octets are 0. */
#define CATKHIZE_SEGMENT_AT_TRANSACTION 0u
#define CATKHIZE_SEGMENT_AT_SEQUENCE 1u
#define CATKHIZE_SEGMENT_AT_KIND 2u
#define CATKHIZE_SEGMENT_AT_LENGTH_STATED 3u
#define CATKHIZE_SEGMENT_AT_LENGTH 4u /* 16 bits */
#define CATKHIZE_SEGMENT_AT_SERVICES_PRESENT 6u
#define CATKHIZE_SEGMENT_AT_COMPRESSION 7u
#define CATKHIZE_SEGMENT_AT_WINDOW 8u
#define CATKHIZE_SEGMENT_AT_CRC_STATUS 9u
#define CATKHIZE_SEGMENT_AT_CRC_KIND 10u
#define CATKHIZE_SEGMENT_AT_CRC 11u /* 32 bits */

#define CATKHIZE_KIND_BEGIN 0u
#define CATKHIZE_KIND_CONTINUE 1u
#define CATKHIZE_KIND_END 2u

#define CATKHIZE_COMPRESSION_NONE 0u
#define CATKHIZE_COMPRESSION_V42BIS 1u

#define CATKHIZE_WINDOW_PROHIBITED 0u
#define CATKHIZE_WINDOW_EVERY4 1u
#define CATKHIZE_WINDOW_EVERY8 2u
#define CATKHIZE_WINDOW_EVERY16 3u
#define CATKHIZE_WINDOW_LAST 4u
#define CATKHIZE_WINDOW_EXCEPTIONS 5u

#define CATKHIZE_CRC_STATUS_NONE 0u
#define CATKHIZE_CRC_STATUS_CRC16 1u
#define CATKHIZE_CRC_STATUS_CRC24 2u

#define CATKHIZE_CRC_ABSENT 0u
#define CATKHIZE_CRC_16 1u
#define CATKHIZE_CRC_24 2u

/* HEAD: SEGMENT, then the number of its data octets. */
#define CATKHIZE_HEAD_AT_DATA_LENGTH 15u /* 64 bits */
/* DECODED: HEAD, then the number of unparsed octets. */
#define CATKHIZE_DECODED_AT_UNPARSED 23u /* 64 bits */
/* PART: HEAD, then where its data begin in the message. */
#define CATKHIZE_PART_AT_OFFSET 23u /* 64 bits */

/* RESPONSE. Entry i of the map is bit i % 64 of word i / 64; bits past the entries are ignored when read. It
 * has no figures of missing entries: they are neither sent nor given to a sender. */
#define CATKHIZE_RESPONSE_AT_TRANSACTION 0u
#define CATKHIZE_RESPONSE_AT_STATUS 1u
#define CATKHIZE_RESPONSE_AT_ENTRIES 2u /* 16 bits */
#define CATKHIZE_RESPONSE_AT_MAP 4u /* four words of 64 bits */
#define CATKHIZE_RESPONSE_AT_SUPPORT_LISTED 36u
#define CATKHIZE_RESPONSE_AT_SUPPORT 37u /* compression, encryption, window, CRC: 0 or 1 each */

#define CATKHIZE_STATUS_CONTINUING 0u
#define CATKHIZE_STATUS_INTER_SEGMENT_TIMEOUT 1u
#define CATKHIZE_STATUS_ABORTED 2u
#define CATKHIZE_STATUS_CRC_SELECTION_UNSUPPORTED 3u
#define CATKHIZE_STATUS_COMPRESSION_UNSUPPORTED 4u
#define CATKHIZE_STATUS_ENCRYPTION_UNSUPPORTED 5u
#define CATKHIZE_STATUS_ACKNOWLEDGMENT_WINDOW_UNSUPPORTED 6u
#define CATKHIZE_STATUS_PROTOCOL_UNSUPPORTED 7u
#define CATKHIZE_STATUS_MESSAGE_LENGTH_ERROR 8u
#define CATKHIZE_STATUS_MESSAGE_TOO_LONG 9u
#define CATKHIZE_STATUS_RECEIVED 10u
#define CATKHIZE_STATUS_DUPLICATE_SIZE_MISMATCH 11u
#define CATKHIZE_STATUS_CRC_ERROR 12u
#define CATKHIZE_STATUS_MULTIPLE_SERVICES_UNSUPPORTED 13u

/* REPLY: a response that is to be sent, if any, and beside it the figures of its own map: how many of its
 * entries are missing, and the first missing one, CATKHIZE_NONE_MISSING if none is. All octets are 0 where
 * there is no response; the 0 at FIRST_MISSING then names no entry. A map's entries go to the end where it is
 * known, and else to the highest segment held (in a timeout answer one further): that none of them is missing
 * does not say that the message is whole, status Received does. */
#define CATKHIZE_REPLY_AT_PRESENT 0u
#define CATKHIZE_REPLY_AT_RESPONSE 1u
#define CATKHIZE_REPLY_AT_MISSING 42u /* 16 bits */
#define CATKHIZE_REPLY_AT_FIRST_MISSING 44u /* 16 bits */

#define CATKHIZE_NONE_MISSING 256u

/* RECEPTION: REPLY, then the message that is handed over, if any: the first octets of output. */
#define CATKHIZE_RECEPTION_AT_PRESENT CATKHIZE_REPLY_AT_PRESENT
#define CATKHIZE_RECEPTION_AT_RESPONSE CATKHIZE_REPLY_AT_RESPONSE
#define CATKHIZE_RECEPTION_AT_MISSING CATKHIZE_REPLY_AT_MISSING
#define CATKHIZE_RECEPTION_AT_FIRST_MISSING CATKHIZE_REPLY_AT_FIRST_MISSING
#define CATKHIZE_RECEPTION_AT_HANDED_OVER CATKHIZE_REPLY_OCTETS
#define CATKHIZE_RECEPTION_AT_MESSAGE_OCTETS (CATKHIZE_RECEPTION_AT_HANDED_OVER + 1u) /* 64 bits */
/* TRAIN: how many segments were received, then the RECEPTION of the last, with the figures beside its
 * response; that RECEPTION is all 0 beside a refusal. */
#define CATKHIZE_TRAIN_AT_RECEIVED 0u /* 64 bits */
#define CATKHIZE_TRAIN_AT_RECEPTION 8u

/* Protocols. Segmented with any octet is served, CarrierSpecific with both top bits of its octet set, and
 * no other. */
#define CATKHIZE_PROTOCOL_SEGMENTED 0u
#define CATKHIZE_PROTOCOL_CARRIER_SPECIFIC 1u
#define CATKHIZE_PROTOCOL_OTHER 2u

/* Profiles: how long a machine waits. 'Numbers that several calls take' has the figures. */
#define CATKHIZE_PROFILE_1 1u
#define CATKHIZE_PROFILE_2 2u

/* RECEIVER. The fields after the layout version may be read by the caller; written only by the calls. */
#define CATKHIZE_RECEIVER_AT_PEER_KIND 1u
#define CATKHIZE_RECEIVER_AT_PEER_WIDTH 2u
#define CATKHIZE_RECEIVER_AT_PEER_VALUE 3u /* 64 bits */
#define CATKHIZE_RECEIVER_AT_PROTOCOL 11u
#define CATKHIZE_RECEIVER_AT_PROTOCOL_OCTET 12u
#define CATKHIZE_RECEIVER_AT_TRANSACTION 13u
#define CATKHIZE_RECEIVER_AT_VERSION 14u
#define CATKHIZE_RECEIVER_AT_PROFILE 15u
#define CATKHIZE_RECEIVER_AT_MAXIMUM 16u /* 64 bits */
#define CATKHIZE_RECEIVER_AT_STATE 24u
#define CATKHIZE_RECEIVER_AT_STATUS 25u /* with Failed */
#define CATKHIZE_RECEIVER_AT_COMPRESSION 26u
#define CATKHIZE_RECEIVER_AT_WINDOW 27u
#define CATKHIZE_RECEIVER_AT_CRC_STATUS 28u
#define CATKHIZE_RECEIVER_AT_END_KNOWN 29u
#define CATKHIZE_RECEIVER_AT_END 30u
#define CATKHIZE_RECEIVER_AT_LENGTH_STATED 31u
#define CATKHIZE_RECEIVER_AT_LENGTH 32u /* 16 bits */
#define CATKHIZE_RECEIVER_AT_STORED_OCTETS 34u /* 64 bits */
#define CATKHIZE_RECEIVER_AT_DEADLINE_RUNS 42u
#define CATKHIZE_RECEIVER_AT_DEADLINE 43u /* 64 bits */
#define CATKHIZE_RECEIVER_AT_LAST_READING 51u /* 64 bits */
#define CATKHIZE_RECEIVER_AT_HELD 59u /* four words of 64 bits, as in a map */
#define CATKHIZE_RECEIVER_AT_DATA_LENGTHS 91u /* 256 of 16 bits */
#define CATKHIZE_RECEIVER_AT_SLOTS 603u /* 256 of 13 octets: the last 13 of a SEGMENT */

#define CATKHIZE_RECEIVER_AWAITING_BEGIN 0u
#define CATKHIZE_RECEIVER_RECEIVING 1u
#define CATKHIZE_RECEIVER_COMPLETE 2u
#define CATKHIZE_RECEIVER_FAILED 3u
#define CATKHIZE_RECEIVER_EXPIRED 4u
#define CATKHIZE_RECEIVER_CANCELED 5u

/* PLAN. Planned: by either planner, capacities from which every segment follows. LATER_CAPACITY is the
 * number of data octets of a later segment, of the last one as far as the message goes. Where the capacities
 * leave octets over (message octets less Begin's less (count - 1) * LATER_CAPACITY), so many later
 * segments, the first ones, have one octet more; catkhize_plan_message leaves none over. A plan with octets
 * left over is not for a library before 2026-02, which gives no octet more. The frozen part of a plan that a
 * planner makes is 0, and catkhize_sender_new refuses another with 40. It also refuses with 40 a planned PLAN
 * under Exceptions, which a library before 2026-09 made. The train of one is accepted by
 * catkhize_try_from_frozen: the HEADs that catkhize_plan_segment gives, the message as joined, and the PLAN's
 * count and budget. Frozen: by catkhize_try_from_frozen and catkhize_convert, heads; the planned part is 0. */
#define CATKHIZE_PLAN_AT_FORM 1u
#define CATKHIZE_PLAN_AT_MESSAGE_OCTETS 2u /* planned; 64 bits, as all below but where said */
#define CATKHIZE_PLAN_AT_BUDGET 10u
#define CATKHIZE_PLAN_AT_TRANSACTION 18u /* an octet */
#define CATKHIZE_PLAN_AT_WINDOW 19u /* an octet */
#define CATKHIZE_PLAN_AT_BEGIN_OCTETS 20u
#define CATKHIZE_PLAN_AT_LATER_CAPACITY 28u
#define CATKHIZE_PLAN_AT_COUNT 36u
#define CATKHIZE_PLAN_AT_STATES_LENGTH 44u /* a flag */
#define CATKHIZE_PLAN_AT_FROZEN_COUNT 45u
#define CATKHIZE_PLAN_AT_FROZEN_MESSAGE_OCTETS 53u
#define CATKHIZE_PLAN_AT_FROZEN_BUDGET 61u
#define CATKHIZE_PLAN_AT_FROZEN_WINDOW 69u /* an octet */
#define CATKHIZE_PLAN_AT_FROZEN_HEADS 70u /* 256 HEADs, those at and past the count all 0 */

#define CATKHIZE_PLAN_PLANNED 0u
#define CATKHIZE_PLAN_FROZEN 1u

/* Dialects of a frozen plan: the Begin alone states the message's length, or every segment does. */
#define CATKHIZE_DIALECT_BEGIN_ONLY 0u
#define CATKHIZE_DIALECT_EVERY 1u

/* SENDER. */
#define CATKHIZE_SENDER_AT_PEER_KIND 1u
#define CATKHIZE_SENDER_AT_PEER_WIDTH 2u
#define CATKHIZE_SENDER_AT_PEER_VALUE 3u /* 64 bits */
#define CATKHIZE_SENDER_AT_PROTOCOL 11u
#define CATKHIZE_SENDER_AT_PROTOCOL_OCTET 12u
#define CATKHIZE_SENDER_AT_VERSION 13u
#define CATKHIZE_SENDER_AT_PROFILE 14u
#define CATKHIZE_SENDER_AT_NUMBER 15u /* 64 bits */
#define CATKHIZE_SENDER_AT_STATE 23u /* STATE */
#define CATKHIZE_SENDER_AT_SUBMISSION_PRESENT 27u
#define CATKHIZE_SENDER_AT_SUBMISSION_TICKET 28u /* 64 bits */
#define CATKHIZE_SENDER_AT_SUBMISSION_INDEX 36u
#define CATKHIZE_SENDER_AT_SUBMISSION_PREPARED 37u /* 64 bits */
#define CATKHIZE_SENDER_AT_LAST_TICKET 45u /* 64 bits */
#define CATKHIZE_SENDER_AT_SUBMITTED 53u /* four words of 64 bits, as in a map; the next two too */
#define CATKHIZE_SENDER_AT_RETRY 85u
#define CATKHIZE_SENDER_AT_RECEIVED 117u
#define CATKHIZE_SENDER_AT_DEADLINE_RUNS 149u
#define CATKHIZE_SENDER_AT_DEADLINE 150u /* 64 bits */
#define CATKHIZE_SENDER_AT_LAST_READING 158u /* 64 bits */
#define CATKHIZE_SENDER_AT_SUBMISSIONS 166u /* 64 bits */
#define CATKHIZE_SENDER_AT_PLAN 174u /* a PLAN without its layout version */

/* STATE: what does not apply is 0. */
#define CATKHIZE_STATE_AT_STATE 0u
#define CATKHIZE_STATE_AT_COMPLETION 1u /* with Complete */
#define CATKHIZE_STATE_AT_FAILURE 1u /* with Failed */
#define CATKHIZE_STATE_AT_LOWER_LAYER 2u /* with LowerLayer */
#define CATKHIZE_STATE_AT_VALUE 3u /* the cause of Rejected, the status of Peer */

#define CATKHIZE_SENDER_PREPARED 0u
#define CATKHIZE_SENDER_AWAITING_ACCEPT 1u
#define CATKHIZE_SENDER_AWAITING_RESPONSE 2u
#define CATKHIZE_SENDER_COMPLETE 3u
#define CATKHIZE_SENDER_FAILED 4u
#define CATKHIZE_SENDER_CANCELLED 5u

#define CATKHIZE_COMPLETE_LOWER_LAYER_ACCEPTED 0u
#define CATKHIZE_COMPLETE_PEER_RECEIVED 1u
#define CATKHIZE_COMPLETE_EXCEPTION_INTERVAL_ELAPSED 2u

#define CATKHIZE_FAILED_SEGMENT_INTERVAL 0u
#define CATKHIZE_FAILED_LOWER_LAYER 1u
#define CATKHIZE_FAILED_PEER 2u

#define CATKHIZE_LOWER_LAYER_REJECTED 0u
#define CATKHIZE_LOWER_LAYER_TIMED_OUT 1u
#define CATKHIZE_LOWER_LAYER_CANCELLED 2u

/* SUBMISSION: the token (number and ticket), then the segment to hand to Layer 3. */
#define CATKHIZE_SUBMISSION_AT_NUMBER 0u /* 64 bits */
#define CATKHIZE_SUBMISSION_AT_TICKET 8u /* 64 bits */
#define CATKHIZE_SUBMISSION_AT_INDEX 16u
#define CATKHIZE_SUBMISSION_AT_HEAD 17u /* HEAD */
#define CATKHIZE_SUBMISSION_AT_OFFSET 40u /* 64 bits: where its data begin in the message */

/* ---- Numbers in buffers ---- */

static inline uint16_t catkhize_get16(const uint8_t *at) {
    return (uint16_t)((uint16_t)((uint16_t)at[0] << 8) | at[1]);
}

static inline uint32_t catkhize_get32(const uint8_t *at) {
    return (uint32_t)catkhize_get16(at) << 16 | catkhize_get16(at + 2);
}

static inline uint64_t catkhize_get64(const uint8_t *at) {
    return (uint64_t)catkhize_get32(at) << 32 | catkhize_get32(at + 4);
}

static inline void catkhize_put16(uint8_t *at, uint16_t value) {
    at[0] = (uint8_t)(value >> 8);
    at[1] = (uint8_t)(value & 0xffu);
}

static inline void catkhize_put32(uint8_t *at, uint32_t value) {
    catkhize_put16(at, (uint16_t)(value >> 16));
    catkhize_put16(at + 2, (uint16_t)(value & 0xffffu));
}

static inline void catkhize_put64(uint8_t *at, uint64_t value) {
    catkhize_put32(at, (uint32_t)(value >> 32));
    catkhize_put32(at + 4, (uint32_t)(value & 0xffffffffu));
}

/* Entry i (0 to 255) of four words: of a map, of held marks, of a sender's marks. */
static inline int catkhize_entry(const uint8_t *words, unsigned i) {
    return words[8u * (i / 64u) + (7u - i % 64u / 8u)] >> (i % 8u) & 1;
}

/* ---- Numbers that several calls take ----
 *
 * peer_kind, peer_width, peer_value: the peer's mobile identity. The value is the identity itself, the
 * width its number of bits, the kind what sort of identity it is. A machine is made for a width of at most
 * 63 and a value above 0 and below 2 to the width: all else is refused with 30. The kind may be any number
 * and is only compared. A machine takes what comes from its own peer, the same in kind, width and value:
 * from another it is refused, in catkhize_receiver_receive with 30, in catkhize_sender_receive_response
 * with 45.
 *
 * protocol, protocol_octet: the protocol that the message belongs to, as CATKHIZE_PROTOCOL_.. and its
 * octet. A protocol above 2 is refused with 258. A machine is made for a protocol that is served (said
 * there), and takes what comes with the same number and octet: all else is refused with 31.
 *
 * version: the protocol version under which segments and responses are written and read. 1 is Pv1, 5 is
 * Pv5; 0 is refused with 1. From 1 on all are treated alike, but that a response has a support list from 5
 * on only.
 *
 * profile: how long a machine waits, which is its own interval. CATKHIZE_PROFILE_1 or CATKHIZE_PROFILE_2, chosen
 * when the machine is made and fixed after that; its record has it. Any other number is refused with 64
 * (CATKHIZE_REFUSED_PROFILE), right after 31.
 *     profile 1: a receiver waits 300,000 ms, a sender 330,000 ms
 *     profile 2: a receiver waits 120,000 ms, a sender 150,000 ms
 * Give a sender and the receiver at its other end one profile: then the sender waits 30,000 ms longer than the
 * receiver. A sender of profile 2 acts before a receiver of profile 1 has asked for what is missing.
 * A record of neither profile, which no call makes, spells a machine in an impossible state. Every call that
 * takes it refuses it with 62, in 62's place, and changes nothing (a train by its first segment, if that can be
 * decoded; a train of no segments gives 0); but catkhize_sender_submission answers what the record offers.
 *
 * budget, ceiling: the budget is how many octets one encoded segment may have. The ceiling is the source's
 * MAX_DATA_PAYLOAD_OCTETS, the most octets that a payload of the layer below has room for: a budget above
 * it is refused with 20.
 *
 * reading: now, in milliseconds of a clock that never falls. A reading below the record's last one is
 * refused with 33. */

/* ---- Segments ---- */

/* Writes a segment to the first octets of output and their number (3 to 264) to answer. */
uint32_t catkhize_encode(
    const uint8_t *segment, size_t segment_octets, /* SEGMENT */
    const uint8_t *data, size_t data_octets,
    uint8_t version,
    uint8_t *output, size_t output_octets,
    uint8_t *answer, size_t answer_octets); /* WRITTEN */

/* Reads a segment. Its data are the octets from the fourth on, as many as the answer counts; the
 * unparsed octets are the last ones. */
uint32_t catkhize_decode(
    const uint8_t *octets, size_t octets_octets,
    uint8_t version,
    uint8_t *answer, size_t answer_octets); /* DECODED */

/* ---- Plans ---- */

/* Cuts a message into segments of at most budget octets. CATKHIZE_NOTHING: it fits whole and needs no
 * segments; the plan buffer is then as it was, as after a refusal. Exceptions is no window for a new train: a
 * message that needs segments is refused under it with 25, which comes after 20 and CATKHIZE_NOTHING and
 * before 1, 6/1, 21 and 22. A train that has it already goes through catkhize_try_from_frozen, and is sent and
 * received under it. */
uint32_t catkhize_plan_message(
    const uint8_t *message, size_t message_octets,
    uint64_t budget,
    uint8_t transaction,
    uint8_t window,
    uint8_t version,
    uint64_t ceiling,
    uint8_t *plan, size_t plan_octets); /* PLAN */

/* The same with later segments of even length. The Begin and the number of segments are those that
 * catkhize_plan_message gives; the octets behind the Begin's are spread over the later segments, the End
 * among them, so that no two of these differ by more than an octet, the longer ones first. For modems that
 * drop a very short End: 8 octets, budget 6, Prohibited are 1, 3, 2, 2 here and 1, 3, 3, 1 there. It sets no
 * least length. It gives CATKHIZE_NOTHING and every refusal, 25 too, exactly where catkhize_plan_message
 * does. */
uint32_t catkhize_plan_even(
    const uint8_t *message, size_t message_octets,
    uint64_t budget,
    uint8_t transaction,
    uint8_t window,
    uint8_t version,
    uint64_t ceiling,
    uint8_t *plan, size_t plan_octets); /* PLAN */

/* Segment index of a plan, planned or frozen. CATKHIZE_NOTHING: there is no such segment. */
uint32_t catkhize_plan_segment(
    const uint8_t *plan, size_t plan_octets, /* PLAN */
    uint8_t index,
    uint8_t *answer, size_t answer_octets); /* PART */

/* Takes a cutting that was made earlier, under any window: the first count of 256 heads, whose data stand one
 * after another in joined. Only a true cutting of message is accepted. After a refusal plan is as it was. */
uint32_t catkhize_try_from_frozen(
    const uint8_t *heads, size_t heads_octets, /* 256 HEADs */
    uint64_t count,
    const uint8_t *joined, size_t joined_octets,
    const uint8_t *message, size_t message_octets,
    uint64_t budget,
    uint8_t version,
    uint64_t ceiling,
    uint8_t *plan, size_t plan_octets); /* PLAN */

/* Converts a train between the two dialects of a frozen plan. One modem family wants the message's length on
 * every segment, the rest have it on the Begin only. The train is given as catkhize_try_from_frozen takes it;
 * dialect (CATKHIZE_DIALECT_..) is the one being read, in which it is now. The other is written: plan becomes
 * the frozen PLAN of the same message, budget and window, in which the later segments state the length, or
 * state it no more. All else of each segment, and its data, are as they were. Converting that back, with the
 * same budget, gives the frozen PLAN of the first train, the same in every octet.
 *
 * To convert a PLAN, give the HEADs of all its segments: those that catkhize_plan_segment gives, the others of
 * the 256 being 0, or of a frozen PLAN the octets from CATKHIZE_PLAN_AT_FROZEN_HEADS on. joined is then the
 * message too, and count the PLAN's. plan is another buffer than the PLAN that is read.
 *
 * A later segment that states the length is encoded in 2 octets more. The budget has to have room for them:
 * where a converted segment passes it, the call is refused with 20. catkhize_plan_message fills its Continues,
 * to the budget or to 255 octets of data. So plan with a budget 2 octets below what the layer below takes, and
 * convert with a budget of these 2 octets more, which is enough for every train planned so whose Begin states
 * the length.
 *
 * The refusals, in this order: 256; 257; 258 for a dialect above 1; what catkhize_try_from_frozen refuses in
 * the train as it came, in its own order; 26 for a train that is not in the dialect being read; 20 as above,
 * which is never given where EVERY is read. A train that is in the wanted dialect already gets 26, and so does
 * one that is in neither: its Begin states no length, or some of its later segments state it and others do
 * not. A message over 4,095 octets has no train in either dialect. Where the budget has no room for the length
 * and an octet of data the planners' Begins state none. After a refusal plan is as it was. */
uint32_t catkhize_convert(
    const uint8_t *heads, size_t heads_octets, /* 256 HEADs */
    uint64_t count,
    const uint8_t *joined, size_t joined_octets,
    const uint8_t *message, size_t message_octets,
    uint64_t budget,
    uint8_t version,
    uint64_t ceiling,
    uint8_t dialect,
    uint8_t *plan, size_t plan_octets); /* PLAN */

/* ---- Delivery orders ---- */

/* For type tests: writes a delivery order of a train of 2 to 6 segments, the Begin counted. The first octets
 * of output, one for each segment, become the sequence numbers in the order of delivery: the Begin's 0, then
 * those of the others. Each is the index that catkhize_plan_segment takes. The octets behind them are as they
 * were, and 6 octets are enough for every order.
 *
 * The orders of a train are in lexicographic order and numbered from 0. Of four segments number 0 is 0 1 2 3,
 * number 1 is 0 1 3 2 and number 5, the last, is 0 3 2 1. 2, 3, 4, 5 and 6 segments have 1, 2, 6, 24 and 120
 * orders, each under one number. To go through all of them, count number up from 0 until the call gives 28.
 *
 * The refusals, in this order: 28 for segments below 2 or above 6 and for a number at or past the count of
 * orders; 61 for an output of fewer octets than segments. This call gives neither 256, 257 nor 258. After a
 * refusal output is as it was. */
uint32_t catkhize_delivery_order(
    uint8_t segments,
    uint64_t number,
    uint8_t *output, size_t output_octets);

/* ---- Receiver ----
 *
 * One record for each transaction that is received, and a store of at least CATKHIZE_STORE_OCTETS that
 * goes with it from call to call. What the store holds before the first call does not matter. Failure,
 * expiry, cancelling and release set the store's first CATKHIZE_STORE_OCTETS octets to 0. A hand-over does
 * not: a Complete receiver compares repeats with what its store holds.
 *
 * When to release. Before a store is lent on, the receiver that it went with is closed:
 * catkhize_receiver_cancel closes one that is AwaitingBegin or Receiving, catkhize_receiver_release one
 * that is Complete. Each is refused with 38 in the other's states, so a caller that gives a position up
 * reads the record's state and calls the one that goes with it. One that is Failed, Expired or Canceled
 * has set its store to 0 already, and both are refused with 38.
 *
 * When to advance. Nothing happens between calls. While a deadline runs (the record's flag and number;
 * each segment that is taken and leaves the receiver open, a repeat too, sets it to the receiver's own
 * interval after its reading), call catkhize_receiver_advance at that reading, or as soon after it as may
 * be: under Prohibited the receiver expires, under any other window the answer has the response that asks
 * for what is missing, and the receiver stays open without a deadline until the next segment. Before the
 * deadline advancing only takes the reading. A segment that comes at the deadline itself is taken if
 * catkhize_receiver_receive is called first; past the deadline receiving gives 37 and changes nothing
 * (advance, then give the segment again), or under Prohibited 38, and the receiver has expired. */

/* Writes a new receiver to record. Messages of up to maximum octets are taken. The refusals, in this order:
 * 256; 258 for a protocol above 2; 30; 31; 64 for a profile that is neither 1 nor 2; 1 for version 0; 6/1 for
 * a transaction above 7. After a refusal record is as it was. */
uint32_t catkhize_receiver_new(
    uint8_t *record, size_t record_octets, /* RECEIVER */
    uint8_t peer_kind, uint8_t peer_width, uint64_t peer_value,
    uint8_t protocol, uint8_t protocol_octet,
    uint8_t transaction,
    uint8_t version,
    uint8_t profile,
    uint64_t maximum,
    uint64_t reading);

/* Takes one decoded segment: segment and data as catkhize_decode gave them, and the number of octets it
 * left unparsed. The output has at least as many octets as the smaller of the record's maximum and
 * CATKHIZE_STORE_OCTETS. A failed reception is no refusal: the record's state has its status. Refusal 38
 * changes the record in two cases: under Prohibited past the deadline the receiver expires (and the store
 * becomes 0), and a Complete receiver takes the reading of a segment that it does not hold. A response, also
 * that of a failed reception, has the figures of its map beside it (REPLY); a refused call writes no answer. */
uint32_t catkhize_receiver_receive(
    uint8_t *record, size_t record_octets, /* RECEIVER */
    uint8_t *store, size_t store_octets,
    uint8_t *output, size_t output_octets,
    uint8_t peer_kind, uint8_t peer_width, uint64_t peer_value,
    uint8_t protocol, uint8_t protocol_octet,
    const uint8_t *segment, size_t segment_octets, /* SEGMENT */
    const uint8_t *data, size_t data_octets,
    uint64_t unparsed,
    uint64_t reading,
    uint8_t *answer, size_t answer_octets); /* RECEPTION */

/* Lets time pass. A response in the answer asks the peer for what is missing, and has the figures of its map
 * beside it (REPLY). Where the end is not known, the map has one more entry, past the highest sequence number
 * held; that entry is missing and is counted. Where 255 is held there is none. */
uint32_t catkhize_receiver_advance(
    uint8_t *record, size_t record_octets, /* RECEIVER */
    uint8_t *store, size_t store_octets,
    uint64_t reading,
    uint8_t *answer, size_t answer_octets); /* REPLY */

/* Ends an open reception: AwaitingBegin or Receiving. In any other state it is refused with 38. */
uint32_t catkhize_receiver_cancel(
    uint8_t *record, size_t record_octets, /* RECEIVER */
    uint8_t *store, size_t store_octets,
    uint64_t reading);

/* Closes a Complete receiver as cancelling does an open one: the store becomes 0, no segment is held any
 * more, the reading is taken and the state is Canceled. In any other state it is refused with 38. A repeat
 * that comes after it is refused with 38 and not answered. The output is not lent to it: a message that
 * was handed over stays there. */
uint32_t catkhize_receiver_release(
    uint8_t *record, size_t record_octets, /* RECEIVER */
    uint8_t *store, size_t store_octets,
    uint64_t reading);

/* Takes a train: segments one after another in octets, each with its number of octets in lengths (16 bits
 * each). Each is decoded under the record's version and received, all with the same reading. It stops:
 *  - behind a segment whose reception carries a response or a message, or leaves a receiver that takes
 *    no segments (a reception that fails under Prohibited answers nothing: read the state). It gives
 *    CATKHIZE_DONE, and the answer has that reception, with the figures beside its response as in
 *    catkhize_receiver_receive; those before it carried nothing.
 *  - at the first that is refused, and gives that refusal. The answer is then written too, with an empty
 *    reception, and the record spells what the segments before it, and a refusal that changes the record,
 *    made of it.
 * The answer counts the segments received. While the call gives CATKHIZE_DONE and some are left, send the
 * response, take the message and call again with the octets and lengths behind those received: nothing is
 * lost. A length past the octets takes what is left of them; an odd last octet of lengths is passed over. */
uint32_t catkhize_receiver_train(
    uint8_t *record, size_t record_octets, /* RECEIVER */
    uint8_t *store, size_t store_octets,
    uint8_t *output, size_t output_octets,
    uint8_t peer_kind, uint8_t peer_width, uint64_t peer_value,
    uint8_t protocol, uint8_t protocol_octet,
    const uint8_t *octets, size_t octets_octets,
    const uint8_t *lengths, size_t lengths_octets,
    uint64_t reading,
    uint8_t *answer, size_t answer_octets); /* TRAIN */

/* ---- Sender ----
 *
 * One record for each transaction that is sent. The message stays with the caller: catkhize_sender_new
 * checks the plan against it, and a submission says which of its octets a segment carries. Give each
 * sender a number of its own: number and ticket together name a submission. So no record is used twice: a
 * copy of it that is called too offers the same tickets.
 *
 * When to advance. While a deadline runs (the record's flag and number; catkhize_sender_submitted sets it
 * to the sender's own interval after queued; under Prohibited the last segment has none), call
 * catkhize_sender_advance at that reading, or as soon after it as may be. Under Prohibited the sender then
 * fails; under Exceptions it completes if all is sent and accepted; in every other case the segment that is
 * not accepted yet, or all that the peer has not acknowledged (the last segment if that is none), is offered
 * again. Before the deadline advancing only takes the reading. Cancelling, accepting and failing at or past
 * the deadline let it act first. So does a response past the deadline; one that comes at the deadline itself
 * is taken, and the deadline acts after it. */

/* Writes a new sender to record. Its first submission is offered at once. The refusals, in this order: 256;
 * 257 for a plan that spells none; 258 for a protocol above 2; 30; 31; 64 for a profile that is neither 1 nor
 * 2; 40; 1 for version 0. After a refusal record is as it was. */
uint32_t catkhize_sender_new(
    uint8_t *record, size_t record_octets, /* SENDER */
    uint8_t peer_kind, uint8_t peer_width, uint64_t peer_value,
    uint8_t protocol, uint8_t protocol_octet,
    const uint8_t *plan, size_t plan_octets, /* PLAN */
    const uint8_t *message, size_t message_octets,
    uint8_t version,
    uint8_t profile,
    uint64_t number,
    uint64_t reading);

/* Lets time pass. */
uint32_t catkhize_sender_advance(
    uint8_t *record, size_t record_octets, /* SENDER */
    uint64_t reading,
    uint8_t *answer, size_t answer_octets); /* STATE */

/* Ends an open sender; a closed one answers its state. */
uint32_t catkhize_sender_cancel(
    uint8_t *record, size_t record_octets, /* SENDER */
    uint64_t reading,
    uint8_t *answer, size_t answer_octets); /* STATE */

/* Layer 3 took the submission at the reading queued; observed is now. Refusal 44 changes the record where
 * the window is Prohibited and queued is at or past the deadline: the sender has failed. */
uint32_t catkhize_sender_submitted(
    uint8_t *record, size_t record_octets, /* SENDER */
    uint64_t number,
    uint64_t ticket,
    uint64_t queued,
    uint64_t observed,
    uint8_t *answer, size_t answer_octets); /* STATE */

/* The peer's Layer 3 accepted the submission. Refusal 42 changes the record at or past the deadline: the
 * deadline acts first. The same holds of catkhize_sender_lower_failed. */
uint32_t catkhize_sender_accepted(
    uint8_t *record, size_t record_octets, /* SENDER */
    uint64_t number,
    uint64_t ticket,
    uint64_t reading,
    uint8_t *answer, size_t answer_octets); /* STATE */

/* Layer 3 gave the submission up. The cause is read with Rejected alone. */
uint32_t catkhize_sender_lower_failed(
    uint8_t *record, size_t record_octets, /* SENDER */
    uint64_t number,
    uint64_t ticket,
    uint8_t failure,
    uint8_t cause,
    uint64_t reading,
    uint8_t *answer, size_t answer_octets); /* STATE */

/* Takes a response of the peer, with the number of bits that its decoding left unparsed. Refusal 38
 * changes the record where the deadline has passed and closes the sender. */
uint32_t catkhize_sender_receive_response(
    uint8_t *record, size_t record_octets, /* SENDER */
    uint8_t peer_kind, uint8_t peer_width, uint64_t peer_value,
    uint8_t protocol, uint8_t protocol_octet,
    const uint8_t *response, size_t response_octets, /* RESPONSE */
    uint64_t unparsed,
    uint64_t reading,
    uint8_t *answer, size_t answer_octets); /* STATE */

/* What is offered to Layer 3 now. CATKHIZE_NOTHING: nothing is. */
uint32_t catkhize_sender_submission(
    const uint8_t *record, size_t record_octets, /* SENDER */
    uint8_t *answer, size_t answer_octets); /* SUBMISSION */

#ifdef __cplusplus
}
#endif

#endif /* CATKHIZE_H */
