/*
 * Receives repeats whose own data can be read no further than a comparison has to look: up to and with the first octet that differs from the
 * slot's, and not at all where the lengths or the kinds differ (docs/changes/2026-03.md). What lies behind may not be read, so that a reception
 * which reads further is seen. Each is made by catkhize_receiver_receive and as a train of one segment. tools/link builds and runs it.
 */
#define _DEFAULT_SOURCE

#include "catkhize.h"

#include <setjmp.h>
#include <signal.h>
#include <stdio.h>
#include <stdlib.h>
#include <string.h>
#include <sys/mman.h>
#include <unistd.h>

#define SLOT_OCTETS 255u
#define HEADER_OCTETS 3u
#define FILLING 0xa5
#define TRANSACTION 2
#define VERSION 1
#define PEER 0, 34, 5
#define PROTOCOL CATKHIZE_PROTOCOL_SEGMENTED, 1

/* What a repeat comes to, beside the status that the reception fails with. */
#define TAKEN 1000u
#define READ_FURTHER 1001u
#define REFUSED 1002u

static uint8_t record[CATKHIZE_RECEIVER_OCTETS];
static uint8_t store[CATKHIZE_STORE_OCTETS];
static uint8_t output[CATKHIZE_STORE_OCTETS];
static uint8_t answer[CATKHIZE_TRAIN_OCTETS];

/* The octets of slot 0, and those of slot 1. */
static uint8_t first[SLOT_OCTETS], second[SLOT_OCTETS];

/* A page that may not be read, behind one that may. */
static uint8_t *unreadable;
static size_t page;
static sigjmp_buf fault;

static void on_fault(int number, siginfo_t *what, void *context) {
    const uint8_t *at = (const uint8_t *)what->si_addr;
    (void)context;
    if (at < unreadable || at >= unreadable + page) {
        _exit(128 + number);
    }
    siglongjmp(fault, number);
}

static void segment_of(uint8_t *segment, uint8_t sequence, uint8_t kind) {
    memset(segment, 0, CATKHIZE_SEGMENT_OCTETS);
    segment[CATKHIZE_SEGMENT_AT_TRANSACTION] = TRANSACTION;
    segment[CATKHIZE_SEGMENT_AT_SEQUENCE] = sequence;
    segment[CATKHIZE_SEGMENT_AT_KIND] = kind;
    if (kind == CATKHIZE_KIND_BEGIN) {
        segment[CATKHIZE_SEGMENT_AT_SERVICES_PRESENT] = 1;
        segment[CATKHIZE_SEGMENT_AT_WINDOW] = CATKHIZE_WINDOW_EVERY16;
    }
}

static int receive(uint8_t sequence, uint8_t kind, const uint8_t *data, size_t count) {
    uint8_t segment[CATKHIZE_SEGMENT_OCTETS];
    segment_of(segment, sequence, kind);
    return catkhize_receiver_receive(record, sizeof record, store, sizeof store, output, sizeof output, PEER, PROTOCOL, segment, sizeof segment, data,
               count, 0, 0, answer, sizeof answer) == CATKHIZE_DONE;
}

/* A train of one segment without parameters. Its octets are its header and the data, which the header is written before. */
static int receive_train(uint8_t *data, size_t count) {
    uint8_t length[2];
    catkhize_put16(length, (uint16_t)(HEADER_OCTETS + count));
    return catkhize_receiver_train(record, sizeof record, store, sizeof store, output, sizeof output, PEER, PROTOCOL, data - HEADER_OCTETS,
               HEADER_OCTETS + count, length, sizeof length, 0, answer, sizeof answer) == CATKHIZE_DONE;
}

/* The header of a segment of slot 1, before its data. */
static int put_header(uint8_t kind, uint8_t *data, size_t count) {
    uint8_t segment[CATKHIZE_SEGMENT_OCTETS], octets[HEADER_OCTETS + SLOT_OCTETS], written[8];
    segment_of(segment, 1, kind);
    if (catkhize_encode(segment, sizeof segment, second, count, VERSION, octets, sizeof octets, written, sizeof written) != CATKHIZE_DONE) {
        return 0;
    }
    memcpy(data - HEADER_OCTETS, octets, HEADER_OCTETS);
    return 1;
}

/* What is repeated: the kind and the number of octets that slot 1 holds, those of the repeat, how many of its octets can be read, and whether
 * the last of these differs from the slot's. */
struct repeat {
    uint8_t held_kind;
    size_t held;
    uint8_t kind;
    size_t count, readable;
    int differs;
};

static unsigned outcome(const struct repeat *r, int as_train) {
    uint8_t *data = unreadable - r->readable;
    int received;
    memset(record, FILLING, sizeof record);
    memset(store, FILLING, sizeof store);
    memset(output, FILLING, sizeof output);
    memset(answer, FILLING, sizeof answer);
    if (catkhize_receiver_new(record, sizeof record, PEER, PROTOCOL, TRANSACTION, VERSION, CATKHIZE_PROFILE_1, CATKHIZE_STORE_OCTETS, 0) != CATKHIZE_DONE
        || !receive(0, CATKHIZE_KIND_BEGIN, first, sizeof first) || !receive(1, r->held_kind, second, r->held)) {
        return REFUSED;
    }
    memcpy(data, second, r->readable);
    if (r->differs) {
        unreadable[-1] ^= 0xff;
    }
    if (!put_header(r->kind, data, r->count)) {
        return REFUSED;
    }
    if (sigsetjmp(fault, 1) != 0) {
        return READ_FURTHER;
    }
    received = as_train ? receive_train(data, r->count) : receive(1, r->kind, data, r->count);
    if (!received) {
        return REFUSED;
    }
    if (record[CATKHIZE_RECEIVER_AT_STATE] != CATKHIZE_RECEIVER_FAILED) {
        return TAKEN;
    }
    return record[CATKHIZE_RECEIVER_AT_STATUS];
}

static const char *words(unsigned came) {
    switch (came) {
    case TAKEN:
        return "taken";
    case READ_FURTHER:
        return "read further";
    case REFUSED:
        return "refused";
    case CATKHIZE_STATUS_ABORTED:
        return "Aborted";
    case CATKHIZE_STATUS_DUPLICATE_SIZE_MISMATCH:
        return "DuplicateSizeMismatch";
    default:
        return "another status";
    }
}

static unsigned repeats, failures;

static void expect(unsigned expected, uint8_t held_kind, size_t held, uint8_t kind, size_t count, size_t readable, int differs) {
    struct repeat r;
    int as_train;
    r.held_kind = held_kind;
    r.held = held;
    r.kind = kind;
    r.count = count;
    r.readable = readable;
    r.differs = differs;
    for (as_train = 0; as_train < 2; as_train++) {
        unsigned came = outcome(&r, as_train);
        repeats++;
        if (came != expected) {
            failures++;
            printf("%s of kind %u, %lu octets against %lu of kind %u, %lu of them readable, the last %s: %s, expected %s\n",
                as_train ? "train" : "segment", kind, (unsigned long)count, (unsigned long)held, held_kind, (unsigned long)readable,
                differs ? "another" : "the same", words(came), words(expected));
        }
    }
}

/* Repeats in a receiver that is Receiving (slot 1 holds a Continue) or Complete (an End). */
static void repeats_of(uint8_t kind) {
    uint8_t other = kind == CATKHIZE_KIND_END ? CATKHIZE_KIND_CONTINUE : CATKHIZE_KIND_END;
    size_t n;
    for (n = 0; n <= SLOT_OCTETS; n++) {
        /* This very segment: all of it is looked at, and no more. */
        expect(TAKEN, kind, n, kind, n, n, 0);
        /* Another kind: no octet. */
        expect(CATKHIZE_STATUS_ABORTED, kind, n, other, n, 0, 0);
    }
    for (n = 1; n <= SLOT_OCTETS; n++) {
        /* The first of n octets differs, or the last of them, or octet n of 255: none behind it. */
        expect(CATKHIZE_STATUS_ABORTED, kind, n, kind, n, 1, 1);
        expect(CATKHIZE_STATUS_ABORTED, kind, n, kind, n, n, 1);
        expect(CATKHIZE_STATUS_ABORTED, kind, SLOT_OCTETS, kind, SLOT_OCTETS, n, 1);
        /* With one readable octet less than it has to look at, that is seen. */
        expect(READ_FURTHER, kind, SLOT_OCTETS, kind, SLOT_OCTETS, n - 1, 0);
    }
    for (n = 0; n < SLOT_OCTETS; n++) {
        /* Another length, by one octet or up to 255: no octet. */
        expect(CATKHIZE_STATUS_DUPLICATE_SIZE_MISMATCH, kind, n, kind, n + 1, 0, 0);
        expect(CATKHIZE_STATUS_DUPLICATE_SIZE_MISMATCH, kind, n + 1, kind, n, 0, 0);
        expect(CATKHIZE_STATUS_DUPLICATE_SIZE_MISMATCH, kind, n, kind, SLOT_OCTETS, 0, 0);
        expect(CATKHIZE_STATUS_DUPLICATE_SIZE_MISMATCH, kind, SLOT_OCTETS, kind, n, 0, 0);
    }
}

int main(void) {
    struct sigaction action;
    size_t n;
    void *pages;
    page = (size_t)sysconf(_SC_PAGESIZE);
    pages = mmap(NULL, 2 * page, PROT_READ | PROT_WRITE, MAP_PRIVATE | MAP_ANONYMOUS, -1, 0);
    if (pages == MAP_FAILED || mprotect((uint8_t *)pages + page, page, PROT_NONE) != 0) {
        return EXIT_FAILURE;
    }
    unreadable = (uint8_t *)pages + page;
    memset(&action, 0, sizeof action);
    action.sa_sigaction = on_fault;
    action.sa_flags = SA_SIGINFO;
    if (sigaction(SIGSEGV, &action, NULL) != 0) {
        return EXIT_FAILURE;
    }
    for (n = 0; n < SLOT_OCTETS; n++) {
        first[n] = (uint8_t)(SLOT_OCTETS - n);
        second[n] = (uint8_t)n;
    }
    repeats_of(CATKHIZE_KIND_CONTINUE);
    repeats_of(CATKHIZE_KIND_END);
    printf("%u repeats, %u failures\n", repeats, failures);
    return failures == 0 ? EXIT_SUCCESS : EXIT_FAILURE;
}
