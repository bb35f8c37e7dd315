/* A follower in C: it takes what a board hands out, is cut off, comes back too old, starts afresh, and ends up level.
 *
 *     cc -O2 -I include examples/follow.c target/staticlib/libstrundevi.a -o target/follow && target/follow */
#include <stdio.h>
#include <string.h>

#include "strundevi.h"

static const uint8_t open_object[] = {0x01, 0x10, 0x00, 0x20, 0x20, 0x1E, 0x78, 0x07, 0x00, 0x22, 0x00, 0x12, 0x00, 0x00, 0x00, 0x01,
                                      0x03, 0x00, 0x00, 0x00, 0x00, 0x1B, 0x00, 0x06, 0x00, 0x00, 0x00, 0x00, 0x2C, 0x04, 0x00, 0x00};

/* ---- the box that keeps the board */

static uint8_t store[STRUNDEVI_STORE_OCTETS];
static strundevi_board board;
static strundevi_session session;

/* Reports a path of one segment, whose SID ends in the octet given. */
static void report(uint64_t key, uint8_t last) {
    uint8_t ero[] = {0x07, 0x10, 0x00, 0x1C, 0x28, 0x18, 0x00, 0x02, 0x00, 0x00, 0x00, 0x01, 0x20, 0x01,
                     0x0D, 0xB8, 0x00, 0x00, 0x00, 0x01, 0x00, 0x00, 0x00, 0x00, 0x00, 0x00, 0x00, last};
    strundevi_verdict verdict = strundevi_report(&board, store, sizeof store, key, ero, sizeof ero, session, STRUNDEVI_PST_SRV6, NULL, 0);
    printf("board: report %llu answers %zu, version %llu\n", (unsigned long long)key, verdict.number, (unsigned long long)board.version);
}

static void withdraw(uint64_t key) {
    strundevi_verdict verdict = strundevi_remove(&board, store, sizeof store, key);
    printf("board: remove %llu answers %zu, version %llu\n", (unsigned long long)key, verdict.number, (unsigned long long)board.version);
}

static void compact(uint64_t c) {
    strundevi_verdict verdict = strundevi_compact(&board, store, sizeof store, c);
    printf("board: compact %llu answers %zu, floor %llu\n", (unsigned long long)c, verdict.number, (unsigned long long)board.floor);
}

/* ---- the box that follows */

struct path {
    uint64_t key; /* 0: none */
    size_t form;  /* the setup type: what the octets are */
    size_t length;
    uint8_t octets[STRUNDEVI_PLACE_OCTETS];
};

/* As many as the board has places are enough: a key that a follower holds stands on the board, with a path, or with a removal that the follower is
 * still to be handed. */
static struct path held[STRUNDEVI_PLACES];
static strundevi_mark mark;

static struct path *path_of(uint64_t key) {
    for (size_t i = 0; i < STRUNDEVI_PLACES; i++)
        if (held[i].key == key)
            return &held[i];
    return NULL;
}

/* Whoever keeps mark and paths where they outlive a loss of power forgets the old mark first, and keeps the fresh one last. */
static void start_afresh(void) {
    memset(held, 0, sizeof held);
    mark = strundevi_fresh_mark(&board);
    printf("follower: empty, mark (%llu, %llu)\n", (unsigned long long)mark.s, (unsigned long long)mark.w);
}

/* Makes a change: its octets are copied before the board is touched again, and its version is the new w. */
static int make(const strundevi_change *change) {
    struct path *path = path_of(change->key);
    if (change->kind == STRUNDEVI_REMOVED) {
        if (path != NULL)
            path->key = 0;
        printf("follower: %llu removed at %llu\n", (unsigned long long)change->key, (unsigned long long)change->version);
    } else {
        if (path == NULL)
            path = path_of(0);
        if (path == NULL)
            return 0;
        path->key = change->key;
        path->form = change->form;
        path->length = change->length;
        memcpy(path->octets, store + change->place * STRUNDEVI_PLACE_OCTETS, change->length);
        printf("follower: path %llu at %llu, %zu octets, the last %d\n", (unsigned long long)change->key, (unsigned long long)change->version,
               path->length, path->octets[path->length - 1]);
    }
    mark.w = change->version;
    return 1;
}

/* Asks until it is level. A mark that is too old, or ahead of the board, is no mark to go on from; whoever holds one starts afresh. */
static int follow(void) {
    for (;;) {
        strundevi_change change = strundevi_next(&board, store, sizeof store, mark);
        if (change.number == STRUNDEVI_MARK_TOO_OLD || change.number == STRUNDEVI_MARK_AHEAD) {
            printf("follower: refused by %zu\n", change.number);
            start_afresh();
        } else if (change.number != STRUNDEVI_ACCEPTED) {
            printf("follower: refused by %zu, and stops\n", change.number);
            return 0;
        } else if (change.kind == STRUNDEVI_LEVEL) {
            mark.s = change.version;
            mark.w = change.version;
            printf("follower: level at %llu\n", (unsigned long long)change.version);
            return 1;
        } else if (!make(&change)) {
            return 0;
        }
    }
}

/* That it holds what the board holds, octet for octet, and nothing else. */
static int same(void) {
    size_t paths = 0;
    for (size_t i = 0; i < STRUNDEVI_PLACES; i++)
        paths += board.keys[i] != 0 && board.lengths[i] != 0;
    for (size_t i = 0; i < STRUNDEVI_PLACES; i++) {
        if (held[i].key == 0)
            continue;
        strundevi_part body = strundevi_body(&board, store, sizeof store, held[i].key);
        if (body.number != 0 || body.form != held[i].form || body.length != held[i].length || memcmp(store + body.start, held[i].octets, body.length) != 0)
            return 0;
        paths--;
    }
    return paths == 0;
}

int main(void) {
    strundevi_setup at = {0, 1}; /* where A and R stand */
    strundevi_opened opened = strundevi_read_open(at, open_object, sizeof open_object);
    session = strundevi_agree(opened, opened);
    strundevi_empty(&board);

    start_afresh();
    report(7, 1);
    report(9, 2);
    if (!follow())
        return 1;

    printf("the line is cut\n");
    withdraw(7);
    report(11, 3);
    withdraw(9);
    report(9, 4);
    printf("the line is back\n");
    if (!follow())
        return 1;

    printf("the line is cut\n");
    withdraw(11);
    report(13, 5);
    compact(board.version);
    printf("the line is back\n");
    if (!follow())
        return 1;
    printf("the same as the board: %s\n", same() ? "yes" : "no");
    return same() ? 0 : 1;
}
