/* A box in C: reads two OPEN objects, writes a route, reports it, and lets another box follow.
 *
 *     cc -O2 -I include examples/route.c target/staticlib/libstrundevi.a -o target/route && target/route */
#include <stdio.h>
#include <string.h>

#include "strundevi.h"

static const uint8_t open_object[] = {0x01, 0x10, 0x00, 0x20, 0x20, 0x1E, 0x78, 0x07, 0x00, 0x22, 0x00, 0x12, 0x00, 0x00, 0x00, 0x01,
                                      0x03, 0x00, 0x00, 0x00, 0x00, 0x1B, 0x00, 0x06, 0x00, 0x00, 0x00, 0x00, 0x2C, 0x04, 0x00, 0x00};

static uint8_t store[STRUNDEVI_STORE_OCTETS];
static strundevi_board board;

/* Ends the program where a call was refused that should not be. */
static int good(const char *call, size_t number) {
    if (number != STRUNDEVI_ACCEPTED)
        printf("%s refused: %zu, %s\n", call, number, strundevi_text(number));
    return number == STRUNDEVI_ACCEPTED;
}

int main(void) {
    strundevi_setup setup = {0, 1}; /* where A and R stand */
    strundevi_opened opened = strundevi_read_open(setup, open_object, sizeof open_object);
    if (!good("open", opened.number))
        return 1;
    strundevi_session session = strundevi_agree(opened, opened);
    printf("open: SRv6 %d, N %d, limit %zu\n", opened.srv6, opened.n, opened.limit);

    uint8_t buffer[256];
    strundevi_segment segment = {.behaviour = 1, .hassid = 1, .sid = {0x20, 0x01, 0x0D, 0xB8, [15] = 1}};
    strundevi_writer writer = {0};
    strundevi_written written = strundevi_begin(buffer, sizeof buffer, writer, STRUNDEVI_ERO, STRUNDEVI_PST_SRV6);
    for (int i = 0; i < 3 && written.verdict.number == STRUNDEVI_ACCEPTED; i++) {
        segment.sid[15] = (uint8_t)(i + 1);
        written = strundevi_add(buffer, sizeof buffer, written.writer, segment);
    }
    if (written.verdict.number == STRUNDEVI_ACCEPTED)
        written = strundevi_finish(buffer, sizeof buffer, written.writer);
    if (!good("writing", written.verdict.number))
        return 1;
    size_t length = written.writer.at;
    printf("written: %zu octets\n", length);

    strundevi_verdict verdict = strundevi_judge(buffer, length, STRUNDEVI_ERO, session, STRUNDEVI_PST_SRV6, NULL, 0);
    if (!good("judge", verdict.number))
        return 1;
    printf("judged: %zu segments, %zu of them stray\n", verdict.count, verdict.stray);
    strundevi_picked picked = strundevi_segment_at(buffer, length, STRUNDEVI_ERO, session, STRUNDEVI_PST_SRV6, NULL, 0, 2);
    if (!good("segment", picked.verdict.number))
        return 1;
    printf("segment 2: last octet of the SID %d\n", picked.segment.sid[15]);

    /* all segments in one pass; each step moves on, so the loop ends */
    size_t at = STRUNDEVI_FIRST_PLACE;
    for (size_t i = 0; i < verdict.count; i++) {
        strundevi_stepped stepped = strundevi_step(buffer, length, STRUNDEVI_ERO, STRUNDEVI_PST_SRV6, at);
        if (!good("step", stepped.verdict.number))
            return 1;
        printf("step %zu: last octet of the SID %d\n", i, stepped.segment.sid[15]);
        at = stepped.next;
    }

    strundevi_empty(&board);
    strundevi_mark mark = strundevi_fresh_mark(&board);
    if (!good("report", strundevi_report(&board, store, sizeof store, 7, buffer, length, session, STRUNDEVI_PST_SRV6, NULL, 0).number) ||
        !good("report", strundevi_report(&board, store, sizeof store, 8, buffer, length, session, STRUNDEVI_PST_SRV6, NULL, 0).number) ||
        !good("remove", strundevi_remove(&board, store, sizeof store, 7).number))
        return 1;
    verdict = strundevi_report(&board, store, sizeof store, 0, buffer, length, session, STRUNDEVI_PST_SRV6, NULL, 0);
    printf("key 0: %zu, %s\n", verdict.number, strundevi_text(verdict.number));

    /* each turn hands out another change, and there are no more changes than places */
    for (int turn = 0; turn <= STRUNDEVI_PLACES; turn++) {
        strundevi_change next = strundevi_next(&board, store, sizeof store, mark);
        if (!good("next", next.number))
            return 1;
        if (next.kind == STRUNDEVI_LEVEL) {
            printf("level at %llu\n", (unsigned long long)next.version);
            return 0;
        }
        if (next.kind == STRUNDEVI_PATH) {
            const uint8_t *body = store + next.place * STRUNDEVI_PLACE_OCTETS;
            printf("path %llu at %llu: %zu octets, the same %d\n", (unsigned long long)next.key, (unsigned long long)next.version, next.length,
                   memcmp(body, buffer + 4, next.length) == 0);
        } else {
            printf("removed %llu at %llu\n", (unsigned long long)next.key, (unsigned long long)next.version);
        }
        mark = strundevi_mark_after(mark, next);
    }
    printf("never level\n");
    return 1;
}
