/* A box on the older half of the line, in C: reads OPENs of both forms, writes an MPLS route of labels, one of an index and one of a name without a SID, reads
 * them, and keeps the first on a board beside an SRv6 path.
 *
 *     cc -O2 -I include examples/mpls.c target/staticlib/libstrundevi.a -o target/mpls && target/mpls */
#include <stdio.h>
#include <string.h>

#include "strundevi.h"

/* Setup types 1 and 3; sub-TLV 26 with N and a depth of 4, sub-TLV 27 with X. */
static const uint8_t open_object[] = {0x01, 0x10, 0x00, 0x24, 0x20, 0x1E, 0x78, 0x07, 0x00, 0x22, 0x00, 0x18, 0x00, 0x00, 0x00, 0x02, 0x01, 0x03,
                                      0x00, 0x00, 0x00, 0x1A, 0x00, 0x04, 0x00, 0x00, 0x02, 0x04, 0x00, 0x1B, 0x00, 0x04, 0x00, 0x00, 0x00, 0x01};

static const uint8_t srv6_route[] = {0x07, 0x10, 0x00, 0x1C, 0x28, 0x18, 0x00, 0x02, 0x00, 0x00, 0x00, 0x01, 0x20, 0x01,
                                     0x0D, 0xB8, 0x00, 0x00, 0x00, 0x01, 0x00, 0x00, 0x00, 0x00, 0x00, 0x00, 0x00, 0x01};

static uint8_t store[STRUNDEVI_STORE_OCTETS];
static strundevi_board board;

static int good(const char *call, size_t number) {
    if (number != STRUNDEVI_ACCEPTED)
        printf("%s refused: %zu, %s\n", call, number, strundevi_text(number));
    return number == STRUNDEVI_ACCEPTED;
}

/* A segment that is the label and nothing else. */
static strundevi_segment labelled(uint32_t label) {
    strundevi_segment segment = {0};
    strundevi_label entry = {label, 0, 0, 0};
    if (!strundevi_set_label(&segment, entry, 0))
        printf("label %lu has more than 20 bits\n", (unsigned long)label);
    return segment;
}

static void show(size_t i, const strundevi_segment *segment) {
    printf("segment %zu:", i);
    if (segment->labelled) {
        strundevi_label entry = strundevi_label_of(segment);
        printf(" label %lu", (unsigned long)entry.label);
        if (segment->complete)
            printf(", TC %d, S %d, TTL %d", entry.tc, entry.bottom, entry.ttl);
    } else if (segment->hassid) {
        printf(" index %lu", (unsigned long)strundevi_index_of(segment));
    }
    printf(" NT %d, NAI", segment->nt);
    for (size_t k = 0; k < strundevi_nai_octets(STRUNDEVI_PST_MPLS, segment->nt); k++)
        printf(" %d", segment->nai[k]);
    printf("\n");
}

/* Writes a route of these segments, and reads it: its length, or 0. */
static size_t write_and_show(uint8_t *buffer, size_t size, const strundevi_segment *segments, size_t count, strundevi_session session) {
    strundevi_writer writer = {0};
    strundevi_written written = strundevi_begin(buffer, size, writer, STRUNDEVI_ERO, STRUNDEVI_PST_MPLS);
    for (size_t i = 0; i < count && written.verdict.number == STRUNDEVI_ACCEPTED; i++)
        written = strundevi_add(buffer, size, written.writer, segments[i]);
    if (!good("adding", written.verdict.number))
        return 0;
    written = strundevi_finish(buffer, size, written.writer);
    if (!good("finishing", written.verdict.number))
        return 0;
    size_t length = written.writer.at;
    printf("written: %zu octets\n", length);

    strundevi_verdict verdict = strundevi_judge(buffer, length, STRUNDEVI_ERO, session, STRUNDEVI_PST_MPLS, NULL, 0);
    if (!good("judge", verdict.number))
        return 0;
    size_t at = STRUNDEVI_FIRST_PLACE;
    for (size_t i = 0; i < verdict.count; i++) {
        strundevi_stepped stepped = strundevi_step(buffer, length, STRUNDEVI_ERO, STRUNDEVI_PST_MPLS, at);
        if (!good("step", stepped.verdict.number))
            return 0;
        show(i, &stepped.segment);
        at = stepped.next;
    }
    return length;
}

int main(void) {
    strundevi_setup setup = {0, 1}; /* where A and R stand */
    strundevi_opened opened = strundevi_read_open(setup, open_object, sizeof open_object);
    if (!good("open", opened.number))
        return 1;
    strundevi_session session = strundevi_agree(opened, opened);
    printf("open: MPLS %d, N %d, depth %zu; SRv6 %d\n", opened.mpls, opened.mplsn, opened.mplslimit, opened.srv6);

    /* the label 3 is not written */
    uint8_t buffer[256], other[256];
    strundevi_writer writer = {0};
    strundevi_written begun = strundevi_begin(other, sizeof other, writer, STRUNDEVI_ERO, STRUNDEVI_PST_MPLS);
    size_t refused = strundevi_add(other, sizeof other, begun.writer, labelled(3)).verdict.number;
    printf("label 3: %zu, %s\n", refused, strundevi_text(refused));

    /* a label that is a node's, and two with TC, S and TTL: only the last entry is the bottom of the stack */
    strundevi_segment labels[3] = {labelled(16001), {0}, {0}};
    labels[0].nt = 1;
    memcpy(labels[0].nai, "\xC6\x33\x64\x01", 4);
    strundevi_label middle = {24005, 5, 0, 64}, last = {24009, 5, 1, 64};
    if (!strundevi_set_label(&labels[1], middle, 1) || !strundevi_set_label(&labels[2], last, 1))
        return 1;
    size_t length = write_and_show(buffer, sizeof buffer, labels, 3, session);
    if (length == 0)
        return 1;

    /* an index, by an IPv4 adjacency */
    strundevi_segment by_index = {0};
    strundevi_set_index(&by_index, 11);
    by_index.nt = 3;
    memcpy(by_index.nai, "\xC0\x00\x02\x01\xC0\x00\x02\x02", 8);
    if (write_and_show(other, sizeof other, &by_index, 1, session) == 0)
        return 1;

    /* a node to look the SID up by */
    strundevi_segment by_name = {0};
    by_name.nt = 1;
    memcpy(by_name.nai, "\xC6\x33\x64\x07", 4);
    if (write_and_show(other, sizeof other, &by_name, 1, session) == 0)
        return 1;

    strundevi_verdict verdict = strundevi_judge(buffer, length, STRUNDEVI_ERO, session, STRUNDEVI_PST_SRV6, NULL, 0);
    printf("as an SRv6 route: %zu, %s\n", verdict.number, strundevi_text(verdict.number));

    strundevi_empty(&board);
    if (!good("report", strundevi_report(&board, store, sizeof store, 7, buffer, length, session, STRUNDEVI_PST_MPLS, NULL, 0).number) ||
        !good("report", strundevi_report(&board, store, sizeof store, 8, srv6_route, sizeof srv6_route, session, STRUNDEVI_PST_SRV6, NULL, 0).number))
        return 1;
    strundevi_mark mark = {0, 0};
    for (int turn = 0; turn < 2; turn++) {
        strundevi_change next = strundevi_next(&board, store, sizeof store, mark);
        if (!good("next", next.number))
            return 1;
        printf("path %llu at %llu: form %zu, %zu octets\n", (unsigned long long)next.key, (unsigned long long)next.version, next.form, next.length);
        mark = strundevi_mark_after(mark, next);
    }
    return 0;
}
