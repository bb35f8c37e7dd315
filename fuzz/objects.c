/* A target for libFuzzer over the archive and the header: any octets are taken as a PCC OPEN, a PCE OPEN and a route, cut as the checking
 * program cuts, and put through every call, once as an SRv6 route and once as an MPLS one. It stops where two calls disagree. tests/library.sh builds it
 * and runs it for a moment. Without libFuzzer, stored.c is the program around it.
 *
 *     rt staticlib strundevi
 *     clang -g -O1 -fsanitize=fuzzer,address -I include fuzz/objects.c target/staticlib/libstrundevi.a -o target/fuzz-objects
 *     target/fuzz-objects -max_total_time=60 */
#include <stdlib.h>
#include <string.h>

#include "strundevi.h"

static void same(int holds) {
    if (!holds)
        abort();
}

/* The octets that the object at the start takes by its own length field; all of them if that cannot be. */
static size_t cut(const uint8_t *octets, size_t size) {
    size_t length = size < 4 ? 0 : (size_t)octets[2] << 8 | octets[3];
    return length < 4 || length > size ? size : length;
}

static int alike(const strundevi_segment *a, const strundevi_segment *b) {
    return a->loose == b->loose && a->verify == b->verify && a->nt == b->nt && a->behaviour == b->behaviour && a->hassid == b->hassid &&
           a->structured == b->structured && a->labelled == b->labelled && a->complete == b->complete && memcmp(a->sid, b->sid, sizeof a->sid) == 0 &&
           memcmp(a->nai, b->nai, sizeof a->nai) == 0 && memcmp(a->structure, b->structure, sizeof a->structure) == 0;
}

/* The bits of octet `at` of an accepted route that are ignored in reading. */
static uint8_t ignored(const uint8_t *route, enum strundevi_kind kind, uint64_t pst, size_t at) {
    size_t start = 4;
    if (at < 4)
        return at == 1 ? 0x0F : 0;
    while (start + route[start + 1] <= at)
        start += route[start + 1];
    const uint8_t *sub = route + start;
    if (pst == STRUNDEVI_PST_MPLS)
        return at - start == 2 ? 0x0F : at - start == 3 ? (kind == STRUNDEVI_RRO ? 0xF0 : 0xE0) : 0;
    int no_sid = (sub[3] & 1) != 0;
    switch (at - start) {
    case 2: return 0x0F;
    case 3: return (uint8_t)(0xF0 | (kind == STRUNDEVI_RRO ? 8 : 0) | (no_sid ? 4 : 0));
    case 4:
    case 5: return 0xFF;
    default: break;
    }
    /* the last four octets of the SID structure are reserved */
    return (sub[3] & 4) != 0 && !no_sid && at - start >= (size_t)sub[1] - 4 ? 0xFF : 0;
}

static uint8_t store[STRUNDEVI_STORE_OCTETS], buffer[65536];
static strundevi_board board;

/* A label or an index comes back as it was put in. */
static void sid_kept(const strundevi_segment *segment) {
    strundevi_segment again = *segment;
    if (segment->labelled)
        same(strundevi_set_label(&again, strundevi_label_of(segment), segment->complete));
    else if (segment->hassid)
        strundevi_set_index(&again, strundevi_index_of(segment));
    same(alike(&again, segment));
}

/* Whether the route is taken under this setup type with both forms agreed and no limit. */
static int whole(const uint8_t *route, size_t length, enum strundevi_kind kind, uint64_t pst, strundevi_session session) {
    strundevi_session free_session = {.agreed = 1, .n = 1, .mpls = 1, .mplsn = 1};
    strundevi_verdict strict = strundevi_judge(route, length, kind, session, pst, NULL, 0);
    strundevi_verdict verdict = strundevi_judge(route, length, kind, free_session, pst, NULL, 0);
    same(strict.number != 0 || verdict.number == 0);
    if (verdict.number != 0) {
        same(verdict.count == 0 && verdict.stray == 0 && verdict.place < 65536);
        same(pst == STRUNDEVI_PST_MPLS || (verdict.number != STRUNDEVI_BAD_LABEL_VALUE && verdict.number != STRUNDEVI_BAD_LABEL_FORMAT));
        return 0;
    }

    /* an accepted route has its segments and no more, and is written with the lengths it has */
    strundevi_written written = strundevi_begin(buffer, sizeof buffer, (strundevi_writer){0}, kind, pst);
    size_t place = STRUNDEVI_FIRST_PLACE;
    for (size_t i = 0; i < verdict.count; i++) {
        strundevi_stepped stepped = strundevi_step(route, length, kind, pst, place);
        same(stepped.verdict.number == 0 && stepped.next > place);
        place = stepped.next;
        strundevi_picked picked = strundevi_segment_at(route, length, kind, free_session, pst, NULL, 0, i);
        same(picked.verdict.number == 0 && alike(&picked.segment, &stepped.segment));
        if (pst == STRUNDEVI_PST_MPLS)
            sid_kept(&picked.segment);
        else
            same(!picked.segment.labelled && !picked.segment.complete);
        written = strundevi_add(buffer, sizeof buffer, written.writer, picked.segment);
        same(written.verdict.number == 0 && written.writer.form == pst);
    }
    same(strundevi_segment_at(route, length, kind, free_session, pst, NULL, 0, verdict.count).verdict.number == STRUNDEVI_NO_SUCH_SEGMENT);
    same(strundevi_finish(buffer, sizeof buffer, written.writer).verdict.number == 0 && written.writer.at == length);
    same(strundevi_judge(buffer, length, kind, free_session, pst, NULL, 0).count == verdict.count);

    same(place == length && strundevi_step(route, length, kind, pst, place).verdict.number == STRUNDEVI_NO_SUCH_SEGMENT);

    /* octet for octet, but for the bits that are ignored in reading and written as 0 */
    for (size_t at = 0; at < length; at++) {
        uint8_t less = (uint8_t)(route[at] & ~ignored(route, kind, pst, at));
        same(buffer[at] == less);
    }

    /* a report that is taken is handed out again, octet for octet, and as what it is */
    strundevi_empty(&board);
    verdict = strundevi_report(&board, store, sizeof store, 7, route, length, free_session, pst, NULL, 0);
    if (verdict.number == 0) {
        strundevi_part body = strundevi_body(&board, store, sizeof store, 7);
        strundevi_change change = strundevi_next(&board, store, sizeof store, (strundevi_mark){0, 0});
        same(body.length == length - 4 && body.form == pst && memcmp(store + body.start, route + 4, body.length) == 0);
        same(change.kind == STRUNDEVI_PATH && change.key == 7 && change.length == body.length && change.form == pst);
    } else {
        same(board.version == 0);
    }
    return 1;
}

int LLVMFuzzerTestOneInput(const uint8_t *data, size_t size) {
    size_t first = cut(data, size);
    size_t second = cut(data + first, size - first);
    const uint8_t *route = data + first + second;
    size_t length = cut(route, size - first - second);
    enum strundevi_kind kind = length > 0 && route[0] == 8 ? STRUNDEVI_RRO : STRUNDEVI_ERO;

    strundevi_setup at = {0, 1};
    strundevi_session session = strundevi_agree(strundevi_read_open(at, data, first), strundevi_read_open(at, data + first, second));
    int srv6 = whole(route, length, kind, STRUNDEVI_PST_SRV6, session);
    int mpls = whole(route, length, kind, STRUNDEVI_PST_MPLS, session);
    same(!srv6 || !mpls);
    return 0;
}
