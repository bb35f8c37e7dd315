/* Every call of the header once, in the C and the C++ that the header is for (tests/library.sh). Ends with status 1 if an answer is otherwise than it should be. */
#include "strundevi.h"

static const uint8_t route[] = {0x07, 0x10, 0x00, 0x1C, 0x28, 0x18, 0x00, 0x02, 0x00, 0x00, 0x00, 0x01, 0x20, 0x01,
                                0x0D, 0xB8, 0x00, 0x00, 0x00, 0x01, 0x00, 0x00, 0x00, 0x00, 0x00, 0x00, 0x00, 0x01};
/* label 16001 with the node 192.0.2.1 */
static const uint8_t mpls[] = {0x07, 0x10, 0x00, 0x10, 0x24, 0x0C, 0x10, 0x01, 0x03, 0xE8, 0x10, 0x00, 0xC0, 0x00, 0x02, 0x01};
static uint8_t store[STRUNDEVI_STORE_OCTETS], buffer[sizeof route];
static strundevi_board board;
static strundevi_session session;
static strundevi_writer writer;

int main(void) {
    strundevi_setup at = {0, 1};
    strundevi_opened opened = strundevi_read_open(at, route, sizeof route);
    if (opened.number != STRUNDEVI_OPEN_MALFORMED || opened.form != 0 || strundevi_agree(opened, opened).agreed || strundevi_agree(opened, opened).mpls)
        return 1;
    session.agreed = 1;
    session.mpls = 1;
    if (strundevi_judge(route, sizeof route, STRUNDEVI_ERO, session, STRUNDEVI_PST_SRV6, NULL, 0).count != 1)
        return 1;
    strundevi_picked picked = strundevi_segment_at(route, sizeof route, STRUNDEVI_ERO, session, STRUNDEVI_PST_SRV6, NULL, 0, 0);
    if (picked.verdict.number != STRUNDEVI_ACCEPTED || picked.segment.sid[15] != 1)
        return 1;

    strundevi_stepped stepped = strundevi_step(route, sizeof route, STRUNDEVI_ERO, STRUNDEVI_PST_SRV6, STRUNDEVI_FIRST_PLACE);
    if (stepped.verdict.number != STRUNDEVI_ACCEPTED || stepped.next != sizeof route || stepped.segment.sid[15] != 1 ||
        strundevi_step(route, sizeof route, STRUNDEVI_ERO, STRUNDEVI_PST_SRV6, stepped.next).verdict.number != STRUNDEVI_NO_SUCH_SEGMENT)
        return 1;

    strundevi_written written = strundevi_begin(buffer, sizeof buffer, writer, STRUNDEVI_ERO, STRUNDEVI_PST_SRV6);
    if (written.verdict.number == STRUNDEVI_ACCEPTED)
        written = strundevi_add(buffer, sizeof buffer, written.writer, picked.segment);
    if (written.verdict.number == STRUNDEVI_ACCEPTED)
        written = strundevi_finish(buffer, sizeof buffer, written.writer);
    if (written.verdict.number != STRUNDEVI_ACCEPTED || written.writer.at != sizeof route)
        return 1;
    for (size_t i = 0; i < sizeof route; i++)
        if (buffer[i] != route[i])
            return 1;

    picked = strundevi_segment_at(mpls, sizeof mpls, STRUNDEVI_ERO, session, STRUNDEVI_PST_MPLS, NULL, 0, 0);
    strundevi_label label = strundevi_label_of(&picked.segment);
    if (picked.verdict.number != STRUNDEVI_ACCEPTED || !picked.segment.labelled || picked.segment.complete || label.label != 16001 || label.tc != 0 ||
        label.bottom != 0 || label.ttl != 0 || strundevi_nai_octets(STRUNDEVI_PST_MPLS, picked.segment.nt) != 4)
        return 1;
    label.ttl = 64;
    if (!strundevi_set_label(&picked.segment, label, 1) || strundevi_index_of(&picked.segment) != 0x03E81040)
        return 1;
    label.tc = 8;
    if (strundevi_set_label(&picked.segment, label, 0) || !picked.segment.complete)
        return 1;
    strundevi_set_index(&picked.segment, 7);
    if (strundevi_index_of(&picked.segment) != 7 || picked.segment.labelled || picked.segment.complete)
        return 1;
    written = strundevi_begin(buffer, sizeof buffer, writer, STRUNDEVI_RRO, STRUNDEVI_PST_MPLS);
    if (written.verdict.number == STRUNDEVI_ACCEPTED)
        written = strundevi_add(buffer, sizeof buffer, written.writer, picked.segment);
    if (written.verdict.number != STRUNDEVI_ACCEPTED || written.writer.form != STRUNDEVI_PST_MPLS || buffer[0] != 8 || buffer[4] != 36 || buffer[7] != 0 ||
        buffer[11] != 7)
        return 1;

    strundevi_empty(&board);
    strundevi_mark mark = strundevi_fresh_mark(&board);
    if (strundevi_report(&board, store, sizeof store, 9, route, sizeof route, session, STRUNDEVI_PST_SRV6, NULL, 0).number != STRUNDEVI_ACCEPTED ||
        strundevi_body(&board, store, sizeof store, 9).length != sizeof route - 4 || strundevi_body(&board, store, sizeof store, 9).form != 3)
        return 1;
    strundevi_change next = strundevi_next(&board, store, sizeof store, mark);
    mark = strundevi_mark_after(mark, next);
    if (next.kind != STRUNDEVI_PATH || next.key != 9 || next.form != STRUNDEVI_PST_SRV6 || mark.s != 0 || mark.w != 1)
        return 1;
    next = strundevi_next(&board, store, sizeof store, mark);
    if (next.kind != STRUNDEVI_LEVEL || strundevi_mark_after(mark, next).s != strundevi_mark_level(1).s)
        return 1;
    if (strundevi_moved(&board, store, sizeof store, 9, 9, 0).count != 1 || strundevi_moved(&board, store, sizeof store, 9, 9, 1).count != 0)
        return 1;
    if (strundevi_remove(&board, store, sizeof store, 9).number != STRUNDEVI_ACCEPTED ||
        strundevi_compact(&board, store, sizeof store, 2).number != STRUNDEVI_ACCEPTED)
        return 1;
    next = strundevi_next(&board, store, sizeof store, mark);
    if (next.number != STRUNDEVI_MARK_TOO_OLD || strundevi_mark_after(mark, next).w != mark.w)
        return 1;
    return strundevi_text(next.number)[0] != 'm' || strundevi_pcerr_of(STRUNDEVI_TOO_MANY_SEGMENTS, STRUNDEVI_ERO, STRUNDEVI_PST_MPLS).value != 3;
}
