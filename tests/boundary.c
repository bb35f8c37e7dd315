/* The border in C: null, empty and impossible buffers, numbers out of range, records that are no boards. Each is refused by its number and
 * changes nothing. Prints the first thing that is otherwise, and ends with status 1. */
#include <stdio.h>
#include <string.h>

#include "strundevi.h"

static int wrong;

static void expect(int line, int holds, const char *what) {
    if (!holds) {
        printf("line %d: %s\n", line, what);
        wrong = 1;
    }
}

#define EXPECT(holds) expect(__LINE__, (holds), #holds)

static int refused(strundevi_verdict verdict, size_t number) {
    return verdict.number == number && verdict.place == 0 && verdict.count == 0 && verdict.stray == 0;
}

static const uint8_t route[] = {0x07, 0x10, 0x00, 0x1C, 0x28, 0x18, 0x00, 0x02, 0x00, 0x00, 0x00, 0x01, 0x20, 0x01,
                                0x0D, 0xB8, 0x00, 0x00, 0x00, 0x01, 0x00, 0x00, 0x00, 0x00, 0x00, 0x00, 0x00, 0x01};
static const uint8_t mpls[] = {0x07, 0x10, 0x00, 0x0C, 0x24, 0x08, 0x00, 0x09, 0x03, 0xE8, 0x10, 0x00};
static uint8_t store[STRUNDEVI_STORE_OCTETS], store_before[STRUNDEVI_STORE_OCTETS];
static strundevi_board board, before;

static int kept(void) {
    return memcmp(&board, &before, sizeof board) == 0 && memcmp(store, store_before, sizeof store) == 0;
}

int main(void) {
    const strundevi_setup at = {0, 1};
    const strundevi_session session = {.agreed = 1, .n = 1};
    const strundevi_session yes = {.agreed = 200, .n = 7, .limited = 255, .mpls = 128, .mplslimited = 2, .limit = 1, .mplslimit = 1};
    const size_t lengths[] = {0, 1, 4, 28, 49152, PTRDIFF_MAX, SIZE_MAX};

    /* null, at every length, is a buffer of no octets */
    for (size_t i = 0; i < sizeof lengths / sizeof *lengths; i++) {
        size_t n = lengths[i];
        strundevi_writer writer = {STRUNDEVI_ERO, 77, 4};
        strundevi_segment segment = {.hassid = 1};
        strundevi_mark mark = {0, 0};
        EXPECT(strundevi_read_open(at, NULL, n).number == STRUNDEVI_OPEN_MALFORMED);
        EXPECT(refused(strundevi_judge(NULL, n, STRUNDEVI_ERO, session, 3, NULL, 0), STRUNDEVI_FRAME_BROKEN));
        EXPECT(refused(strundevi_segment_at(NULL, n, STRUNDEVI_RRO, session, 3, NULL, 0, 0).verdict, STRUNDEVI_FRAME_BROKEN));
        EXPECT(refused(strundevi_step(NULL, n, STRUNDEVI_ERO, 1, 4).verdict, STRUNDEVI_NO_SUCH_SEGMENT));
        EXPECT(refused(strundevi_begin(NULL, n, writer, STRUNDEVI_RRO, 1).verdict, STRUNDEVI_BUFFER_FULL));
        EXPECT(refused(strundevi_add(NULL, n, writer, segment).verdict, STRUNDEVI_BUFFER_FULL));
        EXPECT(refused(strundevi_finish(NULL, n, writer).verdict, STRUNDEVI_BUFFER_FULL));
        EXPECT(strundevi_begin(NULL, n, writer, STRUNDEVI_RRO, 1).writer.at == 4);
        EXPECT(strundevi_begin(NULL, n, writer, STRUNDEVI_RRO, 1).writer.ero == 1);
        EXPECT(strundevi_begin(NULL, n, writer, STRUNDEVI_RRO, 1).writer.form == 77);
        EXPECT(refused(strundevi_report(&board, NULL, n, 1, route, sizeof route, session, 3, NULL, 0), STRUNDEVI_NOT_A_BOARD));
        EXPECT(refused(strundevi_report(NULL, store, n, 1, route, sizeof route, session, 3, NULL, 0), STRUNDEVI_NOT_A_BOARD));
        EXPECT(refused(strundevi_report(&board, store, sizeof store, 1, NULL, n, session, 3, NULL, 0), STRUNDEVI_FRAME_BROKEN));
        EXPECT(refused(strundevi_remove(&board, NULL, n, 1), STRUNDEVI_NOT_A_BOARD));
        EXPECT(refused(strundevi_remove(NULL, store, n, 1), STRUNDEVI_NOT_A_BOARD));
        EXPECT(refused(strundevi_compact(&board, NULL, n, 0), STRUNDEVI_NOT_A_BOARD));
        EXPECT(refused(strundevi_compact(NULL, store, n, 0), STRUNDEVI_NOT_A_BOARD));
        EXPECT(strundevi_body(&board, NULL, n, 1).number == STRUNDEVI_NOT_A_BOARD);
        EXPECT(strundevi_body(NULL, store, n, 1).number == STRUNDEVI_NOT_A_BOARD);
        EXPECT(strundevi_next(&board, NULL, n, mark).number == STRUNDEVI_NOT_A_BOARD);
        EXPECT(refused(strundevi_moved(&board, NULL, n, 0, UINT64_MAX, 0), STRUNDEVI_NOT_A_BOARD));
        EXPECT(strundevi_next(NULL, store, n, mark).number == STRUNDEVI_NOT_A_BOARD);
        EXPECT(kept());
    }
    strundevi_empty(NULL);
    EXPECT(strundevi_fresh_mark(NULL).s == 0);

    /* a length that no buffer has */
    EXPECT(strundevi_read_open(at, route, SIZE_MAX).number == STRUNDEVI_OPEN_MALFORMED);
    EXPECT(refused(strundevi_judge(route, (size_t)PTRDIFF_MAX + 1, STRUNDEVI_ERO, session, 3, NULL, 0), STRUNDEVI_FRAME_BROKEN));
    EXPECT(refused(strundevi_report(&board, store, SIZE_MAX, 1, route, sizeof route, session, 3, NULL, 0), STRUNDEVI_NOT_A_BOARD));
    EXPECT(refused(strundevi_remove(&board, store, (size_t)PTRDIFF_MAX + 1, 1), STRUNDEVI_NOT_A_BOARD));
    EXPECT(kept());

    /* every flag but 0 is yes */
    EXPECT(strundevi_judge(route, sizeof route, STRUNDEVI_ERO, yes, 3, NULL, 0).count == 1);
    EXPECT(strundevi_judge(mpls, sizeof mpls, STRUNDEVI_ERO, yes, 1, NULL, 0).count == 1);

    /* unusable positions, and a list that is no multiple of 16 octets, go before everything else */
    const strundevi_setup unusable[] = {{14, 0}, {0, 14}, {3, 3}, {UINT64_MAX, 0}};
    for (size_t i = 0; i < sizeof unusable / sizeof *unusable; i++)
        EXPECT(strundevi_read_open(unusable[i], NULL, 0).number == STRUNDEVI_NOT_USABLE);
    EXPECT(refused(strundevi_judge(NULL, 0, STRUNDEVI_RRO, session, 3, route, 15), STRUNDEVI_NOT_USABLE));
    EXPECT(refused(strundevi_segment_at(NULL, 0, STRUNDEVI_ERO, session, 3, route, 17, 0).verdict, STRUNDEVI_NOT_USABLE));
    EXPECT(refused(strundevi_report(NULL, NULL, 0, 0, NULL, 0, session, 3, route, 1), STRUNDEVI_NOT_USABLE));
    EXPECT(refused(strundevi_report(&board, NULL, 0, 0, NULL, 0, session, 3, route, 1), STRUNDEVI_NOT_USABLE));
    EXPECT(strundevi_judge(route, sizeof route, STRUNDEVI_ERO, session, 3, NULL, 7).count == 1);
    EXPECT(strundevi_judge(route, sizeof route, STRUNDEVI_ERO, session, 3, route, SIZE_MAX).count == 1);

    /* the setup type names the form, all 64 bits of it, and SRv6's if it names none */
    const uint64_t setups[] = {0, 2, 4, 257, ((uint64_t)1 << 32) + 1, ((uint64_t)1 << 32) + 3, UINT64_MAX};
    EXPECT(refused(strundevi_judge(route, sizeof route, STRUNDEVI_ERO, session, 1, NULL, 0), STRUNDEVI_NONE_OF_FORM));
    EXPECT(refused(strundevi_judge(mpls, sizeof mpls, STRUNDEVI_ERO, session, 1, NULL, 0), STRUNDEVI_NOT_AGREED));
    EXPECT(refused(strundevi_judge(mpls, sizeof mpls, STRUNDEVI_ERO, yes, 3, NULL, 0), STRUNDEVI_NONE_OF_FORM));
    for (size_t i = 0; i < sizeof setups / sizeof *setups; i++) {
        uint8_t buffer[12] = {0};
        strundevi_writer none = {0, 0, 0};
        EXPECT(refused(strundevi_judge(route, sizeof route, STRUNDEVI_ERO, yes, setups[i], NULL, 0), STRUNDEVI_NOT_AGREED));
        EXPECT(refused(strundevi_judge(mpls, sizeof mpls, STRUNDEVI_ERO, yes, setups[i], NULL, 0), STRUNDEVI_NONE_OF_FORM));
        EXPECT(strundevi_step(route, sizeof route, STRUNDEVI_ERO, setups[i], 4).next == sizeof route);
        EXPECT(refused(strundevi_step(mpls, sizeof mpls, STRUNDEVI_ERO, setups[i], 4).verdict, STRUNDEVI_NONE_OF_FORM));
        EXPECT(strundevi_begin(buffer, sizeof buffer, none, STRUNDEVI_ERO, setups[i]).writer.form == STRUNDEVI_PST_SRV6);
    }

    /* a label has 20 bits, TC 3, S 1 */
    const strundevi_label wide[] = {{1048576, 0, 0, 0}, {UINT32_MAX, 0, 0, 0}, {16, 8, 0, 0}, {16, 0, 2, 0}, {16, 255, 255, 255}};
    for (size_t i = 0; i < sizeof wide / sizeof *wide; i++) {
        strundevi_segment segment = {.nt = 3}, same = segment;
        EXPECT(!strundevi_set_label(&segment, wide[i], 1) && memcmp(&segment, &same, sizeof segment) == 0);
    }
    const strundevi_label edges[] = {{0, 0, 0, 0}, {1048575, 0, 0, 0}, {0, 7, 0, 0}, {0, 0, 1, 0}, {0, 0, 0, 255}, {0x12345, 5, 1, 0x67}};
    const uint32_t octets[] = {0, 0xFFFFF000, 0x00000E00, 0x00000100, 0x000000FF, 0x12345B67};
    for (size_t i = 0; i < sizeof edges / sizeof *edges; i++) {
        strundevi_segment segment = {.nt = 3};
        memset(segment.sid, 0xFF, sizeof segment.sid);
        EXPECT(strundevi_set_label(&segment, edges[i], 2) && segment.labelled == 1 && segment.complete == 1 && segment.hassid == 1 && segment.nt == 3);
        EXPECT(strundevi_index_of(&segment) == octets[i] && segment.sid[4] == 0 && segment.sid[15] == 0);
        strundevi_label read = strundevi_label_of(&segment);
        EXPECT(read.label == edges[i].label && read.tc == edges[i].tc && read.bottom == edges[i].bottom && read.ttl == edges[i].ttl);
        EXPECT(strundevi_set_label(&segment, edges[i], 0) && segment.labelled == 1 && segment.complete == 0);
        strundevi_set_index(&segment, octets[i]);
        EXPECT(strundevi_index_of(&segment) == octets[i] && segment.labelled == 0 && segment.complete == 0 && segment.hassid == 1);
    }

    /* keys, places and marks that are none */
    const uint64_t keys[] = {0, STRUNDEVI_KEY_MOST + 1, (uint64_t)1 << 32, ((uint64_t)1 << 32) + 1, UINT64_MAX};
    for (size_t i = 0; i < sizeof keys / sizeof *keys; i++) {
        EXPECT(refused(strundevi_report(&board, store, sizeof store, keys[i], route, sizeof route, session, 3, NULL, 0), STRUNDEVI_KEY_OUT_OF_RANGE));
        EXPECT(refused(strundevi_remove(&board, store, sizeof store, keys[i]), STRUNDEVI_KEY_OUT_OF_RANGE));
        EXPECT(strundevi_body(&board, store, sizeof store, keys[i]).number == STRUNDEVI_KEY_OUT_OF_RANGE);
    }
    const size_t places[] = {0, 3, 5, 6, 68, 65532, 65536, SIZE_MAX, SIZE_MAX - 3};
    for (size_t i = 0; i < sizeof places / sizeof *places; i++) {
        uint8_t buffer[64] = {0}, zeros[64] = {0};
        strundevi_writer writer = {STRUNDEVI_ERO, i % 2, places[i]};
        strundevi_segment segment = {.hassid = 1};
        EXPECT(refused(strundevi_add(buffer, sizeof buffer, writer, segment).verdict, STRUNDEVI_BUFFER_FULL));
        EXPECT(refused(strundevi_finish(buffer, sizeof buffer, writer).verdict, STRUNDEVI_BUFFER_FULL));
        EXPECT(memcmp(buffer, zeros, sizeof buffer) == 0);
    }
    EXPECT(refused(strundevi_compact(&board, store, sizeof store, 1), STRUNDEVI_MARK_AHEAD));
    EXPECT(refused(strundevi_moved(&board, store, sizeof store, 0, UINT64_MAX, 1), STRUNDEVI_MARK_AHEAD));
    EXPECT(strundevi_next(&board, store, sizeof store, (strundevi_mark){UINT64_MAX, 0}).number == STRUNDEVI_MARK_AHEAD);
    EXPECT(strundevi_next(&board, store, sizeof store, (strundevi_mark){0, UINT64_MAX}).number == STRUNDEVI_MARK_AHEAD);
    EXPECT(kept());

    /* a store that is an octet short, and records that are no boards */
    EXPECT(refused(strundevi_report(&board, store, sizeof store - 1, 1, route, sizeof route, session, 3, NULL, 0), STRUNDEVI_NOT_A_BOARD));
    for (int i = 0; i < 12; i++) {
        memset(&board, 0, sizeof board);
        if (i >= 8) {
            board.keys[0] = 7;
            board.versions[0] = board.version = board.tops[0] = 1;
            board.order[0] = 1;
        }
        switch (i) {
        case 0: board.keys[127] = 1; break;
        case 1: board.versions[127] = 1; break;
        case 2: board.lengths[0] = 24; break;
        case 3: board.floor = 1; break;
        case 4: board.version = UINT64_MAX; break;
        case 5: board.order[0] = 1; break;
        case 6: board.tops[15] = 1; break;
        case 7: board.forms[127] = 1; break;
        case 8: board.forms[0] = 1; break; /* a removal has no form */
        case 9: board.lengths[0] = 24; break; /* and a path has one */
        case 10: board.lengths[0] = 20, board.forms[0] = 3; break;
        default: memset(&board, 0xFF, sizeof board); break;
        }
        before = board;
        EXPECT(refused(strundevi_report(&board, store, sizeof store, 1, route, sizeof route, session, 3, NULL, 0), STRUNDEVI_NOT_A_BOARD));
        EXPECT(refused(strundevi_remove(&board, store, sizeof store, 1), STRUNDEVI_NOT_A_BOARD));
        EXPECT(refused(strundevi_compact(&board, store, sizeof store, 0), STRUNDEVI_NOT_A_BOARD));
        EXPECT(strundevi_body(&board, store, sizeof store, 1).number == STRUNDEVI_NOT_A_BOARD);
        EXPECT(strundevi_next(&board, store, sizeof store, (strundevi_mark){0, 0}).number == STRUNDEVI_NOT_A_BOARD);
        EXPECT(refused(strundevi_moved(&board, store, sizeof store, 0, UINT64_MAX, 0), STRUNDEVI_NOT_A_BOARD));
        EXPECT(kept());
    }

    /* the border is no wall: what is good is taken */
    strundevi_empty(&board);
    EXPECT(strundevi_report(&board, store, sizeof store, STRUNDEVI_KEY_MOST, route, sizeof route, session, 3, NULL, 0).count == 1);
    EXPECT(strundevi_body(&board, store, sizeof store, STRUNDEVI_KEY_MOST).length == 24);
    EXPECT(memcmp(store, route + 4, 24) == 0);
    EXPECT(strundevi_moved(&board, store, sizeof store, 0, UINT64_MAX, 0).count == 1);
    EXPECT(strundevi_moved(&board, store, sizeof store, 0, STRUNDEVI_KEY_MOST, 0).count == 1);
    EXPECT(strundevi_moved(&board, store, sizeof store, 0, STRUNDEVI_KEY_MOST - 1, 0).count == 0);
    EXPECT(strundevi_moved(&board, store, sizeof store, 0, UINT64_MAX, 1).count == 0);
    EXPECT(strundevi_fresh_mark(&board).s == 1 && strundevi_fresh_mark(&board).w == 0);
    EXPECT(strundevi_body(&board, store, sizeof store, STRUNDEVI_KEY_MOST).form == 3);
    EXPECT(strundevi_report(&board, store, sizeof store, STRUNDEVI_KEY_MOST, mpls, sizeof mpls, yes, 1, NULL, 0).count == 1);
    EXPECT(strundevi_body(&board, store, sizeof store, STRUNDEVI_KEY_MOST).length == 8);
    EXPECT(strundevi_body(&board, store, sizeof store, STRUNDEVI_KEY_MOST).form == 1 && board.forms[0] == 1);
    EXPECT(strundevi_next(&board, store, sizeof store, (strundevi_mark){0, 0}).form == 1);
    EXPECT(strundevi_remove(&board, store, sizeof store, STRUNDEVI_KEY_MOST).number == 0 && board.forms[0] == 0);
    EXPECT(strundevi_next(&board, store, sizeof store, (strundevi_mark){0, 0}).form == 0);
    return wrong;
}
