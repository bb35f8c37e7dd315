/* The calls of include/strundevi.h under names that Rust can link, and its records and numbers as rows, in the order of src/header.rs. */
#include "strundevi.h"

strundevi_opened header_read_open(strundevi_setup setup, const uint8_t *octets, size_t length) {
    return strundevi_read_open(setup, octets, length);
}

strundevi_session header_agree(strundevi_opened pcc, strundevi_opened pce) {
    return strundevi_agree(pcc, pce);
}

strundevi_verdict header_judge(const uint8_t *octets, size_t length, uint8_t ero, strundevi_session session, uint64_t pst, const uint8_t *addresses,
                               size_t given) {
    return strundevi_judge(octets, length, ero ? STRUNDEVI_ERO : STRUNDEVI_RRO, session, pst, addresses, given);
}

strundevi_picked header_segment_at(const uint8_t *octets, size_t length, uint8_t ero, strundevi_session session, uint64_t pst,
                                   const uint8_t *addresses, size_t given, uint64_t i) {
    return strundevi_segment_at(octets, length, ero ? STRUNDEVI_ERO : STRUNDEVI_RRO, session, pst, addresses, given, i);
}

strundevi_stepped header_step(const uint8_t *octets, size_t length, uint8_t ero, uint64_t pst, size_t at) {
    return strundevi_step(octets, length, ero ? STRUNDEVI_ERO : STRUNDEVI_RRO, pst, at);
}

strundevi_written header_begin(uint8_t *buffer, size_t size, strundevi_writer writer, uint8_t ero, uint64_t pst) {
    return strundevi_begin(buffer, size, writer, ero ? STRUNDEVI_ERO : STRUNDEVI_RRO, pst);
}

strundevi_written header_add(uint8_t *buffer, size_t size, strundevi_writer writer, const strundevi_segment *segment) {
    return strundevi_add(buffer, size, writer, *segment);
}

strundevi_written header_finish(uint8_t *buffer, size_t size, strundevi_writer writer) {
    return strundevi_finish(buffer, size, writer);
}

void header_empty(strundevi_board *board) {
    strundevi_empty(board);
}

strundevi_verdict header_report(strundevi_board *board, uint8_t *store, size_t size, uint64_t key, const uint8_t *ero, size_t length,
                                strundevi_session session, uint64_t pst, const uint8_t *addresses, size_t given) {
    return strundevi_report(board, store, size, key, ero, length, session, pst, addresses, given);
}

strundevi_verdict header_remove(strundevi_board *board, const uint8_t *store, size_t size, uint64_t key) {
    return strundevi_remove(board, store, size, key);
}

strundevi_verdict header_compact(strundevi_board *board, const uint8_t *store, size_t size, uint64_t c) {
    return strundevi_compact(board, store, size, c);
}

strundevi_part header_body(const strundevi_board *board, const uint8_t *store, size_t size, uint64_t key) {
    return strundevi_body(board, store, size, key);
}

strundevi_change header_next(const strundevi_board *board, const uint8_t *store, size_t size, strundevi_mark mark) {
    return strundevi_next(board, store, size, mark);
}

strundevi_verdict header_moved(const strundevi_board *board, const uint8_t *store, size_t size, uint64_t from, uint64_t to, uint64_t v) {
    return strundevi_moved(board, store, size, from, to, v);
}

strundevi_mark header_fresh_mark(const strundevi_board *board) {
    return strundevi_fresh_mark(board);
}

strundevi_mark header_mark_after(strundevi_mark mark, strundevi_change change) {
    return strundevi_mark_after(mark, change);
}

strundevi_mark header_mark_level(uint64_t version) {
    return strundevi_mark_level(version);
}

const char *header_text(size_t number) {
    return strundevi_text(number);
}

strundevi_pcerr header_pcerr(size_t number, uint8_t ero, uint64_t form) {
    return strundevi_pcerr_of(number, ero ? STRUNDEVI_ERO : STRUNDEVI_RRO, form);
}

strundevi_label header_label_of(const strundevi_segment *segment) {
    return strundevi_label_of(segment);
}

int header_set_label(strundevi_segment *segment, strundevi_label entry, uint8_t complete) {
    return strundevi_set_label(segment, entry, complete);
}

uint32_t header_index_of(const strundevi_segment *segment) {
    return strundevi_index_of(segment);
}

void header_set_index(strundevi_segment *segment, uint32_t index) {
    strundevi_set_index(segment, index);
}

size_t header_nai_octets(uint64_t pst, uint8_t nt) {
    return strundevi_nai_octets(pst, nt);
}

#define AT(record, field) offsetof(strundevi_##record, field)

/* Sizes of the records, each with the places of its fields. */
static const size_t layout[] = {
    sizeof(strundevi_verdict), AT(verdict, number), AT(verdict, place), AT(verdict, count), AT(verdict, stray),
    sizeof(strundevi_setup), AT(setup, a), AT(setup, r),
    sizeof(strundevi_opened), AT(opened, number), AT(opened, srv6), AT(opened, n), AT(opened, limited), AT(opened, limit), AT(opened, a),
    AT(opened, r), AT(opened, hasv), AT(opened, v), AT(opened, hasm), AT(opened, m), AT(opened, mpls), AT(opened, mplsn), AT(opened, mplslimited),
    AT(opened, form), AT(opened, mplslimit),
    sizeof(strundevi_session), AT(session, agreed), AT(session, n), AT(session, a), AT(session, r), AT(session, hasv), AT(session, v), AT(session, hasm),
    AT(session, m), AT(session, limited), AT(session, mpls), AT(session, mplsn), AT(session, mplslimited), AT(session, limit), AT(session, mplslimit),
    sizeof(strundevi_segment), AT(segment, loose), AT(segment, verify), AT(segment, nt), AT(segment, behaviour), AT(segment, hassid),
    AT(segment, sid), AT(segment, nai), AT(segment, structured), AT(segment, structure), AT(segment, labelled), AT(segment, complete),
    sizeof(strundevi_label), AT(label, label), AT(label, tc), AT(label, bottom), AT(label, ttl),
    sizeof(strundevi_picked), AT(picked, verdict), AT(picked, segment), AT(picked, flags), AT(picked, sflags), AT(picked, reserved),
    sizeof(strundevi_stepped), AT(stepped, verdict), AT(stepped, segment), AT(stepped, next),
    sizeof(strundevi_writer), AT(writer, ero), AT(writer, form), AT(writer, at),
    sizeof(strundevi_written), AT(written, verdict), AT(written, writer),
    sizeof(strundevi_board), AT(board, keys), AT(board, versions), AT(board, lengths), AT(board, version), AT(board, floor),
    AT(board, order), AT(board, tops), AT(board, forms),
    sizeof(strundevi_part), AT(part, number), AT(part, start), AT(part, length), AT(part, form),
    sizeof(strundevi_change), AT(change, number), AT(change, kind), AT(change, key), AT(change, version), AT(change, place), AT(change, length),
    AT(change, form),
    sizeof(strundevi_mark), AT(mark, s), AT(mark, w),
};

/* Every number and size that the header names. */
static const uint64_t numbers[] = {
    STRUNDEVI_ACCEPTED, STRUNDEVI_OPEN_MALFORMED, STRUNDEVI_CAPABILITY_MISSING, STRUNDEVI_WRONG_MSD, STRUNDEVI_FRAME_BROKEN, STRUNDEVI_ROUTE_EMPTY,
    STRUNDEVI_KINDS_MIXED, STRUNDEVI_LENGTH_WRONG, STRUNDEVI_NAI_UNKNOWN, STRUNDEVI_NOTHING_THERE, STRUNDEVI_SID_NEEDED,
    STRUNDEVI_STRUCTURE_TOO_LONG, STRUNDEVI_TOO_MANY_SEGMENTS, STRUNDEVI_NOT_AGREED, STRUNDEVI_NONE_OF_FORM, STRUNDEVI_NO_SUCH_SEGMENT,
    STRUNDEVI_BUFFER_FULL, STRUNDEVI_NOT_A_BOARD, STRUNDEVI_KEY_OUT_OF_RANGE, STRUNDEVI_BODY_TOO_LONG, STRUNDEVI_VERSIONS_USED_UP,
    STRUNDEVI_ALL_PATHS, STRUNDEVI_NO_PATH, STRUNDEVI_MARK_TOO_OLD, STRUNDEVI_MARK_AHEAD, STRUNDEVI_NOT_USABLE,
    STRUNDEVI_BAD_LABEL_VALUE, STRUNDEVI_BAD_LABEL_FORMAT,
    STRUNDEVI_FIRST_PLACE, STRUNDEVI_SID_OCTETS, STRUNDEVI_MPLS_SID_OCTETS, STRUNDEVI_NAI_OCTETS, STRUNDEVI_STRUCTURE_OCTETS, STRUNDEVI_ADDRESS_OCTETS,
    STRUNDEVI_POSITION_MOST, STRUNDEVI_LABEL_MOST, STRUNDEVI_TC_MOST, STRUNDEVI_OBJECT_MOST, STRUNDEVI_PLACES, STRUNDEVI_PLACE_OCTETS,
    STRUNDEVI_STORE_OCTETS, STRUNDEVI_KEY_MOST, STRUNDEVI_VERSION_MOST, STRUNDEVI_PST_MPLS, STRUNDEVI_PST_SRV6, STRUNDEVI_RRO, STRUNDEVI_ERO, STRUNDEVI_REFUSED,
    STRUNDEVI_PATH, STRUNDEVI_REMOVED, STRUNDEVI_LEVEL, STRUNDEVI_VERSION_MAJOR, STRUNDEVI_VERSION_MINOR, STRUNDEVI_VERSION_PATCH, STRUNDEVI_VERSION,
};

/* Hands out a row and its length. */
const size_t *header_layout(size_t *length) {
    *length = sizeof layout / sizeof *layout;
    return layout;
}

const uint64_t *header_numbers(size_t *length) {
    *length = sizeof numbers / sizeof *numbers;
    return numbers;
}
