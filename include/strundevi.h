/* Boxes beside a tram line: read OPEN objects, judge and write SRv6 and MPLS routes, keep a board of paths that other boxes follow. C99 or later,
 * C++11 or later. For x86-64 Linux.
 *
 * Setup type 1 is MPLS (RFC 8664). Every other number is judged as SRv6, and only 3 is ever accepted.
 *
 * Link with libstrundevi.a (`rt staticlib strundevi`), which has the proved functions, strundevi_raw_NAME. The language they are written in has no
 * null, so they take no null pointer: call strundevi_NAME, at the end of this file, which tests the pointers and calls them. A null buffer,
 * and one whose length no buffer can have, counts as one of no octets and is refused by the number that an empty one gets (a list of
 * addresses then counts as none, which is no refusal); a null board is refused with 17. The four calls on labels and indices do not test: they take
 * no null segment.
 *
 * This header, the Rust wrapper and the archive are of one version. A minor version may change the records, and nothing tests it: build all three together.
 *
 * Octets are as on the wire and need no alignment. An object goes in by itself, from its class octet on: no message header before it, nothing behind it;
 * a report takes the whole ERO. Records are in the machine's own order and layout: not for sending.
 *
 * Nothing is allocated and nothing is kept between calls. A refusal is a number and a place, and leaves all lent octets and records as
 * they were. Flags are octets: 0 is no, every other number is yes, and an answer has 0 or 1.
 *
 * Stack: none needs more than 2,048 octets, the caller's own records apart. Reading an OPEN calls itself once, for the list inside TLV 34; nothing goes deeper.
 *
 * Threads: strundevi_body, _next, _moved and _fresh_mark only read, so any number of readers may ask one board at once. While
 * strundevi_empty, _report, _remove or _compact runs, nobody else may use that board or its store. Different boards have nothing in common.
 *
 * A path's octets stay in the store: who was handed a path copies them before the board is changed again. What the store holds at the start does not matter.
 *
 * The caller owes what no call can test: a buffer has at least the octets that its length says, the buffers and records of one
 * call do not overlap, and nothing but these calls writes a board's record and its store, which each call gets whole and as the last one left
 * it. 17 looks at the record and at the store's length, not at its octets.
 *
 * How to follow a board:
 *   1. start empty, with the mark of strundevi_fresh_mark;
 *   2. ask strundevi_next with your mark;
 *   3. ask one thing at a time: an answer counts only while your mark is the one that it was asked with. Throw away one that comes late or twice;
 *   4. a path or a removal: make the change, copy a path's octets before the board is touched again, then keep the version as w (strundevi_mark_after);
 *   5. level: you hold what the board holds, and may set both s and w to its version (strundevi_mark_level);
 *   6. 23: removals that you did not see may have been dropped; start afresh;
 *   7. 24: this is not the board that you followed, or it was started anew or put back from an older copy; start afresh, and so does every other follower;
 *   8. 17: not you but the board is at fault; keep what you hold, change nothing, tell whoever keeps the board.
 * To start afresh: forget the mark, empty yourself, then take and keep the fresh mark. Whoever has a mark without the paths that went with it, or paths
 * without a mark, starts afresh. */
#ifndef STRUNDEVI_H
#define STRUNDEVI_H

#define STRUNDEVI_VERSION_MAJOR 1
#define STRUNDEVI_VERSION_MINOR 2
#define STRUNDEVI_VERSION_PATCH 0
#define STRUNDEVI_VERSION 10200 /* 10000 times major, 100 times minor, patch */

#include <stddef.h>
#include <stdint.h>

#if SIZE_MAX != UINT64_MAX
#error "libstrundevi.a has sizes of 64 bits"
#endif

/* On a call whose answer has to be looked at. */
#if defined(__GNUC__) || defined(__clang__)
#define STRUNDEVI_LOOK_AT __attribute__((warn_unused_result))
#else
#define STRUNDEVI_LOOK_AT
#endif

#ifdef __cplusplus
extern "C" {
#endif

/* ---- the numbers that a refusal carries */

enum strundevi_number {
    STRUNDEVI_ACCEPTED = 0,
    STRUNDEVI_OPEN_MALFORMED = 1,      /* OPEN ill formed */
    STRUNDEVI_CAPABILITY_MISSING = 2,  /* capability missing */
    STRUNDEVI_WRONG_MSD = 3,           /* wrong MSD type, or a depth of 0 */
    STRUNDEVI_FRAME_BROKEN = 4,        /* route frame broken */
    STRUNDEVI_ROUTE_EMPTY = 5,         /* route empty */
    STRUNDEVI_KINDS_MIXED = 6,         /* kinds mixed */
    STRUNDEVI_LENGTH_WRONG = 7,        /* F isn't 1 exactly for NT 0, or Length or M and C aren't as expected */
    STRUNDEVI_NAI_UNKNOWN = 8,         /* NT not one of the form's */
    STRUNDEVI_NOTHING_THERE = 9,       /* S and F both 1 */
    STRUNDEVI_SID_NEEDED = 10,         /* no SID, and the PCC's N is 0 */
    STRUNDEVI_STRUCTURE_TOO_LONG = 11, /* four bit lengths sum above 128 */
    STRUNDEVI_TOO_MANY_SEGMENTS = 12,  /* more segments than the limit */
    STRUNDEVI_NOT_AGREED = 13,         /* form not agreed */
    STRUNDEVI_NONE_OF_FORM = 14,       /* no subobject of the form */
    STRUNDEVI_NO_SUCH_SEGMENT = 15,    /* no such segment */
    STRUNDEVI_BUFFER_FULL = 16,        /* lent buffer full */
    STRUNDEVI_NOT_A_BOARD = 17,        /* not a board */
    STRUNDEVI_KEY_OUT_OF_RANGE = 18,   /* key out of range */
    STRUNDEVI_BODY_TOO_LONG = 19,      /* body above 384 octets */
    STRUNDEVI_VERSIONS_USED_UP = 20,   /* version is 2^64-2 */
    STRUNDEVI_ALL_PATHS = 21,          /* 128 paths */
    STRUNDEVI_NO_PATH = 22,            /* key has no path */
    STRUNDEVI_MARK_TOO_OLD = 23,       /* mark too old */
    STRUNDEVI_MARK_AHEAD = 24,         /* mark ahead */
    STRUNDEVI_NOT_USABLE = 28,         /* unusable bit positions, or address list not a multiple of 16 octets */
    STRUNDEVI_BAD_LABEL_VALUE = 29,    /* bad label value */
    STRUNDEVI_BAD_LABEL_FORMAT = 30    /* bad label format */
};

/* ---- sizes */

enum strundevi_size {
    STRUNDEVI_FIRST_PLACE = 4,        /* of a segment in a route */
    STRUNDEVI_SID_OCTETS = 16,        /* of SRv6; one of MPLS is the first 4 of them */
    STRUNDEVI_MPLS_SID_OCTETS = 4,
    STRUNDEVI_NAI_OCTETS = 40,        /* of the longest NAI, NT 6 */
    STRUNDEVI_STRUCTURE_OCTETS = 4,   /* the four bit lengths */
    STRUNDEVI_ADDRESS_OCTETS = 16,    /* of one of the head end's addresses */
    STRUNDEVI_POSITION_MOST = 13,     /* of A and R among the 16 flags, from 0, the highest */
    STRUNDEVI_LABEL_MOST = 1048575,
    STRUNDEVI_TC_MOST = 7,
    STRUNDEVI_OBJECT_MOST = 65532,    /* octets of an object that is written */
    STRUNDEVI_PLACES = 128,           /* of the board */
    STRUNDEVI_PLACE_OCTETS = 384,     /* of the store for a place */
    STRUNDEVI_STORE_OCTETS = 49152,   /* of the store */
    STRUNDEVI_KEY_MOST = 1048574      /* keys are 1 to this */
};

#define STRUNDEVI_VERSION_MOST (UINT64_MAX - 1)

enum strundevi_pst { STRUNDEVI_PST_MPLS = 1, STRUNDEVI_PST_SRV6 = 3 };

/* Which object a route is. Not the object's class: 7 and 8 would both be an ERO. */
enum strundevi_kind { STRUNDEVI_RRO = 0, STRUNDEVI_ERO = 1 };

/* ---- records */

/* number 0, place 0 and two counts; or the refusal's number and place and the counts 0. Of a route the place is the octet of the fault for 6 to 12, else 0,
 * and in adding always 0. Of a route, count is the number of its segments, and stray of those with something set that ought to be 0 (strundevi_picked); of
 * strundevi_moved, count is 1 for yes; elsewhere they are 0. */
typedef struct strundevi_verdict {
    size_t number;
    size_t place;
    size_t count;
    size_t stray;
} strundevi_verdict;

/* Where A and R stand among the 16 flags of sub-TLV 27: position 0 is the highest. They are still unassigned: two different ones of 0 to 13. */
typedef struct strundevi_setup {
    uint64_t a;
    uint64_t r;
} strundevi_setup;

/* What an OPEN object says. Refused: all but the number and the form is 0; the form is the setup type of the one at fault, 1 or 3, and 0 where it is none's.
 * Without SRv6, n, a and r are 0 and there are no limit, v and m. limited 0: limit does not count; hasv 0 (H.Encaps' smallest value) and hasm 0 (Segments
 * Left's): likewise. Without MPLS, mplsn is 0 and there is no mplslimit (the depth). */
typedef struct strundevi_opened {
    size_t number;
    uint8_t srv6;
    uint8_t n;
    uint8_t limited;
    size_t limit;
    uint8_t a;
    uint8_t r;
    uint8_t hasv;
    uint8_t v;
    uint8_t hasm;
    uint8_t m;
    uint8_t mpls;
    uint8_t mplsn;
    uint8_t mplslimited;
    uint8_t form;
    size_t mplslimit;
} strundevi_opened;

/* SRv6 agreed or not, the PCC's N; A and R agreed or not, the PCC's v (H.Encaps), m (Segments Left) and limit; MPLS agreed or not, the PCC's N and limit for
 * it. Of an ERO whose first segment stays off the header (R agreed, or A agreed and it is an adjacency of the head end) v and m decide, v + 1 and m + 1
 * segments, and where there is a v limit does not count. */
typedef struct strundevi_session {
    uint8_t agreed;
    uint8_t n;
    uint8_t a;
    uint8_t r;
    uint8_t hasv;
    uint8_t v;
    uint8_t hasm;
    uint8_t m;
    uint8_t limited;
    uint8_t mpls;
    uint8_t mplsn;
    uint8_t mplslimited;
    uint16_t limit;
    uint16_t mplslimit;
} strundevi_session;

/* A segment of either form. Octets of a part that is absent or shorter are 0. One of SRv6 has labelled and complete 0; one of MPLS has no behaviour and
 * no structure, and its SID is 4 octets: an index, or, where labelled, a label (strundevi_label_of). */
typedef struct strundevi_segment {
    uint8_t loose;  /* L */
    uint8_t verify; /* V */
    uint8_t nt;     /* 0, 2, 4, 6: an NAI of 0, 16, 32, 40 octets; of MPLS also 1, 3, 5: 4, 8, 16 octets */
    uint16_t behaviour;
    uint8_t hassid;
    uint8_t sid[STRUNDEVI_SID_OCTETS];
    uint8_t nai[STRUNDEVI_NAI_OCTETS];
    uint8_t structured;
    uint8_t structure[STRUNDEVI_STRUCTURE_OCTETS];
    uint8_t labelled; /* M */
    uint8_t complete; /* C */
} strundevi_segment;

/* A label stack entry (RFC 3032). TC, bottom (S) and TTL count only where the segment is complete. */
typedef struct strundevi_label {
    uint32_t label; /* 20 bits */
    uint8_t tc;     /* 3 bits */
    uint8_t bottom; /* S: 0 or 1 */
    uint8_t ttl;
} strundevi_label;

/* What a segment names beside its octets. */
typedef struct strundevi_outline {
    uint8_t loose;
    uint8_t verify;
    uint8_t nt;
    uint8_t label; /* M is worth 1 in it, C 2 */
    uint16_t behaviour;
    uint8_t hassid;
    uint8_t structured;
} strundevi_outline;

/* The verdict, with the number of segments, and the segment asked for; refused: all zeros behind the verdict. Behind the segment, what is set in its
 * octets and ought to be 0; a segment is stray if one of the three is not 0. */
typedef struct strundevi_picked {
    strundevi_verdict verdict;
    strundevi_segment segment;
    uint16_t flags;   /* the 12 flag bits with the assigned ones (V, T, F, S; of MPLS V, F, S, C, M) as 0 */
    uint8_t sflags;   /* the flag octet of the SID structure; 0 without one */
    uint8_t reserved; /* 1 if a reserved octet is not 0, else 0 */
} strundevi_picked;

/* The verdict, the segment at a place and the place behind it; refused: a segment of zeros and the place asked for. What is stray in it strundevi_segment_at
 * tells. */
typedef struct strundevi_stepped {
    strundevi_verdict verdict;
    strundevi_segment segment;
    size_t next;
} strundevi_stepped;

/* A route being written: of which kind and form (the setup type: 1 is MPLS's, every other SRv6's), and where the next segment goes. All zeros is a fine one
 * to begin with. Hand the writer of each answer to the next call: with an older one a segment is overwritten. */
typedef struct strundevi_writer {
    uint8_t ero;
    uint8_t form;
    size_t at;
} strundevi_writer;

/* Refused: the writer is the one given. */
typedef struct strundevi_written {
    strundevi_verdict verdict;
    strundevi_writer writer;
} strundevi_written;

/* A board. All zeros is the empty one. A key 0 is an empty place, a length 0 at a key the mark of a removal. The order names the used places from
 * the oldest change to the newest, each by 1 more than the place, with 0 behind them; tops has the largest version of each 8 places; forms the setup type of
 * each path, 1 or 3, and 0 where there is none. Only the calls may change these.
 *
 * An old mark may fit a board that was started anew, or put back from an older copy of record and store, and its follower would keep paths that are
 * withdrawn. No number tells. Whoever does either sees to it that every follower empties itself and takes a fresh mark, and that who remembers a version for
 * strundevi_moved counts every range as moved. Of a copy and its original only one may go on being followed. */
typedef struct strundevi_board {
    uint32_t keys[STRUNDEVI_PLACES];
    uint64_t versions[STRUNDEVI_PLACES];
    uint16_t lengths[STRUNDEVI_PLACES];
    uint64_t version;
    uint64_t floor;
    uint8_t order[STRUNDEVI_PLACES];
    uint64_t tops[STRUNDEVI_PLACES / 8];
    uint8_t forms[STRUNDEVI_PLACES];
} strundevi_board;

/* Octets start to start + length of the store, and the form of the path they are; refused: none. They are the ERO without its 4 header octets: to judge them
 * again put a header before them. */
typedef struct strundevi_part {
    size_t number;
    size_t start;
    size_t length;
    size_t form;
} strundevi_part;

enum strundevi_change_kind { STRUNDEVI_REFUSED = 0, STRUNDEVI_PATH = 1, STRUNDEVI_REMOVED = 2, STRUNDEVI_LEVEL = 3 };

/* A change (enum strundevi_change_kind) with its key and version, a path with its place, length and form too; or level, with the board's version. A path's
 * octets are `length` octets from `store + place * STRUNDEVI_PLACE_OCTETS`, the ERO without its header, as in strundevi_part. */
typedef struct strundevi_change {
    size_t number;
    size_t kind;
    uint64_t key;
    uint64_t version;
    size_t place;
    size_t length;
    size_t form;
} strundevi_change;

/* Where a follower stands. */
typedef struct strundevi_mark {
    uint64_t s;
    uint64_t w;
} strundevi_mark;

/* ---- what the archive has: its functions take no null pointer */

strundevi_opened strundevi_raw_read_open(strundevi_setup setup, const uint8_t *octets, size_t length);
strundevi_session strundevi_raw_agree(strundevi_opened pcc, strundevi_opened pce);
strundevi_verdict strundevi_raw_judge(const uint8_t *octets, size_t length, uint8_t ero, strundevi_session session, uint64_t pst,
                                      const uint8_t *addresses, size_t given);
strundevi_picked strundevi_raw_segment_at(const uint8_t *octets, size_t length, uint8_t ero, strundevi_session session, uint64_t pst,
                                          const uint8_t *addresses, size_t given, uint64_t i);
strundevi_stepped strundevi_raw_step(const uint8_t *octets, size_t length, uint8_t ero, uint64_t pst, size_t at);
strundevi_written strundevi_raw_begin(uint8_t *buffer, size_t size, strundevi_writer writer, uint8_t ero, uint64_t pst);
strundevi_written strundevi_raw_add(uint8_t *buffer, size_t size, strundevi_writer writer, strundevi_outline outline, const uint8_t *sid,
                                    const uint8_t *nai, const uint8_t *structure);
strundevi_written strundevi_raw_finish(uint8_t *buffer, size_t size, strundevi_writer writer);
void strundevi_raw_empty(uint32_t *keys, uint64_t *versions, uint16_t *lengths, uint64_t *version, uint64_t *floor, uint8_t *order, uint64_t *tops,
                         uint8_t *forms);
strundevi_verdict strundevi_raw_report(uint32_t *keys, uint64_t *versions, uint16_t *lengths, uint64_t *version, uint64_t *floor, uint8_t *order, uint64_t *tops,
                                       uint8_t *forms, uint8_t *store, size_t size, uint64_t key, const uint8_t *ero, size_t length, strundevi_session session,
                                       uint64_t pst, const uint8_t *addresses, size_t given);
strundevi_verdict strundevi_raw_remove(const uint32_t *keys, uint64_t *versions, uint16_t *lengths, uint64_t *version, uint64_t floor, uint8_t *order, uint64_t *tops,
                                       uint8_t *forms, const uint8_t *store, size_t size, uint64_t key);
strundevi_verdict strundevi_raw_compact(uint32_t *keys, uint64_t *versions, const uint16_t *lengths, uint64_t version, uint64_t *floor, uint8_t *order, uint64_t *tops,
                                        const uint8_t *forms, const uint8_t *store, size_t size, uint64_t c);
strundevi_part strundevi_raw_body(const uint32_t *keys, const uint64_t *versions, const uint16_t *lengths, uint64_t version, uint64_t floor,
                                  const uint8_t *order, const uint64_t *tops, const uint8_t *forms, const uint8_t *store, size_t size, uint64_t key);
strundevi_change strundevi_raw_next(const uint32_t *keys, const uint64_t *versions, const uint16_t *lengths, uint64_t version, uint64_t floor,
                                  const uint8_t *order, const uint64_t *tops, const uint8_t *forms, const uint8_t *store, size_t size, uint64_t s, uint64_t w);
strundevi_verdict strundevi_raw_moved(const uint32_t *keys, const uint64_t *versions, const uint16_t *lengths, uint64_t version, uint64_t floor,
                                      const uint8_t *order, const uint64_t *tops, const uint8_t *forms, const uint8_t *store, size_t size, uint64_t from,
                                      uint64_t to, uint64_t v);
strundevi_mark strundevi_raw_fresh_mark(uint64_t version);

/* ---- the calls */

/* The octets that a buffer can lend. */
static inline size_t strundevi_lent(const void *buffer, size_t length) {
    return buffer == NULL || length > SIZE_MAX / 2 ? 0 : length;
}

/* A buffer of no octets has a pointer too. */
static inline const uint8_t *strundevi_from(const uint8_t *buffer) {
    static const uint8_t none[1] = {0};
    return buffer == NULL ? none : buffer;
}

static inline uint8_t *strundevi_into(uint8_t *buffer, uint8_t *none) {
    return buffer == NULL ? none : buffer;
}

static inline strundevi_verdict strundevi_no_board(void) {
    strundevi_verdict refused = {STRUNDEVI_NOT_A_BOARD, 0, 0, 0};
    return refused;
}

/* Reads an OPEN object, with A and R at the positions of set-up: 28; then 1, 2, 3, and within each number MPLS's capability before SRv6's. */
STRUNDEVI_LOOK_AT static inline strundevi_opened strundevi_read_open(strundevi_setup setup, const uint8_t *octets, size_t length) {
    return strundevi_raw_read_open(setup, strundevi_from(octets), strundevi_lent(octets, length));
}

/* The session of the PCC's and the PCE's answers, with a half for each form. */
static inline strundevi_session strundevi_agree(strundevi_opened pcc, strundevi_opened pce) {
    return strundevi_raw_agree(pcc, pce);
}

/* Judges a route of the form that pst names: 28; 4, 5, 6, 14, 13; 8, 9, 7, 10, 11, 29, 30 segment by segment; 12. The counts are those of its segments
 * and of the stray ones. The addresses are the head end's, 16 octets each; where A is agreed they say whether an ERO's first segment is one of its adjacencies.
 * NULL and 0 for none. */
STRUNDEVI_LOOK_AT static inline strundevi_verdict strundevi_judge(const uint8_t *octets, size_t length, enum strundevi_kind kind, strundevi_session session,
                                                uint64_t pst, const uint8_t *addresses, size_t given) {
    return strundevi_raw_judge(strundevi_from(octets), strundevi_lent(octets, length), kind != STRUNDEVI_RRO, session, pst, strundevi_from(addresses),
                               strundevi_lent(addresses, given));
}

/* Segment i, from 0, of a route: as in judging, then 15. */
STRUNDEVI_LOOK_AT static inline strundevi_picked strundevi_segment_at(const uint8_t *octets, size_t length, enum strundevi_kind kind, strundevi_session session,
                                              uint64_t pst, const uint8_t *addresses, size_t given, uint64_t i) {
    return strundevi_raw_segment_at(strundevi_from(octets), strundevi_lent(octets, length), kind != STRUNDEVI_RRO, session, pst,
                                    strundevi_from(addresses), strundevi_lent(addresses, given), i);
}

/* The segment at a place of a route that was judged under this setup type, and the place behind it, from STRUNDEVI_FIRST_PLACE on: all segments in one pass.
 * 15 at a place under 4, no multiple of 4, or at or past the end; 4, 14, 8, 9, 7, 11, 29, 30 of the one subobject, which is all that is looked at. */
STRUNDEVI_LOOK_AT static inline strundevi_stepped strundevi_step(const uint8_t *octets, size_t length, enum strundevi_kind kind, uint64_t pst, size_t at) {
    return strundevi_raw_step(strundevi_from(octets), strundevi_lent(octets, length), kind != STRUNDEVI_RRO, pst, at);
}

/* Begins a route of the form that pst names in the buffer: 16. */
STRUNDEVI_LOOK_AT static inline strundevi_written strundevi_begin(uint8_t *buffer, size_t size, strundevi_writer writer, enum strundevi_kind kind,
                                                                  uint64_t pst) {
    uint8_t none[1];
    return strundevi_raw_begin(strundevi_into(buffer, none), strundevi_lent(buffer, size), writer, kind != STRUNDEVI_RRO, pst);
}

/* Adds a segment: 8, 9, 7, 11, 29, 30, 16. It is looked at by itself: an MPLS route that mixes labels, indices and segments without a SID, or has bottom 1 in a
 * complete label before the last, is written too, and a peer that checks refuses it with PCErr 10/20 or 10/4. */
STRUNDEVI_LOOK_AT static inline strundevi_written strundevi_add(uint8_t *buffer, size_t size, strundevi_writer writer, strundevi_segment segment) {
    uint8_t none[1];
    uint8_t label = (uint8_t)((segment.labelled != 0) + 2 * (segment.complete != 0));
    strundevi_outline outline = {segment.loose, segment.verify, segment.nt, label, segment.behaviour, segment.hassid, segment.structured};
    return strundevi_raw_add(strundevi_into(buffer, none), strundevi_lent(buffer, size), writer, outline, segment.sid, segment.nai,
                             segment.structure);
}

/* Finishes the route, whose octets are those before the writer's place: 16, 5. */
STRUNDEVI_LOOK_AT static inline strundevi_written strundevi_finish(uint8_t *buffer, size_t size, strundevi_writer writer) {
    uint8_t none[1];
    return strundevi_raw_finish(strundevi_into(buffer, none), strundevi_lent(buffer, size), writer);
}

/* Makes the board the empty one. Then every follower of what it was has to empty itself and take a fresh mark. */
static inline void strundevi_empty(strundevi_board *board) {
    if (board != NULL)
        strundevi_raw_empty(board->keys, board->versions, board->lengths, &board->version, &board->floor, board->order, board->tops, board->forms);
}

/* Reports a path, whose form is that of its setup type: 28, 17, 18, the route's numbers, 19, 20, 21. The counts are those of its segments and of the stray
 * ones. The addresses are the head end's, as in judging. */
STRUNDEVI_LOOK_AT static inline strundevi_verdict strundevi_report(strundevi_board *board, uint8_t *store, size_t size, uint64_t key, const uint8_t *ero,
                                                 size_t length, strundevi_session session, uint64_t pst, const uint8_t *addresses, size_t given) {
    uint8_t none[1];
    if (board == NULL) {
        strundevi_verdict unusable = {STRUNDEVI_NOT_USABLE, 0, 0, 0};
        return strundevi_lent(addresses, given) % STRUNDEVI_ADDRESS_OCTETS != 0 ? unusable : strundevi_no_board();
    }
    return strundevi_raw_report(board->keys, board->versions, board->lengths, &board->version, &board->floor, board->order, board->tops, board->forms,
                                strundevi_into(store, none), strundevi_lent(store, size), key, strundevi_from(ero), strundevi_lent(ero, length), session, pst,
                                strundevi_from(addresses), strundevi_lent(addresses, given));
}

/* Removes a path: 17, 18, 22, 20. */
STRUNDEVI_LOOK_AT static inline strundevi_verdict strundevi_remove(strundevi_board *board, const uint8_t *store, size_t size, uint64_t key) {
    if (board == NULL)
        return strundevi_no_board();
    return strundevi_raw_remove(board->keys, board->versions, board->lengths, &board->version, board->floor, board->order, board->tops, board->forms,
                                strundevi_from(store), strundevi_lent(store, size), key);
}

/* Drops the marks of removals with a version of at most c, and raises the floor to c if it is lower: a follower whose mark is below the floor, and who asks
 * strundevi_moved about a version below it, gets 23. Refused with 17, 24. */
STRUNDEVI_LOOK_AT static inline strundevi_verdict strundevi_compact(strundevi_board *board, const uint8_t *store, size_t size, uint64_t c) {
    if (board == NULL)
        return strundevi_no_board();
    return strundevi_raw_compact(board->keys, board->versions, board->lengths, board->version, &board->floor, board->order, board->tops, board->forms,
                                 strundevi_from(store), strundevi_lent(store, size), c);
}

/* Where a key's path lies in the store, and its form: 17, 18, 22. */
STRUNDEVI_LOOK_AT static inline strundevi_part strundevi_body(const strundevi_board *board, const uint8_t *store, size_t size, uint64_t key) {
    if (board == NULL) {
        strundevi_part refused = {STRUNDEVI_NOT_A_BOARD, 0, 0, 0};
        return refused;
    }
    return strundevi_raw_body(board->keys, board->versions, board->lengths, board->version, board->floor, board->order, board->tops, board->forms,
                              strundevi_from(store), strundevi_lent(store, size), key);
}

/* What a follower with this mark is handed: 17, 24, 23. */
STRUNDEVI_LOOK_AT static inline strundevi_change strundevi_next(const strundevi_board *board, const uint8_t *store, size_t size, strundevi_mark mark) {
    if (board == NULL) {
        strundevi_change refused = {STRUNDEVI_NOT_A_BOARD, STRUNDEVI_REFUSED, 0, 0, 0, 0, 0};
        return refused;
    }
    return strundevi_raw_next(board->keys, board->versions, board->lengths, board->version, board->floor, board->order, board->tops, board->forms,
                              strundevi_from(store), strundevi_lent(store, size), mark.s, mark.w);
}

/* Whether a key from `from` to `to` changed after version v: 17, 24, 23. The count is 1 for yes and 0 for no; from above to is no. Read the board's version
 * before anyone can change the board again, and remember it with the answer, for the next time; begin with that of a time when you looked at every key. After
 * 23 or 24 count the range as moved. */
STRUNDEVI_LOOK_AT static inline strundevi_verdict strundevi_moved(const strundevi_board *board, const uint8_t *store, size_t size, uint64_t from,
                                                                  uint64_t to, uint64_t v) {
    if (board == NULL)
        return strundevi_no_board();
    return strundevi_raw_moved(board->keys, board->versions, board->lengths, board->version, board->floor, board->order, board->tops, board->forms,
                               strundevi_from(store), strundevi_lent(store, size), from, to, v);
}

/* The mark of a follower that begins, and holds nothing. Without a board it is (0, 0). */
static inline strundevi_mark strundevi_fresh_mark(const strundevi_board *board) {
    return strundevi_raw_fresh_mark(board == NULL ? 0 : board->version);
}

/* The mark after an answer: w is the version of the change made; level sets both; a refusal leaves it. */
static inline strundevi_mark strundevi_mark_after(strundevi_mark mark, strundevi_change change) {
    if (change.kind == STRUNDEVI_PATH || change.kind == STRUNDEVI_REMOVED || change.kind == STRUNDEVI_LEVEL)
        mark.w = change.version;
    if (change.kind == STRUNDEVI_LEVEL)
        mark.s = change.version;
    return mark;
}

/* The mark of a follower that was told it is level with a board of this version. */
static inline strundevi_mark strundevi_mark_level(uint64_t version) {
    strundevi_mark mark;
    mark.s = version;
    mark.w = version;
    return mark;
}

/* ---- MPLS: labels and indices, of a segment that is not null */

/* The 4 octets of an MPLS segment's SID as one number: its index, where it is not labelled. */
static inline uint32_t strundevi_index_of(const strundevi_segment *segment) {
    uint32_t octets = 0;
    size_t i;
    for (i = 0; i < STRUNDEVI_MPLS_SID_OCTETS; i++)
        octets = octets << 8 | segment->sid[i];
    return octets;
}

/* The label stack entry of an MPLS segment that is labelled. */
static inline strundevi_label strundevi_label_of(const strundevi_segment *segment) {
    uint32_t octets = strundevi_index_of(segment);
    strundevi_label entry;
    entry.label = octets >> 12;
    entry.tc = octets >> 9 & 7;
    entry.bottom = octets >> 8 & 1;
    entry.ttl = octets & 255;
    return entry;
}

/* Makes the segment's SID an index. */
static inline void strundevi_set_index(strundevi_segment *segment, uint32_t index) {
    size_t i;
    for (i = 0; i < STRUNDEVI_SID_OCTETS; i++)
        segment->sid[i] = 0;
    for (i = STRUNDEVI_MPLS_SID_OCTETS; i > 0; i--) {
        segment->sid[i - 1] = index & 255;
        index >>= 8;
    }
    segment->hassid = 1;
    segment->labelled = 0;
    segment->complete = 0;
}

/* Makes the segment's SID a label. With `complete` its TC, bottom and TTL count, and a TTL of 0 is refused in adding (30). 0, and the segment stays, where
 * the label has more than 20 bits, TC more than 3, or bottom is neither 0 nor 1; else 1. */
STRUNDEVI_LOOK_AT static inline int strundevi_set_label(strundevi_segment *segment, strundevi_label entry, uint8_t complete) {
    if (entry.label > STRUNDEVI_LABEL_MOST || entry.tc > STRUNDEVI_TC_MOST || entry.bottom > 1)
        return 0;
    uint32_t tc = entry.tc, bottom = entry.bottom;
    strundevi_set_index(segment, entry.label << 12 | tc << 9 | bottom << 8 | entry.ttl);
    segment->labelled = 1;
    segment->complete = complete != 0;
    return 1;
}

/* The octets that an NAI of this NT has in the form that a setup type names; 0 also where the form has no such NT. */
static inline size_t strundevi_nai_octets(uint64_t pst, uint8_t nt) {
    switch (nt) {
    case 1: return pst == STRUNDEVI_PST_MPLS ? 4 : 0;
    case 2: return 16;
    case 3: return pst == STRUNDEVI_PST_MPLS ? 8 : 0;
    case 4: return 32;
    case 5: return pst == STRUNDEVI_PST_MPLS ? 16 : 0;
    case 6: return STRUNDEVI_NAI_OCTETS;
    default: return 0;
    }
}

/* ---- the numbers in words, and in PCEP */

/* A few words for a number. */
static inline const char *strundevi_text(size_t number) {
    switch (number) {
    case STRUNDEVI_ACCEPTED: return "accepted";
    case STRUNDEVI_OPEN_MALFORMED: return "OPEN ill formed";
    case STRUNDEVI_CAPABILITY_MISSING: return "capability missing";
    case STRUNDEVI_WRONG_MSD: return "wrong MSD type, or a depth of 0";
    case STRUNDEVI_FRAME_BROKEN: return "route frame broken";
    case STRUNDEVI_ROUTE_EMPTY: return "route empty";
    case STRUNDEVI_KINDS_MIXED: return "kinds mixed";
    case STRUNDEVI_LENGTH_WRONG: return "F isn't 1 exactly for NT 0, or Length or M and C aren't as expected";
    case STRUNDEVI_NAI_UNKNOWN: return "NT not one of the form's";
    case STRUNDEVI_NOTHING_THERE: return "S and F both 1";
    case STRUNDEVI_SID_NEEDED: return "no SID, and the PCC's N is 0";
    case STRUNDEVI_STRUCTURE_TOO_LONG: return "four bit lengths sum above 128";
    case STRUNDEVI_TOO_MANY_SEGMENTS: return "more segments than the limit";
    case STRUNDEVI_NOT_AGREED: return "form not agreed";
    case STRUNDEVI_NONE_OF_FORM: return "no subobject of the form";
    case STRUNDEVI_NO_SUCH_SEGMENT: return "no such segment";
    case STRUNDEVI_BUFFER_FULL: return "lent buffer full";
    case STRUNDEVI_NOT_A_BOARD: return "not a board";
    case STRUNDEVI_KEY_OUT_OF_RANGE: return "key out of range";
    case STRUNDEVI_BODY_TOO_LONG: return "body above 384 octets";
    case STRUNDEVI_VERSIONS_USED_UP: return "version is 2^64-2";
    case STRUNDEVI_ALL_PATHS: return "128 paths";
    case STRUNDEVI_NO_PATH: return "key has no path";
    case STRUNDEVI_MARK_TOO_OLD: return "mark too old";
    case STRUNDEVI_MARK_AHEAD: return "mark ahead";
    case STRUNDEVI_NOT_USABLE: return "unusable bit positions, or address list not a multiple of 16 octets";
    case STRUNDEVI_BAD_LABEL_VALUE: return "bad label value";
    case STRUNDEVI_BAD_LABEL_FORMAT: return "bad label format";
    default: return "no number of this library";
    }
}

/* Error-Type and Error-value of the PCErr to send to the peer. Type 0: no PCErr is fixed for it; 14 is most often the peer's fault, 15 to 28 are this box's own. */
typedef struct strundevi_pcerr {
    uint8_t type;
    uint8_t value;
} strundevi_pcerr;

/* The PCErr for the refusal of an OPEN with this form at fault, or of a route of this kind and form (docs/NUMBERS.md). A form that is not 1 is SRv6's. */
static inline strundevi_pcerr strundevi_pcerr_of(size_t number, enum strundevi_kind kind, uint64_t form) {
    strundevi_pcerr none = {0, 0}, open_invalid = {1, 1}, malformed = {10, 11}, nai = {10, 13}, sid = {4, 4}, depth = {10, 3};
    strundevi_pcerr capability = {10, 34}, mixed_ero = {10, 20}, mixed_rro = {10, 36}, nothing_rro = {10, 35}, structure = {10, 37}, setup = {19, 19};
    strundevi_pcerr mpls_capability = {10, 12}, mpls_depth = {10, 21}, mpls_mixed_ero = {10, 5}, mpls_mixed_rro = {10, 10};
    strundevi_pcerr nothing_ero = {10, 6}, mpls_nothing_rro = {10, 7}, label_value = {10, 2}, label_format = {10, 4};
    int mpls = form == STRUNDEVI_PST_MPLS, rro = kind == STRUNDEVI_RRO;
    switch (number) {
    case STRUNDEVI_OPEN_MALFORMED: return open_invalid;
    case STRUNDEVI_CAPABILITY_MISSING: return mpls ? mpls_capability : capability;
    case STRUNDEVI_WRONG_MSD: return mpls ? mpls_depth : open_invalid;
    case STRUNDEVI_FRAME_BROKEN:
    case STRUNDEVI_ROUTE_EMPTY:
    case STRUNDEVI_LENGTH_WRONG: return malformed;
    case STRUNDEVI_KINDS_MIXED: return mpls ? (rro ? mpls_mixed_rro : mpls_mixed_ero) : rro ? mixed_rro : mixed_ero;
    case STRUNDEVI_NAI_UNKNOWN: return nai;
    case STRUNDEVI_NOTHING_THERE: return rro ? (mpls ? mpls_nothing_rro : nothing_rro) : nothing_ero;
    case STRUNDEVI_SID_NEEDED: return rro ? none : sid;
    case STRUNDEVI_STRUCTURE_TOO_LONG: return mpls ? none : structure;
    case STRUNDEVI_TOO_MANY_SEGMENTS: return rro ? none : depth;
    case STRUNDEVI_NOT_AGREED: return mpls ? malformed : setup;
    case STRUNDEVI_BAD_LABEL_VALUE: return mpls ? label_value : none;
    case STRUNDEVI_BAD_LABEL_FORMAT: return mpls ? label_format : none;
    default: return none;
    }
}

#ifdef __cplusplus
}
#endif

#endif
