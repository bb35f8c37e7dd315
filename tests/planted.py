#!/usr/bin/env python3
# Plants faults, one at a time, in a copy of the header, the wrapper and the reference, and sees to it that the tests find each of them.
#
#     tests/planted.py [WORD ..]      only the faults that have one of these words in their names
#
# Needs the archive (`tools/archive`); STRUNDEVI_LIB names the folder of another, such as that of `tools/native`. Prints a line for each fault and ends
# with status 1 if one was let pass, or does not compile and so shows nothing. It takes some minutes, and is no part of the gate.
import filecmp
import os
import resource
import shutil
import subprocess
import sys

ROOT = os.path.dirname(os.path.dirname(os.path.abspath(__file__)))
COPY = os.path.join(ROOT, "target", "planted")
ARCHIVE = os.path.abspath(os.environ.get("STRUNDEVI_LIB") or os.path.join(ROOT, "target", "staticlib"))
HEADER = "include/strundevi.h"
WRAPPER = "rust/strundevi/src/"
REFERENCE = "rust/reference/src/"

# name: file, then pairs of a text that stands there once and what replaces it
FAULTS = {
    # ---- the header
    "sides of agree swapped": (HEADER, "return strundevi_raw_agree(pcc, pce);", "return strundevi_raw_agree(pce, pcc);"),
    "L and V swapped": (HEADER, "outline = {segment.loose, segment.verify,", "outline = {segment.verify, segment.loose,"),
    "SID and structure flags swapped": (HEADER, "segment.behaviour, segment.hassid, segment.structured}", "segment.behaviour, segment.structured, segment.hassid}"),
    "NAI lent for the structure": (HEADER, "                             segment.structure);", "                             segment.nai);"),
    "23 made 99": (HEADER, "STRUNDEVI_MARK_TOO_OLD = 23,", "STRUNDEVI_MARK_TOO_OLD = 99,"),
    "a path's kind made 2, a removal's 1": (HEADER, "STRUNDEVI_PATH = 1, STRUNDEVI_REMOVED = 2", "STRUNDEVI_PATH = 2, STRUNDEVI_REMOVED = 1"),
    "places of 386 octets": (HEADER, "STRUNDEVI_PLACE_OCTETS = 384,", "STRUNDEVI_PLACE_OCTETS = 386,"),
    "keys up to 1,048,575": (HEADER, "STRUNDEVI_KEY_MOST = 1048574 ", "STRUNDEVI_KEY_MOST = 1048575 "),
    "another version": (HEADER, "#define STRUNDEVI_VERSION 10200", "#define STRUNDEVI_VERSION 10201"),
    "SRv6 and N of an OPEN swapped": (HEADER, "    uint8_t srv6;\n    uint8_t n;\n", "    uint8_t n;\n    uint8_t srv6;\n"),
    "version and floor swapped": (HEADER, "    uint64_t version;\n    uint64_t floor;\n", "    uint64_t floor;\n    uint64_t version;\n"),
    "place and count swapped": (HEADER, "    size_t place;\n    size_t count;\n", "    size_t count;\n    size_t place;\n"),
    "ERO judged as RRO": (HEADER, "strundevi_lent(octets, length), kind != STRUNDEVI_RRO, session, pst, strundevi_from(addresses),", "strundevi_lent(octets, length), kind == STRUNDEVI_RRO, session, pst, strundevi_from(addresses),"),
    "setup type not asked for": (HEADER, "kind != STRUNDEVI_RRO, session, pst, strundevi_from(addresses),", "kind != STRUNDEVI_RRO, session, pst | 2, strundevi_from(addresses),"),
    "next segment handed out": (HEADER, "strundevi_from(addresses), strundevi_lent(addresses, given), i);", "strundevi_from(addresses), strundevi_lent(addresses, given), i + 1);"),
    "step as through an RRO": (HEADER, "kind != STRUNDEVI_RRO, pst, at);", "kind == STRUNDEVI_RRO, pst, at);"),
    "step as through SRv6": (HEADER, "kind != STRUNDEVI_RRO, pst, at);", "kind != STRUNDEVI_RRO, pst | 2, at);"),
    "RRO begun as ERO": (HEADER, "strundevi_lent(buffer, size), writer, kind != STRUNDEVI_RRO, pst);", "strundevi_lent(buffer, size), writer, (uint8_t)kind | 1, pst);"),
    "MPLS begun as SRv6": (HEADER, "strundevi_lent(buffer, size), writer, kind != STRUNDEVI_RRO, pst);", "strundevi_lent(buffer, size), writer, kind != STRUNDEVI_RRO, pst | 2);"),
    "M and C swapped": (HEADER, "(segment.labelled != 0) + 2 * (segment.complete != 0)", "(segment.complete != 0) + 2 * (segment.labelled != 0)"),
    "M and C of a segment swapped": (HEADER, "    uint8_t labelled; /* M */\n    uint8_t complete; /* C */\n", "    uint8_t complete; /* C */\n    uint8_t labelled; /* M */\n"),
    "form dropped from the writer": (HEADER, "    uint8_t ero;\n    uint8_t form;\n    size_t at;", "    uint8_t form;\n    uint8_t ero;\n    size_t at;"),
    "label shifted": (HEADER, "entry.label = octets >> 12;", "entry.label = octets >> 11 & 0xFFFFF;"),
    "TC shifted": (HEADER, "entry.tc = octets >> 9 & 7;", "entry.tc = octets >> 8 & 7;"),
    "S read from TC": (HEADER, "entry.bottom = octets >> 8 & 1;", "entry.bottom = octets >> 9 & 1;"),
    "TTL of 7 bits": (HEADER, "entry.ttl = octets & 255;", "entry.ttl = octets & 127;"),
    "TC set where S stands": (HEADER, "tc << 9 | bottom << 8", "tc << 8 | bottom << 9"),
    "labels of 21 bits": (HEADER, "entry.label > STRUNDEVI_LABEL_MOST ||", "entry.label > 2 * STRUNDEVI_LABEL_MOST + 1 ||"),
    "TC of 4 bits": (HEADER, "STRUNDEVI_TC_MOST = 7,", "STRUNDEVI_TC_MOST = 15,"),
    "an index keeps M": (HEADER, "    segment->labelled = 0;\n", ""),
    "an index keeps C": (HEADER, "    segment->complete = 0;\n", ""),
    "C set whatever is asked": (HEADER, "segment->complete = complete != 0;", "segment->complete = complete != 2;"),
    "NT 5 of 8 octets": (HEADER, "case 5: return pst == STRUNDEVI_PST_MPLS ? 16 : 0;", "case 5: return pst == STRUNDEVI_PST_MPLS ? 8 : 0;"),
    "forms not emptied": (HEADER, "board->order, board->tops, board->forms);", "board->order, board->tops, board->order);"),
    "form and MPLS limit of an OPEN swapped": (HEADER, "    uint8_t mplslimited;\n    uint8_t form;\n", "    uint8_t form;\n    uint8_t mplslimited;\n"),
    "N and limit of MPLS swapped in a session": (HEADER, "    uint8_t mplsn;\n    uint8_t mplslimited;\n    uint16_t limit;\n", "    uint8_t mplslimited;\n    uint8_t mplsn;\n    uint16_t limit;\n"),
    "limits of a session swapped": (HEADER, "    uint16_t limit;\n    uint16_t mplslimit;\n", "    uint16_t mplslimit;\n    uint16_t limit;\n"),
    "form and length of a path swapped": (HEADER, "    size_t length;\n    size_t form;\n} strundevi_part;", "    size_t form;\n    size_t length;\n} strundevi_part;"),
    "form and place of a change swapped": (HEADER, "    size_t place;\n    size_t length;\n    size_t form;\n} strundevi_change;", "    size_t form;\n    size_t length;\n    size_t place;\n} strundevi_change;"),
    "PCErr of SRv6 for MPLS": (HEADER, "mpls_capability = {10, 12}", "mpls_capability = {10, 34}"),
    "PCErr of 30 for 29": (HEADER, "label_value = {10, 2}", "label_value = {10, 4}"),
    "29 with a PCErr in SRv6": (HEADER, "return mpls ? label_value : none;", "return label_value;"),
    "words of 29 for 30": (HEADER, 'return "bad label format";', 'return "bad label value";'),
    "finish in half the buffer": (HEADER, "return strundevi_raw_finish(strundevi_into(buffer, none), strundevi_lent(buffer, size), writer);", "return strundevi_raw_finish(strundevi_into(buffer, none), strundevi_lent(buffer, size / 2), writer);"),
    "lengths not tested": (HEADER, "return buffer == NULL || length > SIZE_MAX / 2 ? 0 : length;", "return buffer == NULL ? 0 : length;"),
    "null buffers not tested": (HEADER, "return buffer == NULL || length > SIZE_MAX / 2 ? 0 : length;", "return (void)buffer, length > SIZE_MAX / 2 ? 0 : length;"),
    "28 behind 17 for a null board": (HEADER, "% STRUNDEVI_ADDRESS_OCTETS != 0 ? unusable : strundevi_no_board();", "% STRUNDEVI_ADDRESS_OCTETS == 99 ? unusable : strundevi_no_board();"),
    "addresses not lent": (HEADER, "                               strundevi_lent(addresses, given));", "                               strundevi_lent(addresses, given) / 16 * 0 + (given % 16));"),
    "A and R of a session swapped": (HEADER, "    uint8_t a;\n    uint8_t r;\n    uint8_t hasv;\n    uint8_t v;\n    uint8_t hasm;\n    uint8_t m;\n    uint8_t limited;", "    uint8_t r;\n    uint8_t a;\n    uint8_t hasv;\n    uint8_t v;\n    uint8_t hasm;\n    uint8_t m;\n    uint8_t limited;"),
    "wrapper: R for A": (WRAPPER + "open.rs", "            a: self.a as u8,", "            a: self.r as u8,"),
    "reference: one end's R is enough": (REFERENCE + "session.rs", "r: pcc.r && pce.r", "r: pcc.r || pce.r"),
    "reference: the remote address": (REFERENCE + "route.rs", "{ 12 } else { 28 }", "{ 28 } else { 44 }"),
    "reference: the larger of 1 and v, plus 1": (REFERENCE + "route.rs", "=> usize::from(v) + 1,", "=> usize::from(v).max(1) + 1,"),
    "null board is 22": (HEADER, "strundevi_verdict refused = {STRUNDEVI_NOT_A_BOARD, 0, 0, 0};", "strundevi_verdict refused = {STRUNDEVI_NO_PATH, 0, 0, 0};"),
    "reported key cut to 32 bits": (HEADER, "strundevi_lent(store, size), key, strundevi_from(ero)", "strundevi_lent(store, size), (uint32_t)key, strundevi_from(ero)"),
    "compact is a no-op": (HEADER, "strundevi_lent(store, size), c);", "strundevi_lent(store, size), c & 0);"),
    "s and w swapped": (HEADER, "strundevi_lent(store, size), mark.s, mark.w);", "strundevi_lent(store, size), mark.w, mark.s);"),
    "fresh mark of the floor": (HEADER, "board == NULL ? 0 : board->version", "board == NULL ? 0 : board->floor"),
    "level leaves s": (HEADER, "    if (change.kind == STRUNDEVI_LEVEL)\n        mark.s", "    if (change.kind == STRUNDEVI_REFUSED)\n        mark.s"),
    "a refusal moves w": (HEADER, "    if (change.kind == STRUNDEVI_PATH || change.kind == STRUNDEVI_REMOVED || change.kind == STRUNDEVI_LEVEL)\n        mark.w", "    mark.w"),
    "level at 0": (HEADER, "    mark.s = version;\n    mark.w = version;\n", "    mark.s = version;\n    mark.w = version & 0;\n"),
    "words of 17 for 18": (HEADER, 'return "not a board";', 'return "key out of range";'),
    "PCErr of an ERO for an RRO": (HEADER, "mixed_rro = {10, 36}", "mixed_rro = {10, 20}"),
    "positions of A and R swapped": (HEADER, "    uint64_t a;\n    uint64_t r;\n} strundevi_setup;", "    uint64_t r;\n    uint64_t a;\n} strundevi_setup;"),
    "moved of the range backwards": (HEADER, "strundevi_lent(store, size), from, to, v);", "strundevi_lent(store, size), to, from, v);"),
    "moved of one key less": (HEADER, "strundevi_lent(store, size), from, to, v);", "strundevi_lent(store, size), from, to - (to > from), v);"),
    "flags and reserved of a stray segment swapped": (HEADER, "    uint8_t sflags;   /* the flag octet of the SID structure; 0 without one */\n    uint8_t reserved; /* 1 if a reserved octet is not 0, else 0 */\n", "    uint8_t reserved; /* 1 if a reserved octet is not 0, else 0 */\n    uint8_t sflags;   /* the flag octet of the SID structure; 0 without one */\n"),
    # ---- the wrapper
    "wrapper: sides of agree swapped": (WRAPPER + "open.rs", "raw::agree(opened(pcc), opened(pce))", "raw::agree(opened(pce), opened(pcc))"),
    "wrapper: a limit where there is none": (WRAPPER + "open.rs", "(there != 0).then_some(value)", "(there == 0).then_some(value)"),
    "wrapper: agreed for N": (WRAPPER + "open.rs", "            agreed: self.agreed as u8,\n            n: self.n as u8,", "            agreed: self.agreed as u8,\n            n: self.agreed as u8,"),
    "wrapper: L sets V": (WRAPPER + "segment.rs", "self.0.loose = loose as u8;", "self.0.verify = loose as u8;"),
    "wrapper: no behaviour with an NAI": (WRAPPER + "segment.rs", "Segment(raw::Segment { behaviour, ..raw::Segment::ZERO })", "Segment(raw::Segment { behaviour: behaviour & 1, ..raw::Segment::ZERO })"),
    "wrapper: an adjacency's NT is 6": (WRAPPER + "nai.rs", "Nai::Adjacency { .. } => 4,", "Nai::Adjacency { .. } => 6,"),
    "wrapper: remote address forgotten": (WRAPPER + "nai.rs", "put(16, &remote.octets());", "put(16, &remote.octets().map(|o| o & 0));"),
    "wrapper: local interface for remote": (WRAPPER + "nai.rs", "put(36, &remote_interface.to_be_bytes());", "put(36, &local_interface.to_be_bytes());"),
    "wrapper: interfaces read as one": (WRAPPER + "nai.rs", "remote_interface: interface(36)", "remote_interface: interface(16)"),
    "wrapper: IPv4 adjacency read as a node": (WRAPPER + "nai.rs", "remote: node(4) }),", "remote: node(0) }),"),
    "wrapper: remote node of NT 5 where the interface stands": (WRAPPER + "nai.rs", "put(8, &remote.octets());", "put(4, &remote.octets());"),
    "wrapper: NT 5 of 8 octets": (WRAPPER + "nai.rs", "            5 => 16,\n", "            5 => 8,\n"),
    "wrapper: label shifted": (WRAPPER + "label.rs", "        self.0 >> 12\n", "        self.0 >> 11 & Label::MOST\n"),
    "wrapper: TC shifted": (WRAPPER + "label.rs", "(self.0 >> 9 & 7) as u8", "(self.0 >> 8 & 7) as u8"),
    "wrapper: S set where TC stands": (WRAPPER + "label.rs", "(s as u32) << 8", "(s as u32) << 9"),
    "wrapper: labels of 21 bits": (WRAPPER + "label.rs", "0xF_FFFF;", "0x1F_FFFF;"),
    "wrapper: TC of 4 bits": (WRAPPER + "label.rs", "|| tc > 7 {", "|| tc > 15 {"),
    "wrapper: every label with C": (WRAPPER + "label.rs", "        matches!(self, MplsSid::Entry(_))", "        !matches!(self, MplsSid::Index(_))"),
    "wrapper: M dropped": (WRAPPER + "segment.rs", "labelled: sid.labelled() as u8,", "labelled: sid.complete() as u8,"),
    "wrapper: C read as M": (WRAPPER + "segment.rs", "        self.0.complete != 0", "        self.0.labelled != 0"),
    "wrapper: step as through SRv6": (WRAPPER + "route.rs", "raw::step(octets, kind.raw(), pst, at)", "raw::step(octets, kind.raw(), pst | 2, at)"),
    "wrapper: iterator steps as through SRv6": (WRAPPER + "route.rs", "step(self.octets, self.kind, self.pst, self.at)", "step(self.octets, self.kind, self.pst | 2, self.at)"),
    "wrapper: MPLS begun as SRv6": (WRAPPER + "writer.rs", "kind.raw(), form.pst());", "kind.raw(), form.pst() | 2);"),
    "wrapper: resumed as SRv6": (WRAPPER + "writer.rs", "        Writer { buffer, kind, form, at }", "        Writer { buffer, kind, form: Form::of(form.pst() | 2), at }"),
    "wrapper: every path SRv6's": (WRAPPER + "board.rs", "Path { form: Form::of(r.form as u64), body: &store[", "Path { form: Form::of(r.form as u64 | 2), body: &store["),
    "wrapper: every change SRv6's": (WRAPPER + "board.rs", "version: r.version, form: Form::of(r.form as u64), body }", "version: r.version, form: Form::of(r.form as u64 | 2), body }"),
    "wrapper: MPLS's fault SRv6's": (WRAPPER + "open.rs", "            PST_MPLS => Some(Form::Mpls),", "            PST_MPLS => Some(Form::Srv6),"),
    "wrapper: N of SRv6 for MPLS": (WRAPPER + "open.rs", "            mplsn: mpls.n as u8,\n            mplslimited: mpls.limit.is_some() as u8,\n            limit", "            mplsn: self.n as u8,\n            mplslimited: mpls.limit.is_some() as u8,\n            limit"),
    "wrapper: limit of SRv6 for MPLS": (WRAPPER + "open.rs", "mplslimit: short(mpls.limit),", "mplslimit: short(self.limit),"),
    "wrapper: MPLS agreed though the PCE has it not": (WRAPPER + "open.rs", "        mpls: open.mpls.is_some() as u8,\n", "        mpls: 1,\n"),
    "wrapper: PCErr of SRv6 for MPLS": (WRAPPER + "answer.rs", "(Number::CapabilityMissing, _, Mpls) => (10, 12)", "(Number::CapabilityMissing, _, Mpls) => (10, 34)"),
    "wrapper: PCErr of 30 for 29": (WRAPPER + "answer.rs", "(Number::BadLabelValue, _, Mpls) => (10, 2)", "(Number::BadLabelValue, _, Mpls) => (10, 4)"),
    "wrapper: M and C swapped at the border": (WRAPPER + "raw.rs", "(s.labelled != 0) as u8 | ((s.complete != 0) as u8) << 1", "(s.complete != 0) as u8 | ((s.labelled != 0) as u8) << 1"),
    "wrapper: structure not handed out": (WRAPPER + "segment.rs", ".then_some(self.0.structure)", ".then_some(self.0.structure.map(|bits| bits & 0))"),
    "wrapper: RRO judged as ERO": (WRAPPER + "route.rs", "            Kind::Rro => 0,", "            Kind::Rro => 1,"),
    "wrapper: always segment 0": (WRAPPER + "route.rs", "raw::segment(octets, kind.raw(), session.raw(), pst, addresses, i)", "raw::segment(octets, kind.raw(), session.raw(), pst, addresses, i & 0)"),
    "wrapper: every step from octet 4": (WRAPPER + "route.rs", "raw::step(octets, kind.raw(), pst, at)", "raw::step(octets, kind.raw(), pst, at.min(4))"),
    "wrapper: iterator begins behind the first": (WRAPPER + "route.rs", "at: FIRST_PLACE, left }", "at: FIRST_PLACE + 24, left }"),
    "wrapper: RRO writer made an ERO writer": (WRAPPER + "writer.rs", "form: 0, at: 0 }, kind.raw(), form.pst())", "form: 0, at: 0 }, kind.raw() | 1, form.pst())"),
    "wrapper: whole buffer for the object": (WRAPPER + "writer.rs", "Ok(&self.buffer[..self.at])", "Ok(&self.buffer[..])"),
    "wrapper: resumed at a multiple of 4": (WRAPPER + "writer.rs", "        Writer { buffer, kind, form, at }", "        Writer { buffer, kind, form, at: at / 4 * 4 }"),
    "wrapper: compact is a no-op": (WRAPPER + "board.rs", "raw::compact(&mut self.record, self.store.as_ref(), c)", "raw::compact(&mut self.record, self.store.as_ref(), c & 0)"),
    "wrapper: body of another place": (WRAPPER + "board.rs", "body: &store[r.start..][..r.length]", "body: &store[r.start ^ 384..][..r.length]"),
    "wrapper: path of another place": (WRAPPER + "board.rs", "&store[r.place * PLACE_OCTETS..]", "&store[(r.place ^ 1) * PLACE_OCTETS..]"),
    "wrapper: removals handed out as level": (WRAPPER + "board.rs", "            REMOVED => Change::Removed { key: r.key as u32, version: r.version },\n", ""),
    "wrapper: every report under setup type 3": (WRAPPER + "board.rs", "ero, session.raw(), pst, addresses)", "ero, session.raw(), pst | 2, addresses)"),
    "wrapper: fresh mark past the paths": (WRAPPER + "board.rs", "Mark { s: r.s, w: r.w }", "Mark { s: r.s, w: r.s }"),
    "wrapper: level leaves s": (WRAPPER + "board.rs", "Change::Level { version } => Mark::level(version),", "Change::Level { version } => Mark { w: version, ..self },"),
    "wrapper: keys up to 1,048,575": (WRAPPER + "board.rs", "KEY_MOST: u32 = 1_048_574;", "KEY_MOST: u32 = 1_048_575;"),
    "wrapper: 17 and 18 swapped": (WRAPPER + "answer.rs", "NotABoard = 17,", "NotABoard = 18,", "KeyOutOfRange = 18,", "KeyOutOfRange = 17,"),
    "wrapper: a place where none is named": (WRAPPER + "answer.rs", "            0 => self.number.fmt(f),\n", ""),
    "wrapper: PCErr 10/21": (WRAPPER + "answer.rs", "(Number::KindsMixed, Ero, Srv6) => (10, 20)", "(Number::KindsMixed, Ero, Srv6) => (10, 21)"),
    "wrapper: L and V swapped at the border": (WRAPPER + "raw.rs", "at(s.loose, 0) | at(s.verify, 1)", "at(s.verify, 0) | at(s.loose, 1)"),
    "wrapper: version lent for the floor": (WRAPPER + "raw.rs", "&mut b.lengths, &mut b.version, b.floor, &mut b.order", "&mut b.lengths, &mut b.version, b.version, &mut b.order"),
    "wrapper: SRv6 and N of an OPEN swapped": (WRAPPER + "raw.rs", "    pub srv6: u8,\n    pub n: u8,\n", "    pub n: u8,\n    pub srv6: u8,\n"),
    "wrapper: positions of A and R swapped": (WRAPPER + "open.rs", "raw::Setup { a: at.a, r: at.r }", "raw::Setup { a: at.r, r: at.a }"),
    "wrapper: moved of the range's start alone": (WRAPPER + "board.rs", "*keys.start(), *keys.end(), v)", "*keys.start(), *keys.start(), v)"),
    "wrapper: moved says no for yes": (WRAPPER + "board.rs", "counts.segments == 1)", "counts.segments != 1)"),
    "wrapper: flags of the structure dropped": (WRAPPER + "route.rs", "structure: r.sflags,", "structure: r.sflags & 0,"),
    # ---- the reference, which must be found to differ from the proved code
    "reference: limit of the PCE": (REFERENCE + "session.rs", "let Open { n, limit, v, m, .. } = pcc;", "let Open { n, limit, v, m, .. } = pce;"),
    "reference: MPLS's limit of the PCE": (REFERENCE + "session.rs", "pcc.mpls.filter(|_| pce.mpls.is_some())", "pce.mpls.filter(|_| pcc.mpls.is_some())"),
    "reference: label 3 taken": (REFERENCE + "mpls.rs", "&& label != LABEL_ENTROPY {", "&& label != LABEL_ENTROPY && label != 3 {"),
    "reference: label 7 refused": (REFERENCE + "mpls.rs", "LABEL_ENTROPY: u32 = 7;", "LABEL_ENTROPY: u32 = 16;"),
    "reference: label 15 taken": (REFERENCE + "mpls.rs", "LABEL_SPECIAL_MOST: u32 = 15;", "LABEL_SPECIAL_MOST: u32 = 14;"),
    "reference: label 16 refused": (REFERENCE + "mpls.rs", "LABEL_SPECIAL_MOST: u32 = 15;", "LABEL_SPECIAL_MOST: u32 = 16;"),
    "reference: 29 of an index": (REFERENCE + "mpls.rs", "        if labelled {\n            return bad_entry", "        if !no_sid {\n            return bad_entry"),
    "reference: TTL looked at without C": (REFERENCE + "mpls.rs", "if complete && ttl == 0 {", "if ttl == 0 {"),
    "reference: C without M taken": (REFERENCE + "mpls.rs", "(labelled || complete) || complete && !labelled {", "(labelled || complete) {"),
    "reference: S with M taken": (REFERENCE + "mpls.rs", "no_sid && (labelled || complete) ||", "no_sid && complete ||"),
    "reference: NT 5 with 8 octets": (REFERENCE + "mpls.rs", "        5 => Some(16),", "        5 => Some(8),"),
    "reference: 29 names its place": (REFERENCE + "mpls.rs", ".map(|number| (number, false));", ".map(|number| (number, true));"),
    "reference: V one bit too high": (REFERENCE + "mpls.rs", "FLAG_V: u8 = 16;", "FLAG_V: u8 = 32;"),
    "reference: V counted as stray": (REFERENCE + "mpls.rs", "& 0x0fe0,", "& 0x0ff0,"),
    "reference: type 40 in a route of MPLS": (REFERENCE + "mpls.rs", "pub const KIND: u8 = 36;", "pub const KIND: u8 = 40;"),
    "reference: behaviour of a label taken": (REFERENCE + "mpls.rs", "if segment.behaviour != 0\n            || segment.structured", "if segment.structured"),
    "reference: M of SRv6 taken": (REFERENCE + "srv6.rs", "            || segment.labelled\n", ""),
    "reference: 26 tested after 27": (REFERENCE + "open.rs", "[(mpls, Form::Mpls), (srv6, Form::Srv6)]", "[(srv6, Form::Srv6), (mpls, Form::Mpls)]"),
    "reference: a depth of 0 taken": (REFERENCE + "open.rs", "if !free && depth == 0 {", "if !free && depth == 0 && flags > 3 {"),
    "reference: 26 of 5 octets": (REFERENCE + "open.rs", "value.len() != 4 =>", "value.len() != 4 && value.len() != 5 =>"),
    "reference: a TLV 26 beside TLV 34 counts": (REFERENCE + "open.rs", "let Some([found]) = first_of(&s[8..], [SETUP_TYPES]) else {", "let Some([found, beside]) = first_of(&s[8..], [SETUP_TYPES, MPLS_CAPABILITY]) else {",
        "    match mpls {\n        (true, Some(value)) if value.len() != 4", "    let mpls = (mpls.0, mpls.1.or(beside));\n    match mpls {\n        (true, Some(value)) if value.len() != 4"),
    "reference: a depth beside X": (REFERENCE + "open.rs", "limit: (!free).then_some(depth.into())", "limit: (depth != 0).then_some(depth.into())"),
    "reference: an MPLS body of 8 octets improper": (REFERENCE + "board.rs", "MPLS_BODY_LEAST: u16 = 8;", "MPLS_BODY_LEAST: u16 = 12;"),
    "reference: a removal with a form proper": (REFERENCE + "board.rs", "if version <= self.floor || form != 0 {", "if version <= self.floor {"),
    "reference: a removal keeps its form": (REFERENCE + "board.rs", "        self.forms[place] = 0;\n", ""),
    "reference: the form of another key": (REFERENCE + "board.rs", "Ok((self.forms[place], &store", "Ok((self.forms[place ^ 1], &store"),
    "reference: bit lengths up to 129": (REFERENCE + "srv6.rs", "MOST_BITS: u32 = 128;", "MOST_BITS: u32 = 129;"),
    "reference: one segment more than the limit": (REFERENCE + "route.rs", "if count == limit {", "if count == limit.wrapping_add(1) {"),
    "reference: V of an RRO": (REFERENCE + "srv6.rs", "verify: ero && flags", "verify: flags"),
    "reference: a step needs a SID": (REFERENCE + "route.rs", "L::broken(&rest[..length], false)", "L::broken(&rest[..length], true)"),
    "reference: objects up to 65,536 octets": (REFERENCE + "writer.rs", "MOST_OCTETS: usize = 65_532;", "MOST_OCTETS: usize = 65_536;"),
    "reference: removal at c kept": (REFERENCE + "board.rs", "self.versions[i] <= c", "self.versions[i] < c"),
    "reference: change at w handed out again": (REFERENCE + "board.rs", "version > w &&", "version >= w &&"),
    "reference: moved at its own version": (REFERENCE + "board.rs", "self.versions[i] > v", "self.versions[i] >= v"),
    "reference: the structure's reserved octets not stray": (REFERENCE + "srv6.rs", "strays.reserved |= last[0] != 0 ||", "strays.reserved |="),
    "reference: too old at the floor": (REFERENCE + "board.rs", "if self.floor > s.max(w) {", "if self.floor >= s.max(w) {"),
}

ENV = dict(os.environ, STRUNDEVI_LIB=ARCHIVE, CARGO_TARGET_DIR=os.path.join(COPY, "cargo"), CARGO_PROFILE_RELEASE_OPT_LEVEL="1", CARGO_INCREMENTAL="1")


def built(*words):
    return subprocess.run(words, cwd=COPY, env=ENV, stdout=subprocess.DEVNULL, stderr=subprocess.DEVNULL).returncode == 0


def limit():
    """A fault may make a test go on for ever, or write for ever."""
    resource.setrlimit(resource.RLIMIT_CPU, (120, 120))
    resource.setrlimit(resource.RLIMIT_FSIZE, (1 << 20, 1 << 20))


def passes(command, out):
    """Whether the test ends well, and writes what it should."""
    told = os.path.join(COPY, "told")
    with open(told, "wb") as file:
        done = subprocess.run(command.split(), cwd=COPY, env=ENV, stdout=file, stderr=subprocess.STDOUT, preexec_fn=limit)
    return done.returncode == 0 and (out is None or filecmp.cmp(told, os.path.join(COPY, out), shallow=False))


def cc(source, name):
    return built("cc", "-std=c99", "-pedantic", "-Wall", "-Wextra", "-Werror", "-O1", "-I", "include", source, os.path.join(ARCHIVE, "libstrundevi.a"), "-o", name)


def cargo(*words):
    return built("cargo", "build", "--quiet", "--release", "--offline", "--manifest-path", "rust/Cargo.toml", *words)


# What is built and run in turn. A fault in the header changes nothing of the wrapper's examples, and so on: only what a fault can change is.
def steps(header, wrapper):
    for source in ["tests/header", "tests/boundary", "examples/route", "examples/mpls", "examples/follow"] if header else []:
        name = os.path.basename(source)
        yield cc(source + ".c", name), "./" + name, source + ".out" if source.startswith("examples") else None
    for name in ["route", "mpls", "follow"] if wrapper else []:
        yield cargo("--package", "strundevi", "--example", name), "cargo/release/examples/" + name, f"rust/strundevi/examples/{name}.out"
    yield cargo("--package", "differ"), "cargo/release/differ 1 60000 40000", None


def verdict(header, wrapper):
    for compiled, command, out in steps(header, wrapper):
        if not compiled:
            return "does not compile"
        if not passes(command, out):
            return "found"
    return "let pass"


def copy():
    for name in ["include", "tests", "examples", "rust", "bench"]:
        shutil.copytree(os.path.join(ROOT, name), os.path.join(COPY, name), ignore=shutil.ignore_patterns("target"), dirs_exist_ok=True, copy_function=shutil.copyfile)


def write(path, text):
    with open(os.path.join(COPY, path), "w") as file:
        file.write(text)


def main(words):
    copy()
    if verdict(True, True) != "let pass":
        sys.exit("planted: the tests do not pass without a fault")
    found, other = 0, []
    chosen = {name: fault for name, fault in FAULTS.items() if not words or any(word in name for word in words)}
    for name, (path, *texts) in chosen.items():
        whole = open(os.path.join(COPY, path)).read()
        wrong = whole
        for old, new in zip(texts[::2], texts[1::2]):
            if wrong.count(old) != 1:
                sys.exit(f"planted: {name}: {old!r} stands {wrong.count(old)} times in {path}")
            wrong = wrong.replace(old, new)
        write(path, wrong)
        told = verdict(path == HEADER, path.startswith(WRAPPER))
        write(path, whole)
        print(f"{name}: {told}", flush=True)
        if told == "found":
            found += 1
        else:
            other.append(name)
    print(f"planted: {found} of {len(chosen)} faults found" + "".join(f"\n  not found: {name}" for name in other))
    sys.exit(1 if other else 0)


main(sys.argv[1:])
