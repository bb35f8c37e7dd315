#!/usr/bin/env python3
# Writes what the trial programs are run on: crates/NAME/stdin for the console and each trial crate, console lines
# (document console.md), from document 01's examples and the points that are easy to get wrong.
# What they must answer, crates/NAME/stdout, comes from the reference in rust/, not from here: tools/trials.sh.
import random
import os

O = bytes.fromhex("01100020201E7807002200120000000103000000001B0006000000002C040000")
E = bytes.fromhex("0710001C2818000200000001" "20010DB8000000010000000000000001")
SID = E[12:28]
ALL64 = 2**64 - 1


def hexes(b):
    return b.hex().upper() or "-"


def put16(b, at, n):
    return b[:at] + bytes([n // 256 % 256, n % 256]) + b[at + 2:]


def sized(b):
    return put16(b, 2, len(b))


# An OPEN of these TLVs, and a TLV or sub-TLV: with its padding, unless `pad` says how much of it.
def tlv(kind, value, pad=None):
    need = -len(value) % 4
    return bytes([kind // 256, kind % 256, len(value) // 256, len(value) % 256]) + value + bytes(need if pad is None else pad)


def opened(*tlvs):
    return sized(bytes([1, 0x10, 0, 0, 0x20, 30, 120, 7]) + b"".join(tlvs))


def setup(types, subs, listpad=None):
    need = -len(types) % 4
    pad = bytes(need) if listpad is None else listpad
    return tlv(34, bytes([0, 0, 0, len(types)]) + bytes(types) + pad + subs)


def srv6(flags, pairs, pad=None):
    return tlv(27, bytes([0, 0, 0, flags]) + bytes(pairs), pad)


# With all 16 flags.
def flagged(flags, pairs, types=(3,)):
    return opened(setup(list(types), tlv(27, bytes([0, 0, flags // 256, flags % 256]) + bytes(pairs))))


# A subobject of an ERO or RRO, from its fields; the length is the true one unless given.
def sub(nt=0, s=0, f=None, t=0, v=0, l=0, behaviour=1, kind=40, length=None, bits=(40, 24, 16, 48), sid=SID, nai=None, reserved=0):
    f = (1 if nt == 0 else 0) if f is None else f
    long = {2: 16, 4: 32, 6: 40}.get(nt, 0)
    body = bytes([0, reserved, behaviour // 256, behaviour % 256])
    if s == 0:
        body += sid
    body += (bytes(range(1, long + 1)) if nai is None else nai)
    if t == 1 and s == 0:
        body += bytes(bits) + bytes(4)
    head = bytes([l * 128 + kind, (4 + len(body) if length is None else length) % 256, nt * 16, v * 8 + t * 4 + f * 2 + s])
    return head + body


# A label stack entry; label 16001 with nothing else is LABEL.
def entry(label, tc=0, bottom=0, ttl=0):
    return (label << 12 | tc << 9 | bottom << 8 | ttl).to_bytes(4, "big")


LABEL = entry(16001)
MPLS_NAI = {0: 0, 1: 4, 2: 16, 3: 8, 4: 32, 5: 16, 6: 40}


# Sub-TLV 26.
def mpls(flags, depth):
    return tlv(26, bytes([0, 0, flags, depth]))


# An MPLS subobject, as `sub` is; `stray` are its unassigned flags.
def msub(nt=0, m=1, c=0, s=0, f=None, v=0, l=0, sid=LABEL, nai=None, kind=36, length=None, stray=0):
    f = (1 if nt == 0 else 0) if f is None else f
    body = (b"" if s else sid) + (bytes(range(1, MPLS_NAI.get(nt, 0) + 1)) if nai is None else nai)
    flags = nt << 12 | stray | v * 16 + f * 8 + s * 4 + c * 2 + m
    return bytes([l * 128 + kind, (4 + len(body) if length is None else length) % 256, flags // 256, flags % 256]) + body


def route(subs, kind=7, length=None):
    b = bytes([kind, 0x10, 0, 0]) + b"".join(subs)
    return put16(b, 2, len(b) if length is None else length)


def wire(b, k):
    return sized(b[:k]) if k >= 4 else b[:k]


# -- the OPEN -----------------------------------------------------------------------------------------------------


def bare_open():
    return opened(setup([0], b""))


def trial_open():
    out = ["# P1, P2, P3"]

    def pcc(b):
        out.append("pcc " + hexes(b))

    pcc(O)
    pcc(O[:16] + b"\0" + O[17:])
    pcc(O[:28] + b"\0" + O[29:])
    out.append("# every prefix of O, as it is and with its length put right")
    for k in range(len(O) + 1):
        pcc(O[:k])
        pcc(wire(O, k))
    out.append("# every length of O, of its TLV 34, of its sub-TLV 27, and every count of its list")
    for n in list(range(0, 41)) + [65535]:
        pcc(put16(O, 2, n))
    for n in list(range(0, 26)) + [65535]:
        pcc(put16(O, 10, n))
    for n in list(range(0, 14)) + [65535]:
        pcc(put16(O, 22, n))
    for n in list(range(0, 16)) + [255]:
        pcc(O[:15] + bytes([n]) + O[16:])
    out.append("# each octet of O made 0, made FF, and with its lowest bit turned")
    for i in range(len(O)):
        for x in (0, 255, O[i] ^ 1):
            pcc(O[:i] + bytes([x]) + O[i + 1:])
    two = srv6(2, [41, 9])
    rows = [
        ("only the first TLV 34 counts", [opened(setup([0], b""), setup([3], two)), opened(setup([3], two), setup([0], b"")),
            opened(setup([3], two), tlv(34, b"\0\0\0\x09")), opened(setup([3], b""), setup([3], two))]),
        ("only the first sub-TLV 27 counts", [opened(setup([3], two + srv6(0, [42, 2]))), opened(setup([3], two + srv6(0, [7, 2]))),
            opened(setup([3], two + tlv(27, b"\0\0\0"))), opened(setup([3], srv6(0, [7, 2]) + two))]),
        ("1 to the last TLV goes before 2 and 3", [opened(setup([3], b""), tlv(9, b"abcd")[:7] + b"d"), opened(setup([3], b""), b"\0\x09\0\x08"),
            opened(setup([3], srv6(0, [7, 2])), b"\0\x09\0\x08"), opened(setup([3], b"")), opened(setup([3], srv6(0, [7, 2])))]),
        ("the inside of the first TLV 34 is whole even without type 3", [opened(setup([0], b"\0\x1b\0\x09abcd")), opened(setup([], b"\0")),
            opened(setup([], b"")), opened(setup([0], b"\0\x1b")), opened(setup([1], tlv(27, b"\0\0\0")))]),
        ("the list's padding lies inside", [opened(setup([3], b"", b"")), opened(setup([0], b"", b"")), opened(setup([0], b"", b"\0\0")), opened(setup([0, 1, 2, 4], b""))]),
        ("only the last sub-TLV's padding may be missing or cut", [opened(setup([3], srv6(0, [41, 9], 0))), opened(setup([3], srv6(0, [41, 9], 1))),
            opened(setup([3], tlv(1, b"abcde", 0) + two)), opened(setup([3], tlv(1, b"abcde") + two)), opened(setup([3], two + tlv(1, b"a", 0))), opened(setup([3], two + tlv(1, b"a", 2)))]),
        ("1 to 3 octets left over are no sub-TLV", [opened(setup([3], two + bytes(n))) for n in range(0, 9)]),
        ("a 3 in the list's padding is not listed", [opened(setup([0], two, b"\3\3\3")), opened(setup([0, 3], two)), opened(setup([0, 1, 2, 4, 3], two)), opened(setup([0, 1, 2, 4], two))]),
        ("X and pairs", [opened(setup([3], srv6(0, []))), opened(setup([3], srv6(0, [41, 0]))), opened(setup([3], srv6(1, [41, 4]))), opened(setup([3], srv6(1, [7, 4]))),
            opened(setup([3], srv6(1, [7]))), opened(setup([3], srv6(0, [41]))), opened(setup([3], srv6(2, [41, 200, 42, 3, 44, 7, 45, 5]))), opened(setup([3], srv6(0, [41, 1, 43, 1]))),
            opened(setup([3], srv6(3, []))), opened(setup([3], srv6(0xFC, [45, 255]))), opened(setup([3], srv6(0xFE, [45, 255])))]
            + [opened(setup([3], srv6(0, [n, 8]))) for n in (0, 40, 41, 42, 43, 44, 45, 46, 255)]),
        ("the limit: 44 with v permits the larger of 1 and v", [opened(setup([3], srv6(0, [44, v]))) for v in (0, 1, 2, 3, 254, 255)]),
        ("41 with m permits m + 1", [opened(setup([3], srv6(0, [41, m]))) for m in (0, 1, 2, 3, 254, 255)]),
        ("42 and 45 set none, whatever their values and wherever they stand", [opened(setup([3], srv6(0, pairs))) for pairs in
            ([42, 0], [42, 1], [45, 0], [45, 1], [42, 1, 45, 1], [42, 1, 42, 0, 45, 255], [42, 1, 44, 7], [44, 7, 42, 1], [45, 0, 41, 6], [41, 6, 45, 0], [42, 1, 44, 7, 45, 2, 41, 9])]),
        ("the smaller of the two, whichever stands first", [opened(setup([3], srv6(0, pairs))) for v, m in
            ((4, 2), (4, 3), (4, 4), (2, 4), (1, 0), (0, 0), (0, 5), (5, 0), (255, 254), (255, 255), (254, 255)) for pairs in ([44, v, 41, m], [41, m, 44, v])]),
        ("of a repeated type the smallest value", [opened(setup([3], srv6(0, pairs))) for pairs in
            ([44, 5, 44, 3], [44, 3, 44, 5], [44, 7, 44, 3, 44, 5], [44, 0, 44, 9], [44, 9, 44, 0], [41, 5, 41, 3], [41, 3, 41, 5], [41, 255, 41, 0, 41, 9],
             [44, 9, 41, 9, 44, 6, 41, 7], [44, 9, 41, 9, 44, 8, 41, 6], [42, 1, 44, 9, 42, 0, 44, 8])]),
        ("with X set none, whatever the pairs", [opened(setup([3], srv6(1, pairs))) for pairs in ([44, 0], [41, 0, 44, 1], [42, 1], [44, 4, 41, 4, 7, 7])]),
        ("sub-TLV 27 of fewer than 4 octets, with and without type 3", [opened(setup(types, tlv(27, bytes(n)))) for types in ([3], [0]) for n in range(0, 8)]),
        ("TLVs that nobody knows are passed over", [opened(tlv(1, b"abcde"), setup([3], two)), opened(tlv(65535, b""), tlv(0, b"x"), setup([3], two), tlv(99, b"zz")), opened(tlv(1, b"abcde", 2), setup([3], two)),
            opened(setup([3], tlv(26, b"abcd") + two)), opened(), opened(tlv(27, b"abcd"))]),
        ("class, type and version", [b"\2" + O[1:], O[:1] + b"\x1F" + O[2:], O[:1] + b"\x20" + O[2:], O[:4] + b"\x3F" + O[5:], O[:4] + b"\x40" + O[5:], O[:4] + b"\0" + O[5:]]),
        ("an OPEN with no TLV, and octets behind its length", [opened(), O + b"\0\0\0\0", O + b"\0", O[:8]]),
        ("a count that is larger than what is there", [opened(tlv(34, bytes([0, 0, 0, n]) + b"\3\0\0\0")) for n in (0, 1, 2, 3, 4, 5, 8, 255)]),
    ]
    for name, opens in rows:
        out.append("# " + name)
        for b in opens:
            pcc(b)
    out.append("# A and R: each of the 16 flags alone, all, and none, at these positions; at the start 0 and 1")
    for at in (None, (0, 1), (1, 0), (13, 0), (0, 13), (12, 13), (7, 8), (6, 5)):
        if at is not None:
            out.append("positions %d %d" % at)
        for flags in [0, 0xFFFF, 0xFFFE, 0xFFFD, 0xFFFC] + [1 << k for k in range(16)]:
            pcc(flagged(flags, [44, 3, 41, 7]))
    pcc(flagged(0xFFFC, [44, 3], [0]))
    pcc(flagged(0xFFFC, [7, 3]))
    out.append("# positions of no use: 28 before everything else; they are kept all the same")
    for at in ((14, 0), (0, 14), (15, 0), (16, 1), (0, 0), (13, 13), (2**32, 0), (0, ALL64), (ALL64, ALL64), (14, 14)):
        out.append("positions %d %d" % at)
        for b in (O, b"", O[:28] + b"\0" + O[29:], opened(setup([3], b"")), bare_open()):
            pcc(b)
        out.append("pce " + hexes(O))
        out.append("ero 3 " + hexes(E))
    out += ["positions 13 12", "pcc " + hexes(flagged(0x000C, [44, 3])), "positions 0 1"]
    two = srv6(2, [41, 9])
    both = opened(setup([1, 3], mpls(2, 5) + srv6(0, [44, 4])))
    out.append("# an OPEN of both forms: every prefix with its length put right, each octet of it made 0, made FF and with its lowest bit turned, each of its lengths")
    for k in range(0, len(both) + 1, 4):
        pcc(wire(both, k))
    for i in range(len(both)):
        for x in (0, 255, both[i] ^ 1):
            pcc(both[:i] + bytes([x]) + both[i + 1:])
    for at, most in ((2, 49), (10, 37), (22, 14), (30, 12)):
        for n in list(range(0, most)) + [65535]:
            pcc(put16(both, at, n))
    odd, wrong, far = tlv(27, b"\0\0\0\0\x2c"), srv6(0, [7, 2]), tlv(9, b"abcde")
    rows = [
        ("sub-TLV 26: every length, with type 1, without, beside type 3", [opened(setup(types, tlv(26, bytes([0, 0, 2, 9, 1, 1, 1, 1, 1])[:n]) + more)) for types, more in (([1], b""), ([0], b""), ([3], two), ([1, 3], two)) for n in range(0, 10)]),
        ("N, X and the depth", [opened(setup([1], mpls(flags, depth))) for flags in (0, 1, 2, 3, 4, 0xFC, 0xFD, 0xFE, 0xFF) for depth in (0, 1, 2, 127, 128, 255)]),
        ("its reserved octets are ignored", [opened(setup([1], tlv(26, bytes([x, y, 2, 4])))) for x, y in ((1, 0), (0, 1), (255, 255))]),
        ("type 1 without a sub-TLV 26; 26 without type 1", [opened(setup([1], b"")), opened(setup([1], two)), opened(setup([3, 1], two)), opened(setup([1, 3], b"")), opened(setup([1, 3], mpls(2, 4))), opened(setup([0], mpls(0, 0))),
            opened(setup([], mpls(0, 0))), opened(setup([3], mpls(0, 0) + two)), opened(setup([3], two + tlv(26, b""))), opened(setup([2, 4], tlv(26, b"abc"))), opened(setup([0], mpls(2, 4), b"\1\1\1"))]),
        ("the first sub-TLV 26 counts, and of several TLVs 34 the first", [opened(setup([1], mpls(2, 4) + mpls(0, 0))), opened(setup([1], mpls(0, 0) + mpls(2, 4))), opened(setup([1], mpls(2, 4) + tlv(26, b""))), opened(setup([1], tlv(26, b"") + mpls(2, 4))),
            opened(setup([1], far + mpls(2, 4) + far)), opened(setup([1], mpls(2, 4)), setup([1], mpls(0, 0))), opened(setup([0], b""), setup([1], mpls(2, 4))), opened(setup([1], b""), setup([1], mpls(2, 4))), opened(setup([1], mpls(2, 4)), setup([3], two)), opened(tlv(26, bytes(4)))]),
        ("either may stand first", [opened(setup([1, 3], two + mpls(0, 4))), opened(setup([1, 3], mpls(0, 4) + two)), opened(setup([3, 1], two + far + mpls(3, 4))), opened(setup([3, 0, 1, 7, 9], mpls(3, 4) + two))]),
        ("1 of 26, 1 of 27, 2 of 26, 2 of 27, 3 of 26, 3 of 27, whichever stands first", [opened(setup([1, 3], x)) for a in (b"", mpls(0, 0), mpls(2, 4), tlv(26, b"abc"), tlv(26, b"abcde")) for b in (b"", two, odd, wrong, tlv(27, b"ab"))
            for x in ((a + b, b + a) if a and b else (a + b,))]),
        ("1 of the frame goes before them, and names no form", [opened(setup([1, 3], tlv(26, b"abc") + b"\0")), opened(setup([1], b""), b"\0\x09\0\x08"), opened(setup([1], mpls(0, 0)), b"\0\x09\0\x08"), opened(setup([1], mpls(0, 0) + bytes(3))), opened(setup([1], tlv(26, b"abcd", 0)[:6])), opened(setup([1], b"\0\x1a\0\x05abcd"))]),
        ("the last padding", [opened(setup([1], tlv(26, bytes([0, 0, 0, 9, 9]), 0))), opened(setup([1, 3], mpls(0, 9) + srv6(0, [41, 9], 0))), opened(setup([1, 3], srv6(0, [41, 9], 0) + mpls(0, 9))), opened(setup([1, 3], srv6(0, [41, 9]) + mpls(0, 9)))]),
    ]
    for name, opens in rows:
        out.append("# " + name)
        for b in opens:
            pcc(b)
    out.append("# positions of no use go before 26's numbers, and name no form")
    for b in (both, opened(setup([1], b"")), opened(setup([1], mpls(0, 0)))):
        out += ["positions 14 0", "pcc " + hexes(b), "positions 0 1", "pcc " + hexes(b)]
    out.append("# a session of each form: agreed if both carry it; N and the depth are the PCC's")
    only, open_end = opened(setup([1], mpls(0, 1))), opened(setup([1, 3], mpls(3, 0) + srv6(0, [44, 1])))
    labels = [route([msub()]), route([msub(nt=1, m=0, s=1)]), route([msub(), msub()]), E, route([sub(), sub()])]
    for a in (both, only, open_end, O, opened(setup([1], b"")), b""):
        for b in (both, only, open_end, O, opened(setup([0], b""))):
            pcc(a)
            out.append("pce " + hexes(b))
            for r in labels:
                out += ["ero 1 " + hexes(r), "ero 3 " + hexes(r)]
    out.append("# a session: SRv6 is agreed if both carry it; N and the limit are the PCC's")
    bare = opened(setup([0], b""))
    able = opened(setup([3], srv6(2, [44, 1])))
    nosid = route([sub(nt=2, s=1)])
    pair = route([sub(), sub()])
    for a in (O, bare, O[:9], able):
        for b in (O, bare, O[:9], able):
            pcc(a)
            out.append("pce " + hexes(b))
            for r in (E, nosid, pair):
                out.append("ero 3 " + hexes(r))
    return out


# -- the route ----------------------------------------------------------------------------------------------------


def agree(out, flags=0, pairs=(44, 4)):
    out.append("pcc " + hexes(opened(setup([3], srv6(flags, list(pairs))))))
    out.append("pce " + hexes(O))


def trial_route():
    out = ["# no session yet: 13, and what goes before it"]

    def ero(b, pst=3):
        out.append("ero %d %s" % (pst, hexes(b)))

    def rro(b, pst=3):
        out.append("rro %d %s" % (pst, hexes(b)))

    ero(E)
    ero(E[:27])
    ero(route([sub(nt=3)]))
    out += ["pcc " + hexes(O), "pce " + hexes(O), "# P4 to P10"]
    ero(E)
    ero(E, 1)
    for x in (3, 6):
        ero(E[:7] + bytes([x]) + E[8:])
    for bits in ((40, 24, 16, 48), (40, 24, 16, 49), (64, 64, 64, 64), (128, 0, 0, 0), (0, 0, 0, 129), (255, 255, 255, 255)):
        ero(route([sub(t=1, bits=bits)]))
    out.append("# setup types")
    for pst in (0, 1, 2, 4, 259, 2**32 + 3, ALL64):
        ero(E, pst)
    out.append("# four segments pass limit 4; a fifth is 12 at 100; a broken sixth goes before")
    for n in range(0, 8):
        ero(route([sub()] * n))
    ero(route([sub()] * 5 + [sub(nt=3)]))
    ero(route([sub()] * 5 + [sub(s=1)]))
    ero(route([sub()] * 3 + [sub(t=1, bits=(64, 64, 64, 64))] + [sub()] * 3))
    out.append("# every prefix of E, as it is and with its length put right")
    for k in range(len(E) + 1):
        ero(E[:k])
        ero(wire(E, k))
    rich = route([sub(nt=6, t=1, v=1, l=1), sub(nt=2), sub(nt=4)])
    less = route([sub(nt=2, t=1), sub()])
    out.append("# every length of E and of its subobject; the same of a route of two")
    for n in list(range(0, 41)) + [65535]:
        ero(put16(E, 2, n))
    for n in range(0, 41):
        ero(E[:5] + bytes([n]) + E[6:])
    for at in (5, 53):
        for n in range(0, 84):
            ero(less[:at] + bytes([n]) + less[at + 1:])
    for k in range(0, len(less) + 1):
        ero(wire(less, k))
    out.append("# every damage of one octet of E")
    for i in range(len(E)):
        for x in range(256):
            if x != E[i]:
                ero(E[:i] + bytes([x]) + E[i + 1:])
    out.append("# kinds mixed: the first that differs from the first, whichever is SRv6; 14 where none is")
    other = bytes([1, 8, 10, 0, 0, 1, 32, 0])
    third = bytes([32, 4, 0, 0])
    for subs in ([other], [other, other], [other, third], [other, sub()], [sub(), other], [sub(), sub(), other, third], [other, third, sub()], [other, other, sub(), third], [third, sub(), sub()],
                 [sub(l=1), sub(), other], [sub(kind=104)], [bytes([40, 4, 0, 0])], [bytes([40, 4, 0, 3])], [bytes([40, 4, 16, 0])], [bytes([40, 4, 0, 2])], [sub(), bytes([40, 4, 0, 3])]):
        ero(route(subs))
        rro(route(subs, 8))
    out.append("# class, type, and the low 4 bits of the type's octet")
    for b in (b"\7\x1F" + E[2:], b"\7\x20" + E[2:], b"\x08\x10" + E[2:], b"\0\x10" + E[2:]):
        ero(b)
        rro(b)
    out.append("# an RRO: all 8 bits are the type, V is ignored, 10 and 12 are not applied")
    R = b"\x08" + E[1:]
    rro(R)
    ero(R)
    rro(E)
    rro(route([sub(l=1)], 8))
    rro(route([sub(v=1)], 8))
    rro(route([sub(nt=2, s=1)], 8))
    rro(route([sub()] * 6, 8))
    rro(route([sub(l=1), sub()], 8))
    rro(R, 1)
    for i in range(len(R)):
        for bit in range(8):
            rro(R[:i] + bytes([R[i] ^ (1 << bit)]) + R[i + 1:])
    for k in range(len(R) + 1):
        rro(R[:k])
    out.append("# every NT with every flag, at the length of its parts and 4 octets longer: N 0, N 1, and an RRO")
    for side, flags in (("ero", 0), ("ero", 2), ("rro", 0)):
        agree(out, flags)
        for nt in (0, 1, 2, 3, 4, 5, 6, 7, 15):
            for bits in range(16):
                v, t, f, s = bits >> 3, bits >> 2 & 1, bits >> 1 & 1, bits & 1
                a = sub(nt=nt, s=s, f=f, t=t, v=v, nai=None if nt in (2, 4, 6) else b"")
                for b in (a, a[:1] + bytes([len(a) + 4]) + a[2:] + bytes(4)):
                    out.append("%s 3 %s" % (side, hexes(route([b], 7 if side == "ero" else 8))))
    out.append("# T is ignored where S is 1; padding, reserved octets and unassigned bits are ignored")
    agree(out, 2)
    for b in (sub(nt=2, s=1, t=1), sub(nt=2, s=1, t=1) + bytes(8), sub(reserved=255), bytes([40, 24, 0x0F, 0xF2]) + E[8:]):
        ero(route([b]))
        out.append("ero-segment 3 0 " + hexes(route([b])))
    out.append("# limits: none, 1, 2, 255, 256; End Pop 1 sets none")
    for pairs in ((), (42, 1), (42, 0, 45, 0), (44, 0), (41, 0), (44, 1), (41, 1), (44, 2), (42, 1, 44, 2), (44, 255), (41, 255)):
        agree(out, 0, pairs)
        for n in (1, 2, 3) + ((254, 255, 256, 257) if 255 in pairs else ()):
            ero(route([sub()] * n))
        rro(route([sub()] * 3, 8))
    out.append("# what is set and ought to be 0: each bit of octets 2 to 5 and of the structure's last four, alone; V, T with S 1 and the header's bits are none")
    agree(out, 2, ())
    for b in (sub(), sub(2), sub(4, t=1), sub(t=1), sub(2, s=1), sub(6, s=1, t=1)):
        places = [2, 3, 4, 5] + (list(range(len(b) - 8, len(b))) if b[3] % 8 // 4 == 1 and b[3] % 2 == 0 else [])
        for at in places:
            for bit in range(8) if at < 4 else (0, 7):
                c = b[:at] + bytes([b[at] ^ (1 << bit)]) + b[at + 1:]
                for side, kind in (("ero", 7), ("rro", 8)):
                    out.append("%s 3 %s" % (side, hexes(route([c], kind))))
                    out.append("%s-segment 3 0 %s" % (side, hexes(route([c], kind))))
    odd = sub()[:2] + b"\x0f\xf2\xff\xff" + sub()[6:]
    for n in range(1, 5):
        out.append("ero 3 " + hexes(route([odd] * n + [sub()] * (4 - n))))
        out.append("ero 3 " + hexes(route([sub()] * (4 - n) + [odd] * n)))
    out.append("ero 3 " + hexes(route([odd] * 5)))
    out.append("ero 3 " + hexes(route([odd, sub(length=20)])))
    out.append("ero 3 " + hexes(E[:1] + b"\x1f" + E[2:]))
    out.append("ero-segment 3 1 " + hexes(route([odd])))
    out.append("# what was reported stays on the board, whatever the session permits later: a limit of 1, then SRv6 not agreed")
    agree(out, 0, ())
    two = hexes(route([sub()] * 2))
    out += ["report 7 3 " + two, "body 7"]
    agree(out, 0, (44, 1))
    out += ["body 7", "next 0 0", "report 7 3 " + two, "body 7", "report 8 3 " + two, "report 8 3 " + hexes(E), "body 7", "pcc -", "report 7 3 " + hexes(E), "body 7", "next 0 0", "next 0 1", "board"]
    out.append("# one segment more where both ends set R, or both set A and the first segment is an adjacency of the head end")
    here, there = bytes([5] * 16), bytes([6] * 16)
    adjacent = [sub(nt, s, t=t, nai=here + there + (bytes(8) if nt == 6 else b"")) for nt in (4, 6) for s in (0, 1) for t in (0, 1)]
    others = [sub(), sub(2, nai=here), sub(2, 1, nai=here), sub(4, nai=there + here), sub(6, nai=there + here + here[:8]), sub(4, sid=here, nai=there + there), sub(4, 1, nai=there + here)]
    lists = [b"", here, there, there + here, here + there, there * 3 + here + there * 2, here[:15] + b"\4", b"\4" + here[1:], here[1:] + here[:1] + bytes(16)]
    for pcc in (0, 0x8002, 0x4002, 0xC002, 0x0002):
        for pce in (0, 0x8000, 0x4000, 0xC000):
            out += ["pcc " + hexes(flagged(pcc, [44, 2])), "pce " + hexes(flagged(pce, [44, 9]))]
            for addresses in (b"", there + here):
                out.append("addresses " + hexes(addresses))
                for first in (adjacent[0], sub(2, nai=here)):
                    for n in (2, 3, 4):
                        out.append("ero 3 " + hexes(route([first] + [sub()] * (n - 1))))
    out += ["pcc " + hexes(flagged(0x8002, [44, 2])), "pce " + hexes(flagged(0x8000, []))]
    for addresses in lists:
        out.append("addresses " + hexes(addresses))
        for first in adjacent + others:
            for n in (2, 3, 4):
                out.append("ero 3 " + hexes(route([first] + [sub()] * (n - 1))))
    out.append("addresses " + hexes(there + here))
    for first in adjacent[:2] + others[:2]:
        three = route([first, sub(), sub()])
        out += ["ero-segment 3 2 " + hexes(three), "report 71 3 " + hexes(three), "rro 3 " + hexes(route([first, sub(), sub()], 8)), "ero 1 " + hexes(three)]
    out.append("# the values: H.Encaps' v permits v + 1, 1 where it is 0; Segments Left's m + 1 as before; with neither no limit")
    for v, m in ((0, None), (1, None), (2, None), (0, 0), (0, 5), (5, 0), (1, 1), (1, 2), (2, 1), (2, 2), (3, 2), (None, 0), (None, 1), (None, 2), (None, None), (255, None), (255, 254), (255, 255)):
        pairs = ([] if v is None else [44, v]) + ([] if m is None else [41, m])
        for flags in (0x0002, 0x8002, 0x4002):
            out += ["pcc " + hexes(flagged(flags, pairs)), "pce " + hexes(flagged(flags, []))]
            for n in (1, 2, 3, 4, 5) if (v or 0) < 255 else (254, 255, 256, 257):
                out.append("ero 3 " + hexes(route([adjacent[1]] + [sub()] * (n - 1))))
    out.append("# X set: no v, no m, no limit; and a type 3 that only one end lists")
    out += ["pcc " + hexes(flagged(0xC003, [44, 1])), "pce " + hexes(flagged(0xC000, [])), "ero 3 " + hexes(route([sub()] * 9))]
    out += ["pcc " + hexes(flagged(0xC002, [44, 1])), "pce " + hexes(flagged(0xC000, [], [0])), "ero 3 " + hexes(route([sub()] * 2)), "ero 3 " + hexes(E)]
    out.append("# a list that is no multiple of 16 octets: 28 before everything else, in an RRO too; of other calls it is none's")
    out += ["pcc " + hexes(O), "pce " + hexes(O)]
    for n in (1, 8, 15, 17, 31, 33):
        out.append("addresses " + hexes(bytes(n)))
        out += ["ero 3 " + hexes(E), "ero 3 -", "ero 1 " + hexes(E), "rro 3 -", "rro 3 " + hexes(b"\x08" + E[1:]), "ero-segment 3 0 " + hexes(E), "ero-segment 3 9 -", "rro-segment 3 0 -",
                "report 7 3 " + hexes(E), "report 0 3 -", "body 7", "board", "mark", "next 0 0", "pcc " + hexes(O)]
    out += ["addresses " + hexes(bytes(16)), "ero 3 " + hexes(E), "addresses -", "ero 3 " + hexes(E)]
    out.append("# a route that is cut where its first segment's address would lie")
    out += ["pcc " + hexes(flagged(0x8002, [44, 1])), "pce " + hexes(flagged(0x8000, [])), "addresses " + hexes(here + bytes(16))]
    for first in (adjacent[0], adjacent[2]):
        whole = route([first, sub()])
        out += ["ero 3 " + hexes(wire(whole, k)) for k in range(0, len(whole) + 1, 4)]
    out += ["addresses -"]
    out.append("# segments: each of a route, then 15")
    agree(out, 2, ())
    for i in (0, 1, 2, 3, 4, 2**32, ALL64):
        out.append("ero-segment 3 %d %s" % (i, hexes(rich)))
        out.append("rro-segment 3 %d %s" % (i, hexes(b"\x08" + b"".join([rich[1:4], b"\x28", rich[5:]]))))
    for nt in (0, 2, 4, 6):
        for s in (0, 1):
            for t in (0, 1):
                for l in (0, 1):
                    b = sub(nt=nt, s=s, t=t, l=l, v=1 - l, behaviour=258 * nt)
                    out.append("ero-segment 3 0 " + hexes(route([b])))
                    out.append("rro-segment 3 0 " + hexes(route([b], 8)))
    out += ["ero-segment 1 0 " + hexes(E), "ero-segment 3 9 " + hexes(E[:27]), "ero-segment 3 0 -", "rro-segment 3 0 " + hexes(E)]
    mpls_routes(out)
    return out


# An MPLS session, its N and X in the flags, and SRv6's beside it if `more`.
def agree_mpls(out, flags=2, depth=0, more=b""):
    types = [1, 3] if more else [1]
    out.append("pcc " + hexes(opened(setup(types, mpls(flags, depth) + more))))
    out.append("pce " + hexes(opened(setup([1, 3], mpls(1, 0) + srv6(1, [])))))


def mpls_routes(out):
    def ero(b, pst=1):
        out.append("ero %d %s" % (pst, hexes(b)))

    def rro(b, pst=1):
        out.append("rro %d %s" % (pst, hexes(b)))

    one = route([msub(nt=1)])
    out.append("# the MPLS form, not agreed: 13, and what goes before it")
    out += ["pcc " + hexes(O), "pce " + hexes(O)]
    for b in (one, one[:-1], E, route([msub(nt=9)]), route([]), route([msub(), sub()])):
        ero(b)
        ero(b, 3)
    out.append("# agreed, beside SRv6 and alone: the setup type names the form, SRv6's if it names none")
    for more in (b"", srv6(2, [])):
        agree_mpls(out, 3, 0, more)
        for b in (one, E, route([msub(), sub()]), route([sub(), msub()]), route([msub(l=1), msub()]), route([sub(), sub(), msub(), bytes([1, 4, 0, 0])]), route([bytes([1, 4, 0, 0]), msub()]), route([bytes([1, 4, 0, 0]), sub()]),
                  route([bytes([1, 4, 0, 0])]), route([bytes([36, 4, 0, 0])]), route([bytes([40, 4, 0, 0])]), route([msub(kind=100)]), route([])):
            for pst in (0, 1, 2, 3, 4, 257, 259, 2**32 + 1, ALL64):
                ero(b, pst)
            rro(b"\x08" + b[1:])
            rro(b"\x08" + b[1:], 3)
    out.append("# every prefix of a route of three, as it is and with its length put right; every length of it and of its subobjects")
    agree_mpls(out, 3)
    three = route([msub(nt=1), msub(), msub(nt=3, m=0)])
    for k in range(len(three) + 1):
        ero(three[:k])
        ero(wire(three, k))
    for n in list(range(0, 48)) + [65535]:
        ero(put16(three, 2, n))
    for at in (5, 17, 25):
        for n in list(range(0, 60)) + [255]:
            ero(three[:at] + bytes([n]) + three[at + 1:])
    out.append("# every damage of one octet of a route of one label; of an RRO, each bit")
    for i in range(len(one)):
        for x in range(256):
            if x != one[i]:
                ero(one[:i] + bytes([x]) + one[i + 1:])
    back = route([msub(nt=1)], 8)
    for i in range(len(back)):
        for bit in range(8):
            rro(back[:i] + bytes([back[i] ^ (1 << bit)]) + back[i + 1:])
    out.append("# every NT with every flag, at the length of its parts and 4 octets longer and shorter: N 0, N 1, and an RRO")
    for side, kind, flags in (("ero", 7, 1), ("ero", 7, 3), ("rro", 8, 1)):
        agree_mpls(out, flags)
        for nt in range(16):
            for bits in range(32):
                v, f, s, c, m = bits >> 4, bits >> 3 & 1, bits >> 2 & 1, bits >> 1 & 1, bits & 1
                a = msub(nt=nt, m=m, c=c, s=s, f=f, v=v, sid=entry(16001, 1, 0, 64))
                for b in (a, a[:1] + bytes([len(a) + 4]) + a[2:] + bytes(4), a[:1] + bytes([len(a) - 4]) + a[2:-4]) if v == 0 else (a,):
                    if len(b) >= 4:
                        out.append("%s 1 %s" % (side, hexes(route([b], kind))))
    out.append("# labels: of those to 15 only 7 is good; where M is 0 the SID is an index and may be anything")
    agree_mpls(out, 3)
    for label in list(range(0, 18)) + [255, 4095, 4096, 65536, 983040, 1048575]:
        for m, c in ((0, 0), (1, 0), (1, 1)):
            for ttl in (0, 1, 255):
                ero(route([msub(m=m, c=c, sid=entry(label, 0, 0, ttl))]))
        rro(route([msub(sid=entry(label))], 8))
        rro(route([msub(c=1, sid=entry(label))], 8))
    out.append("# the format: TTL 0 where M and C are 1; TC and S may be anything, and the TTL too where C is 0")
    for tc in range(8):
        for bottom in (0, 1):
            for ttl in (0, 1, 64, 128, 255):
                for c in (0, 1):
                    ero(route([msub(c=c, sid=entry(16001, tc, bottom, ttl))]))
    out.append("# the order: the first broken rule in the route; 29 before 30 in a subobject, both before what a later one breaks and before 12; their place is 0")
    good, bad, shape, thin = msub(), msub(sid=entry(3)), msub(c=1), msub(nt=9)
    for subs in ([good, bad], [bad, good], [shape, bad], [bad, shape], [msub(c=1, sid=entry(3))], [good, thin, bad], [good, bad, thin], [good, good, shape, thin], [msub(c=1, sid=entry(3), nt=1, nai=b"")], [msub(nt=9, c=1, sid=entry(3))],
                 [msub(s=1, m=1)], [msub(nt=1, s=1, m=1)], [msub(nt=1, s=1, m=0, c=1)], [msub(m=0, c=1)], [msub(m=0, c=1, sid=entry(3))], [msub(s=1, f=1, m=1, c=1)], [msub(nt=2, f=1)], [msub(f=0)]):
        ero(route(subs))
        rro(route(subs, 8))
        agree_mpls(out, 0, 1)
        ero(route(subs))
        ero(route([good] * 2 + subs))
        agree_mpls(out, 3)
    out.append("# the depth: 1, 2, 3, 255; none with X; SRv6's limit is not MPLS's, nor A and R")
    for flags, depth, more in ((0, 1, b""), (0, 2, b""), (0, 3, b""), (1, 2, b""), (0, 255, b""), (0, 2, srv6(0, [44, 1])), (0, 1, srv6(0, [44, 2])), (1, 0, srv6(0, [44, 1]))):
        agree_mpls(out, flags, depth, more)
        for n in (1, 2, 3, 4) + ((254, 255, 256) if depth == 255 else ()):
            ero(route([msub()] * n))
        rro(route([msub()] * 4, 8))
        if more:
            for n in (1, 2, 3):
                ero(route([sub()] * n), 3)
    here = bytes([5] * 16)
    out += ["pcc " + hexes(opened(setup([1, 3], mpls(2, 2) + tlv(27, bytes([0, 0, 0xC0, 2, 44, 2]))))), "pce " + hexes(opened(setup([1, 3], mpls(2, 2) + tlv(27, bytes([0, 0, 0xC0, 0])))))]
    for addresses in (b"", here):
        out.append("addresses " + hexes(addresses))
        for n in (2, 3):
            ero(route([msub(nt=4, nai=here + bytes(16))] + [msub()] * (n - 1)))
            ero(route([sub(nt=4, nai=here + bytes(16))] + [sub()] * (n - 1)), 3)
    out += ["addresses 00", "ero 1 " + hexes(one), "rro 1 -", "ero-segment 1 0 " + hexes(one), "report 7 1 " + hexes(one), "addresses -"]
    out.append("# N of the one form is not the other's")
    for a, b in ((0, 2), (2, 0)):
        agree_mpls(out, a + 1, 0, srv6(b, []))
        ero(route([msub(nt=1, m=0, s=1)]))
        ero(route([sub(nt=2, s=1)]), 3)
    out.append("# what is set and ought to be 0: each of the 12 flags alone; a label's TC, S and TTL are none")
    agree_mpls(out, 3)
    for b in (msub(), msub(nt=1, m=0), msub(nt=5, m=0, s=1), msub(c=1, sid=entry(16001, 7, 1, 255))):
        for bit in range(12):
            at = 3 - bit // 8
            x = b[:at] + bytes([b[at] ^ (1 << bit % 8)]) + b[at + 1:]
            for side, kind in (("ero", 7), ("rro", 8)):
                out.append("%s 1 %s" % (side, hexes(route([x], kind))))
                out.append("%s-segment 1 0 %s" % (side, hexes(route([x], kind))))
    odd = msub(stray=0xFE0)
    for n in range(1, 4):
        ero(route([odd] * n + [msub()] * (3 - n)))
        ero(route([msub()] * (3 - n) + [odd] * n))
    out.append("# segments: each NT with a label, an index and no SID, L and V; then 15")
    for nt in range(7):
        for m, c, s in ((1, 0, 0), (1, 1, 0), (0, 0, 0), (0, 0, 1)):
            for l, v in ((0, 0), (1, 1)):
                if nt or not s:
                    b = msub(nt=nt, m=m, c=c, s=s, l=l, v=v, sid=entry(100000 + nt, 5, 1, 64))
                    out.append("ero-segment 1 0 " + hexes(route([b])))
                    out.append("rro-segment 1 0 " + hexes(route([b], 8)))
    for i in (0, 1, 2, 3, 2**32, ALL64):
        out.append("ero-segment 1 %d %s" % (i, hexes(three)))
        out.append("rro-segment 1 %d %s" % (i, hexes(b"\x08" + three[1:])))
    for pst in (0, 2, 3, 257):
        out.append("ero-segment %d 0 %s" % (pst, hexes(three)))
    out += ["ero-segment 1 0 " + hexes(E), "ero-segment 1 9 " + hexes(three[:-1]), "ero-segment 1 0 -"]


# -- writing ------------------------------------------------------------------------------------------------------


def added(nt, sid, structure, l=0, v=0, behaviour=1, nai=None, m=0, c=0):
    long = {2: 16, 4: 32, 6: 40}.get(nt, 0)
    nai = bytes(range(1, long + 1)) if nai is None else nai
    return "add %d %d %d %d %s %s %s %d %d" % (l, v, nt, behaviour, hexes(sid), hexes(nai), structure, m, c)


# An MPLS segment.
def labelled(nt=0, sid=LABEL, l=0, v=0, m=1, c=0, nai=None, behaviour=0, structure="-"):
    nai = bytes(range(1, MPLS_NAI.get(nt, 0) + 1)) if nai is None else nai
    return added(nt, sid, structure, l, v, behaviour, nai, m, c)


def trial_writer():
    out = ["# before a begin: no buffer, place 0", "lent", "finish", added(0, SID, "-"), "# begin"]
    for n in (0, 1, 2, 3, 4, 5, 8):
        for side in ("ero", "rro"):
            out += ["begin %s 3 %d" % (side, n), "lent", "finish", added(0, SID, "-"), "lent"]
    out.append("# every NT, with and without SID and structure, to the edge of the buffer and one octet short; read back and written again")
    agree(out, 2, ())
    for side, kind in (("ero", 7), ("rro", 8)):
        for nt in (0, 1, 2, 3, 4, 5, 6, 7, 16, 255):
            for sid in (SID, b""):
                for structure in ("-", "40,24,16,48", "64,64,64,64"):
                    for l, v in ((0, 0), (1, 0), (0, 1)) if nt in (0, 6) else ((0, 0),):
                        good = nt in (0, 2, 4, 6)
                        b = sub(nt=nt if good else 0, s=0 if sid else 1, t=0 if structure == "-" else 1, l=l, v=v)
                        for n in (4 + len(b), 4 + len(b) - 1):
                            out += ["begin %s 3 %d" % (side, n), added(nt, sid, structure, l, v), "finish", "lent"]
                        if good:
                            out.append("%s-segment 3 0 %s" % (side, hexes(route([b], kind))))
    out.append("# octets kept for a part that is absent or shorter")
    out.append("begin ero 3 400")
    for nt, nai in ((0, b"\1"), (0, bytes(40)), (0, bytes(39) + b"\1"), (2, bytes(16)), (2, bytes(16) + b"\1"), (2, bytes(range(16)) + bytes(24)), (4, bytes(33)), (4, bytes(39) + b"\1"), (6, bytes(39) + b"\1"), (6, b"\1"), (2, b"")):
        out.append(added(nt, SID, "-", nai=nai))
        out.append(added(nt, b"", "-", nai=nai))
    out += ["finish", "lent"]
    out.append("# bit lengths")
    for structure in ("128,0,0,0", "129,0,0,0", "0,0,0,0", "32,32,32,32", "32,32,32,33", "255,255,255,255", "0040,024,16,48"):
        out.append(added(0, SID, structure))
        out.append(added(0, b"", structure))
        out.append(added(2, b"", structure))
    out.append("# behaviours and the order of the numbers")
    for behaviour in (0, 1, 255, 256, 65535):
        out.append(added(4, SID, "1,2,3,4", 1, 1, behaviour))
    out += [added(9, b"", "200,0,0,0", nai=b"\1"), added(0, b"", "200,0,0,0", nai=b"\1"), added(2, b"", "200,0,0,0"), added(2, SID, "200,0,0,0")]
    out += ["finish", "lent", "# more is added and the route finished again", added(6, SID, "1,2,3,4"), "finish", "finish", "# a refused begin keeps buffer, kind and place", "begin rro 3 3", "begin rro 3 0", added(0, SID, "-", 1), "finish", "lent"]
    out.append("# octets behind a segment stay")
    out += ["begin rro 3 40", added(0, SID, "-"), "lent", added(2, b"", "-"), "lent", "finish", "lent"]
    out.append("# read, written again: the same octets")
    for subs in ([sub()], [sub(nt=6, t=1, v=1, l=1), sub(nt=2), sub(nt=4, s=1), sub(t=1, bits=(1, 2, 3, 4))]):
        b = route(subs)
        out.append("begin ero 3 %d" % len(b))
        for x in subs:
            nt, flags = x[2] // 16, x[3]
            s, t, v = flags & 1, flags >> 2 & 1, flags >> 3
            sid = b"" if s else x[8:24]
            at = 8 if s else 24
            long = {2: 16, 4: 32, 6: 40}.get(nt, 0)
            bits = ",".join(str(y) for y in x[at + long:at + long + 4]) if t and not s else "-"
            out.append(added(nt, sid, bits, x[0] // 128, v, x[6] * 256 + x[7], x[at:at + long]))
        out += ["finish", "ero 3 " + hexes(b)]
    out.append("# the most octets of an object are 65,532")
    out.append("begin ero 3 65536")
    for i in range(1023):
        out.append("add 0 0 4 1 %s %s 1,2,3,4 0 0" % ("0" * 32, "0" * 64))
    out += [added(6, b"", "-"), added(0, SID, "-"), added(0, SID, "-"), added(2, b"", "-"), "begin ero 3 4", "finish"]
    mpls_writing(out)
    return out


def mpls_writing(out):
    out.append("# the MPLS form: begun by its setup type; every other one is SRv6's")
    for pst in (0, 1, 2, 3, 4, 257, 2**32 + 1, ALL64):
        for side in ("ero", "rro"):
            out += ["begin %s %d 40" % (side, pst), labelled(), labelled(nt=1, m=0), added(0, SID, "-"), added(0, SID, "-", m=1), "finish", "lent"]
    for n in (0, 3, 4, 11, 12):
        out += ["begin ero 1 %d" % n, "lent", "finish", labelled(), "finish", "lent"]
    out.append("# a refused begin keeps the form too")
    out += ["begin ero 1 100", "begin ero 3 3", labelled(), "begin rro 3 100", "begin ero 1 3", labelled(), added(0, SID, "-"), "finish"]
    out.append("# every NT, as a label, whole or not, an index and without a SID, to the edge of the buffer and one octet short; read back and written again")
    agree_mpls(out, 3)
    for side, kind in (("ero", 7), ("rro", 8)):
        for nt in list(range(0, 9)) + [16, 255]:
            for sid, m, c in ((LABEL, 1, 0), (entry(16001, 5, 1, 64), 1, 1), (entry(5), 0, 0), (b"", 0, 0)):
                for l, v in ((0, 0), (1, 0), (0, 1), (1, 1)) if nt in (0, 3) else ((0, 0),):
                    b = msub(nt=nt if nt < 7 else 0, m=m, c=c, s=0 if sid else 1, l=l, v=v, sid=sid)
                    for n in (4 + len(b), 4 + len(b) - 1):
                        out += ["begin %s 1 %d" % (side, n), labelled(nt, sid, l, v, m, c), "finish", "lent"]
                    if nt < 7:
                        out.append("%s-segment 1 0 %s" % (side, hexes(route([b], kind))))
    out.append("# what MPLS has not: a behaviour, a structure, octets of a SID behind the fourth; octets for a part that is absent or shorter")
    out.append("begin ero 1 400")
    for more in ({"behaviour": 1}, {"behaviour": 65535}, {"structure": "0,0,0,0"}, {"structure": "1,0,0,0"}, {"structure": "200,0,0,0"}, {"sid": LABEL + b"\0"}, {"sid": LABEL + b"\1"}, {"sid": LABEL + bytes(12)}, {"sid": LABEL + bytes(11) + b"\1"}, {"sid": LABEL[:3]}, {"sid": b"\x03"}, {"sid": b"\0", "m": 0}, {"sid": b"\0"},
                 {"sid": b"", "m": 0, "nt": 1, "behaviour": 1}, {"nai": b"\1"}, {"nai": bytes(40)}, {"nai": bytes(39) + b"\1"}, {"nt": 1, "nai": bytes(4)}, {"nt": 1, "nai": bytes(4) + b"\1"}, {"nt": 1, "nai": b""}, {"nt": 3, "nai": bytes(8) + b"\1"}, {"nt": 3, "nai": bytes(40)}, {"nt": 5, "nai": bytes(16) + b"\1"}, {"nt": 5, "nai": bytes(15) + b"\1"}, {"nt": 6, "nai": bytes(39) + b"\1"}):
        out.append(labelled(**more))
    out += ["finish", "lent"]
    out.append("# M and C: without a SID, C without M; of SRv6 neither")
    out.append("begin ero 1 400")
    for nt, sid in ((0, LABEL), (1, LABEL), (0, b""), (1, b""), (1, entry(3, 0, 0, 9)), (1, entry(16, 0, 0, 9))):
        for m in (0, 1):
            for c in (0, 1):
                out.append(labelled(nt, sid, m=m, c=c))
    out.append("finish")
    out.append("begin ero 3 400")
    for m in (0, 1):
        for c in (0, 1):
            out += [added(0, SID, "-", m=m, c=c), added(2, b"", "-", m=m, c=c), added(2, SID, "200,0,0,0", m=m, c=c), added(9, SID, "-", m=m, c=c), added(0, b"", "-", m=m, c=c)]
    out += [added(0, SID[:n], "-") for n in (1, 4, 15, 16)] + ["finish"]
    out.append("# labels and formats, in an ERO and an RRO")
    for side in ("ero", "rro"):
        out.append("begin %s 1 2000" % side)
        for label in list(range(0, 18)) + [1048575]:
            for m, c in ((0, 0), (1, 0), (1, 1)):
                for ttl in (0, 1):
                    out.append(labelled(sid=entry(label, 0, 0, ttl), m=m, c=c))
        out.append("finish")
    out.append("# the order of the numbers: 8, 9, 7, 29, 30, 16")
    out.append("begin rro 1 12")
    worst = {"sid": entry(3), "m": 1, "c": 1, "behaviour": 1}
    out += [labelled(nt=7, **worst), labelled(sid=b"", m=1, c=1, behaviour=1), labelled(**worst), labelled(nt=1, sid=entry(3), c=1, l=1), labelled(nt=1, sid=entry(3), c=1), labelled(nt=1, sid=entry(7), c=1), labelled(nt=1), labelled(), labelled(), "finish"]
    out.append("# read, written again: the same octets")
    subs = [msub(nt=1, l=1, v=1), msub(nt=3, m=0), msub(nt=5, m=0, s=1), msub(c=1, sid=entry(16001, 3, 1, 1)), msub(nt=2), msub(nt=4), msub(nt=6, s=1, m=0)]
    b = route(subs)
    out.append("begin ero 1 %d" % len(b))
    for x in subs:
        nt, flags = x[2] // 16, x[3]
        at = 4 if flags & 4 else 8
        out.append(labelled(nt, x[4:at], x[0] // 128, flags >> 4, flags & 1, flags >> 1 & 1, x[at:]))
    out += ["finish", "ero 1 " + hexes(b)]
    out.append("# the most octets of an object are 65,532")
    out.append("begin ero 1 65536")
    out += ["add 0 0 6 0 %s %s - 0 0" % ("0" * 8, "0" * 80)] * 1365
    out += [labelled(nt=1, sid=b"", m=0), labelled(), "finish"]


# -- the board ----------------------------------------------------------------------------------------------------


def follow(out, s, w, turns):
    for _ in range(turns):
        out.append("next %d %d" % (s, w))


def trial_board():
    out = ["# the empty board", "board", "mark", "chain", "moved 0 18446744073709551615 0", "moved 1 0 0", "moved 0 0 1", "body 1", "remove 1", "next 0 0", "next 1 0", "next 0 1", "compact 0", "compact 1", "report 1 3 " + hexes(E)]
    out += ["pcc " + hexes(opened(setup([3], srv6(2, [])))), "pce " + hexes(O)]
    A, B = hexes(E), hexes(route([sub(nt=2), sub()]))
    out += ["# report A, report B, remove A; mark (1, 1); compact 3", "report 10 3 " + A, "chain", "report 20 3 " + B, "chain", "remove 10", "chain", "moved 10 19 1", "moved 10 10 2", "moved 10 10 3", "moved 20 29 1", "moved 20 29 2", "moved 11 20 1", "moved 11 19 0", "moved 0 1048575 0", "moved 20 10 0", "moved 0 9 0", "moved 10 20 4", "board", "next 1 1", "next 1 2", "next 1 3", "mark", "next 3 0", "next 3 2",
            "compact 3", "chain", "moved 10 20 2", "moved 10 20 3", "moved 20 20 3", "moved 20 10 2", "moved 20 10 4", "board", "next 2 2", "next 3 3", "next 3 0", "next 3 2", "next 2 3", "next 0 3", "next 3 4", "next 4 3", "compact 2", "board", "compact 4"]
    out.append("# keys, and the order of the numbers")
    for key in (0, 1, 1048574, 1048575, 2**32 + 1, ALL64):
        out += ["report %d 3 %s" % (key, A), "report %d 1 %s" % (key, A), "body %d" % key, "remove %d" % key, "body %d" % key, "remove %d" % key]
    out.append("# refused routes with their places, and a body of 384 octets and more")
    for b in (E[:27], route([]), route([sub(), sub(nt=3)]), route([sub(), sub(s=1)]), route([sub()] * 16), route([sub()] * 17), route([sub(nt=6, t=1)] * 5 + [sub()]), route([sub(nt=6, t=1)] * 5 + [sub(nt=2)])):
        out += ["report 30 3 " + hexes(b), "body 30", "board"]
    out += ["report 30 3 " + A, "body 30", "report 30 3 " + A, "body 30", "board", "# a removal's key keeps its place", "remove 30", "report 30 3 " + B, "body 30", "board", "chain"]
    out.append("# all places: 127 paths and a removal, then 128 paths")
    for k in range(100, 225):
        out.append("report %d 3 %s" % (k, hexes(route([sub(behaviour=k)]))))
    out += ["board", "report 300 3 " + A, "report 301 3 " + A, "report 302 3 " + A, "report 303 3 " + A, "board", "chain", "body 300", "body 301", "remove 150", "board", "chain", "report 304 3 " + B, "board", "chain", "body 150", "body 304", "remove 160", "remove 151", "remove 155",
            "report 305 3 " + A, "board", "report 151 3 " + A, "board", "report 306 3 " + A, "board", "report 307 3 " + A, "report 307 3 " + E[:27].hex(), "board"]
    out.append("# what followers are handed, from the empty one, from a mark, and after compaction")
    follow(out, 0, 0, 1)
    r = random.Random(1)
    for _ in range(60):
        out.append("next %d %d" % (r.randrange(0, 160), r.randrange(0, 160)))
    out += ["compact 145", "board", "chain", "next 144 144", "next 145 0", "next 145 145", "next 0 145"]
    out.append("# a longer history")
    r = random.Random(7)
    version, keys = 145, list(range(1, 150))
    shapes = [[sub()], [sub(nt=2)], [sub(nt=4, s=1)], [sub(nt=6, t=1), sub()], [sub()] * 16, [sub()] * 17, [sub(nt=5)]]
    for step in range(700):
        roll = r.random()
        key = r.choice(keys)
        if roll < 0.45:
            out.append("report %d %d %s" % (key, 3 if r.random() < 0.95 else 2, hexes(route(r.choice(shapes[:4]) if r.random() < 0.9 else r.choice(shapes[4:])))))
            version += 1
        elif roll < 0.70:
            out.append("remove %d" % key)
        elif roll < 0.72:
            out.append("compact %d" % r.randrange(max(0, version - 120), version + 2))
        elif roll < 0.80:
            out.append("body %d" % key)
        elif roll < 0.82:
            out += ["board", "mark", "chain"]
            v, a = r.randrange(max(0, version - 150), version + 2), r.randrange(0, 150)
            out += ["moved %d %d %d" % (a, a + r.randrange(-1, 30), v), "moved 0 %d %d" % (ALL64, v)]
        else:
            s = r.randrange(max(0, version - 200), version + 3)
            out.append("next %d %d" % (s, max(0, s + r.randrange(-60, 60))))
    return out + forms_on_board()


# All keys of the history before are removed first; BEFORE is the version that the board has then.
BEFORE = 412


def forms_on_board():
    out = ["board", "# both forms: an entry's is its setup type, and comes with its octets"] + ["remove %d" % k for k in list(range(1, 150)) + list(range(300, 308))] + ["board"]
    agree_mpls(out, 3, 0, srv6(2, []))
    one, node, two, long, over = route([msub()]), route([msub(nt=1, m=0, s=1)]), route([msub(nt=3), msub(nt=5, m=0)]), route([msub()] * 48), route([msub()] * 49)
    version = BEFORE
    for key, pst, b in ((2001, 1, one), (2002, 3, E), (2003, 1, node), (2001, 3, one), (2001, 1, E), (2001, 2, E), (2001, 257, one), (2001, 3, E), (2002, 1, two), (2003, 1, route([msub(sid=entry(3))])), (2003, 1, route([msub(c=1)])), (2004, 1, long), (2004, 1, over), (2004, 3, route([sub()] * 16))):
        out += ["report %d %d %s" % (key, pst, hexes(b)), "body %d" % key, "board"]
    out += ["remove 2001", "body 2001", "report 2001 1 " + hexes(one), "body 2001", "remove 2001", "board"]
    follow(out, version, version, 1)
    out += ["next %d %d" % (version + 10, version + n) for n in range(0, 12)] + ["next %d %d" % (version + n, version + n) for n in range(0, 12)]
    out += ["compact %d" % (version + 4), "chain", "board", "# a mixed history"]
    r = random.Random(11)
    shapes = [(1, [msub()]), (1, [msub(nt=1, m=0, s=1)]), (1, [msub(nt=3, m=0), msub(stray=0x800)]), (1, [msub(nt=6)] * 8), (3, [sub()]), (3, [sub(nt=2, t=1)]), (1, [sub()]), (3, [msub()]), (1, [msub(sid=entry(3))])]
    version += 10
    for step in range(300):
        roll, key = r.random(), r.randrange(2000, 2040)
        if roll < 0.5:
            pst, subs = r.choice(shapes)
            out.append("report %d %d %s" % (key, pst, hexes(route(subs))))
            version += 0.66
        elif roll < 0.7:
            out.append("remove %d" % key)
            version += 0.5
        elif roll < 0.82:
            out.append("body %d" % key)
        else:
            s = int(version) - r.randrange(0, 60)
            out.append("next %d %d" % (s, s + r.randrange(-30, 30)))
    return out + ["board", "chain"]


# -- the console's own edges --------------------------------------------------------------------------------------


def console():
    out = ["", "# the start: an empty board, both OPENs refused, the writer at place 0 of an ERO with no buffer", "board", "mark", "chain", "lent", "finish", "ero 3 " + hexes(E), "ero 3 -", "",
           "pcc " + hexes(O), "pce " + hexes(O).lower(), "ero 3 " + hexes(E), "ero 03 " + hexes(E).lower(), "rro 3 " + hexes(E), "ero-segment 3 0 " + hexes(E)]
    odd = E[:6] + b"\x0f\xf2\x01\x00" + E[10:]
    out += ["# a flag and a reserved octet that ought to be 0", "ero 3 " + hexes(odd), "ero-segment 3 0 " + hexes(odd), "report 99 3 " + hexes(odd), "remove 99", "compact 2"]
    out += ["# out of form", " ", "  ", " board", "board ", "board  ", "board board", "Board", "BOARD", "boar", "boards", "board\r", "\r", "board\t", "\tboard", "\0", "\0board", "board\0", "0", "-", "ero", "ero 3", "ero  3 " + hexes(E), "ero 3  " + hexes(E), "ero 3 " + hexes(E) + " ",
            "ero 3 " + hexes(E) + " 0", "ero  " + hexes(E), "ero - " + hexes(E), "ero +3 " + hexes(E), "ero -3 " + hexes(E), "ero 3.0 " + hexes(E), "ero 0x3 " + hexes(E), "ero 3, " + hexes(E), "ero : " + hexes(E), "ero / " + hexes(E), "ero " + hexes(E), "ero " + hexes(E) + " 3"]
    out += ["# numbers to 2^64-1", "ero 18446744073709551615 " + hexes(E), "ero 18446744073709551616 " + hexes(E), "ero 18446744073709551620 " + hexes(E), "ero 99999999999999999999 " + hexes(E), "ero 184467440737095516150 " + hexes(E), "ero 1844674407370955162 " + hexes(E),
            "ero 000000000000000000000000000000000000000000000000000000000000003 " + hexes(E), "ero 0000000000000000000018446744073709551616 " + hexes(E), "next 18446744073709551615 18446744073709551615", "next 18446744073709551616 0", "compact 18446744073709551615", "remove 18446744073709551615"]
    out += ["# octets", "pcc", "pcc ", "pcc 0", "pcc 01 10", "pcc 0G", "pcc G0", "pcc @0", "pcc `0", "pcc :0", "pcc /0", "pcc g0", "pcc 0x01", "pcc -01", "pcc 01-", "pcc --", "pcc -", "ero 3 " + hexes(E)[:-1], "ero 3 " + hexes(E) + "0", "ero 3 " + hexes(E)[:20] + " " + hexes(E)[20:],
            "ero 3 " + hexes(E), "pcc " + hexes(O), "ero 3 " + hexes(E)]
    out += ["# the positions and the addresses", "positions", "positions 0", "positions 0 1 2", "positions 0 x", "positions  0 1", "positions -", "positions 18446744073709551615 0", "pcc " + hexes(O), "positions 18446744073709551616 0",
            "positions 000 0001", "pcc " + hexes(O), "addresses", "addresses ", "addresses 0", "addresses 00 00", "addresses 0g", "addresses -", "addresses 0a", "ero 3 " + hexes(E), "addresses " + "aB" * 16, "ero 3 " + hexes(E), "addresses --", "ero 3 " + hexes(E), "addresses " + "00" * 16 + " -", "Addresses -", "addresses -"]
    sid = hexes(SID)
    out += ["# the writer's words", "begin", "begin ero", "begin ero 3 65537", "begin ero 3 65536 ", "begin Ero 3 4", "begin pro 3 4", "begin 4 3 ero", "begin ero 3 -", "begin ero 28", "begin ero 3", "begin ero - 28", "begin ero x 28", "begin ero 3 28 0", "begin ero 18446744073709551616 28", "begin ero 3 0", "begin ero 003 00028", "lent", "begin ero 3 18446744073709551644",
            "add 0 0 0 1 " + sid + " - - 0 0", "finish", "add 2 0 0 1 " + sid + " - - 0 0", "add 0 2 0 1 " + sid + " - - 0 0", "add 0 0 256 1 " + sid + " - - 0 0", "add 0 0 0 65536 " + sid + " - - 0 0", "add 0 0 0 1 " + sid[:-2] + " - - 0 0", "add 0 0 0 1 " + sid + "00 - - 0 0", "add 0 0 0 1 " + sid + " " + "00" * 41 + " - 0 0",
            "add 0 0 0 1 " + sid + " " + "00" * 40 + " - 0 0", "add 0 0 0 1 " + sid + " - 1,2,3 0 0", "add 0 0 0 1 " + sid + " - 1,2,3,4,5 0 0", "add 0 0 0 1 " + sid + " - 1,2,3,256 0 0", "add 0 0 0 1 " + sid + " - 1,2,3, 0 0", "add 0 0 0 1 " + sid + " - ,1,2,3 0 0", "add 0 0 0 1 " + sid + " - 1,2,,3 0 0",
            "add 0 0 0 1 " + sid + " - 1, 2,3,4 0 0", "add 0 0 0 1 " + sid + " - 1;2;3;4 0 0", "add 0 0 0 1 " + sid + " - -- 0 0", "add 0 0 0 1 " + sid + " - 0001,2,3,4 0 0", "add 0 0 0 1 " + sid + " - 0 0", "add 0 0 0 1 " + sid + " - - - 0 0", "add 0 0 0 1 - - - 0 0", "add 1 1 2 65535 - " + "ab" * 16 + " - 0 0", "add 00 01 002 0001 " + sid + " " + "Cd" * 16 + " - 0 0", "finish", "lent",
            "finish ", "finish 1", "lent ", "lent 0", "begin rro 3 4", "lent"]
    label, whole = hexes(LABEL), hexes(entry(16001, 0, 0, 64))
    out += ["# the MPLS form's words: a SID of 1 to 16 octets, M and C", "begin ero 1 60", "add 0 0 0 0 " + label + " - - 1", "add 0 0 0 0 " + label + " - - 1 0 0", "add 0 0 0 0 " + label + " - - 2 0", "add 0 0 0 0 " + label + " - - 1 2", "add 0 0 0 0 " + label + " - - - -",
            "add 0 0 0 0 " + label + " - - 1 ", "add 0 0 0 0 " + label + " - - x 0", "add 0 0 0 0 " + label[:-1] + " - - 1 0", "add 0 0 0 0  - - 1 0", "add 0 0 0 0 " + "00" * 17 + " - - 0 0", "add 0 0 0 0 " + label + " - - 1 0", "add 0 0 0 0 " + whole + " - - 01 0001", "add 0 0 1 0 " + label[:2] + " C0000201 - 1 0", "add 0 0 0 0 " + label + "00" * 12 + " - - 0 0",
            "finish", "lent"]
    both = opened(setup([1, 3], mpls(2, 9) + srv6(0, [44, 4])))
    out += ["# a refusal of an OPEN names the form at fault", "pcc " + hexes(both), "pcc " + hexes(opened(setup([1], b""))), "pcc " + hexes(opened(setup([3], b""))), "pcc 00", "pce " + hexes(opened(setup([1, 3], mpls(0, 0)))), "pce " + hexes(opened(setup([1, 3], mpls(0, 0) + srv6(0, [7, 7])))), "ero 1 " + hexes(route([msub()])),
            "pcc " + hexes(both), "pce " + hexes(both), "ero 1 " + hexes(route([msub()])), "ero 0000001 " + hexes(route([msub()])), "ero-segment 1 0 " + hexes(route([msub(nt=1)])), "rro-segment 1 0 " + hexes(route([msub(nt=5, m=0, s=1)], 8)), "report 98 1 " + hexes(route([msub(nt=1)])), "body 98", "next 2 2", "next 3 2", "remove 98", "body 98", "compact 4"]
    out += ["# form goes before meaning", "report 0 3 0", "report 0 x " + hexes(E), "report 0 3 " + hexes(E), "ero-segment 1 x " + hexes(E), "ero-segment 1 0 " + hexes(E)]
    out += ["# the board's words", "report", "report 1", "report 1 3", "report 1 3 " + hexes(E) + " 1", "remove", "remove ", "remove 1 1", "remove x", "compact", "compact -", "body", "body 1", "next", "next 0", "next 0 0 0", "next 0 0", "mark 0", "mark", "chain 0", "chain -", "chains", "Chain", "moved", "moved 1", "moved 1 2", "moved 1 2 3 4", "moved 1 2 x", "moved - 2 0", "moved  1 2 0", "Moved 1 2 0", "moved 1 2 18446744073709551616", "moved 0 0 0", "moved 0001 18446744073709551615 000", "board 0",
            "report 1 3 " + hexes(E), "body 1", "next 0 0", "remove 0001", "next 1 1", "mark"]
    text = "\n".join(out) + "\n"
    text += "#" + "x" * 131300 + "\n"
    long = "ero 00000 "
    digits = 131200 - len(long)
    text += long + "0" * digits + "\n"
    text += "ero 000000 " + "0" * digits + "\n"
    text += "addresses " + "0" * (131200 - 10) + "\n"
    text += "ero 3 " + hexes(E) + "\naddresses " + "0" * 131072 + "\nero 3 " + hexes(E) + "\nlent\nmark\nboard"
    return text


# -- the checking program: inputs, one to a line ------------------------------------------------------------------


def trial_checker():
    good = O + O + E
    out = [good, b"", O, O + O, good + b"\0", good + E, good + bytes(40)]
    out += [good[:k] for k in range(0, len(good), 3)]
    for at, most in ((2, 40), (34, 40), (66, 36)):
        out += [put16(good, at, n) for n in (0, 1, 2, 3, 4, 5, 8, 27, 28, 29, 31, 32, 33, most, 60, 64, 92, 65535)]
    for i in range(len(good)):
        out.append(good[:i] + bytes([good[i] ^ 1]) + good[i + 1:])
    bare = opened(setup([0], b""))
    wide = opened(setup([3], srv6(2, [])))
    for a in (O, bare, wide, O[:28] + b"\0" + O[29:], opened(setup([3], b"")), sized(O[:8])):
        for b in (O, bare, wide, O[:28] + b"\0" + O[29:], opened(setup([3], b""))):
            for r in (E, route([sub(nt=2, s=1)]), route([sub()] * 5)):
                out.append(a + b + r)
    for flags in (0x8000, 0x4000, 0x2000):
        for r in (route([sub()] * 3), route([sub(4), sub(), sub()])):
            out.append(flagged(flags, [44, 2]) + flagged(flags, [44, 2]) + r)
        out.append(flagged(flags, [44, 2]) + O + route([sub()] * 3))
    out.append(flagged(0x4000, [44, 2]) + flagged(0x4000, []) + route([sub()] * 4))
    both = opened(setup([1, 3], mpls(2, 1) + srv6(0, [44, 2])))
    # the program reads 65,536 octets of its input, so there is no room for all of them in every order
    for a in (both, opened(setup([1], mpls(2, 9))), opened(setup([1, 3], mpls(0, 0) + srv6(0, [7, 2]))), opened(setup([1, 3], tlv(26, b"abc") + srv6(0, [44, 2]))), opened(setup([1, 3], srv6(0, [44, 2])))):
        out += [a + both + r for r in (E, route([sub()] * 3), route([msub()]), route([sub(), msub()]))] + [O + a + E]
    return [x.hex().upper() for x in out]


def main():
    here = os.path.join(os.path.dirname(os.path.abspath(__file__)), "..", "crates")
    # one run for three: the board and the writer as at the start, the halves of the session refused again in between
    anew = ["# both OPENs refused, as at the start", "pcc -", "pce -"]
    calls = trial_board() + anew + trial_writer() + anew + trial_open()
    for name, made in (("console", console()), ("trial_route", trial_route()), ("trial_calls", calls), ("trial_checker", trial_checker())):
        text = made if isinstance(made, str) else "\n".join(made) + "\n"
        os.makedirs(os.path.join(here, name), exist_ok=True)
        with open(os.path.join(here, name, "stdin"), "wb") as f:
            f.write(text.encode("latin-1"))


main()
