#!/bin/sh
# The program strundevi, run as people and scripts run it: good, refused and damaged inputs, files that cannot be read, bad usage; its lines are those of
# the checking program, and the examples of README.md answer as they show. Nothing it is given makes it panic.
#
#     tests/program.sh           against the checking program of rust/reference, once tests/library.sh has built both
#     tests/program.sh proved    against the proved one, which is proved and built first
set -eu
cd "$(dirname "$0")/.."
out=target/program
rm -rf "$out"
mkdir -p "$out"
program=${STRUNDEVI_BIN:-$PWD/rust/target/release}/strundevi
checker() { "${STRUNDEVI_BIN:-rust/target/release}/reference-checker"; }
if [ "${1:-}" = proved ]; then
    (cd crates/checker && rt run) < /dev/null > "$out/log" 2>&1 || { cat "$out/log"; exit 1; }
    checker() { tests/emulate.sh crates/checker/out/checker; }
fi
faults=0
fault() {
    echo "program: $1"
    faults=$((faults + 1))
}
tried=0

# expect STATUS ARGUMENT..: runs it with what stands in $out/in as standard input; what it wrote is in $out/out and $out/err.
expect() {
    wanted=$1
    shift
    tried=$((tried + 1))
    status=0
    "$program" "$@" < "$out/in" > "$out/out" 2> "$out/err" || status=$?
    [ "$status" = "$wanted" ] || fault "strundevi $*: status $status, not $wanted"
    if grep -q panicked "$out/err"; then fault "strundevi $*: $(cat "$out/err")"; fi
    if [ "$wanted" = 2 ] && [ ! -s "$out/err" ]; then fault "strundevi $*: status 2 without a word"; fi
}

# The same input, in $out/in, to the checking program; the status is that of its number.
as_checked() {
    line=$(checker < "$out/in")
    case $line in
        "0 "*) expect 0 check --plain - ;;
        *) expect 1 check --plain - ;;
    esac
    [ "$(cat "$out/out")" = "$line" ] || fault "$1: $(cat "$out/out"), not $line"
}

# The octets of a file as hexadecimal digits; and back.
digits() {
    od -An -v -tx1 "$1" | tr -d ' \n'
}
octets() {
    # shellcheck disable=SC2059
    printf "$(echo "$1" | awk '{
        for (i = 1; i < length($0); i += 2) {
            n = (index("0123456789abcdef", substr($0, i, 1)) - 1) * 16 + index("0123456789abcdef", substr($0, i + 1, 1)) - 1
            printf "\\%03o", n
        }
    }')"
}

: > "$out/in"

# ---- the samples: their lines are those of samples/README.md, and of the checking program
for sample in samples/*.bin; do
    line=$(sed -n "s/^| $(basename "$sample") |.*| \`\([0-9 ]*\)\` |\$/\1/p" samples/README.md)
    [ -n "$line" ] || fault "samples/README.md has no row for $sample"
    cp "$sample" "$out/in"
    as_checked "$sample"
    [ "$(cat "$out/out")" = "$line" ] || fault "$sample: $(cat "$out/out"), and samples/README.md says $line"
    digits "$sample" > "$out/in"
    if [ -s "$out/in" ]; then
        case $line in "0 "*) expect 0 check --plain - ;; *) expect 1 check --plain - ;; esac
        [ "$(cat "$out/out")" = "$line" ] || fault "$sample as digits: $(cat "$out/out"), not $line"
    fi
done
: > "$out/in"
expect 0 check samples/accepted.bin samples/four-segments.bin
expect 1 check samples/five-segments.bin samples/accepted.bin
expect 2 check samples/five-segments.bin samples/missing.bin samples/accepted.bin
[ "$(wc -l < "$out/out")" -eq 2 ] || fault "a missing file keeps others from being checked"
grep -q 'samples/missing.bin: there is no such file' "$out/err" || fault "a missing file: $(cat "$out/err")"
expect 0 segments samples/all-parts.hex samples/octets-behind.bin
expect 1 segments samples/wrong-msd.bin

# ---- the samples of MPLS, under setup type 1; under 3 none of their routes is taken
for sample in samples/mpls/*.bin; do
    line=$(sed -n "s/^| $(basename "$sample") |.*| \`\([0-9 ]*\)\` |\$/\1/p" samples/README.md)
    [ -n "$line" ] || fault "samples/README.md has no row for $sample"
    case $line in "0 "*) expect 0 check --mpls --plain "$sample" ;; *) expect 1 check --plain --mpls "$sample" ;; esac
    [ "$(cat "$out/out")" = "$line" ] || fault "$sample: $(cat "$out/out"), and samples/README.md says $line"
    expect 1 check "$sample"
done
expect 1 check --mpls samples/accepted.bin samples/mpls/labels-only.bin
expect 0 segments --mpls samples/mpls/labels-with-nai.bin samples/mpls/whole-entry.bin samples/mpls/names-only.bin
diff "$out/out" - << 'END' || fault "the segments of the MPLS samples"
samples/mpls/labels-with-nai.bin: accepted, 3 segments
  0: label 16001; node 198.51.100.1
  1: label 24005; adjacency from 192.0.2.1 to 192.0.2.2
  2: label 24009; adjacency from 198.51.100.2 on interface 7 to 198.51.100.3 on interface 12
samples/mpls/whole-entry.bin: accepted, 1 segment
  0: label 16001 with TC 5, S 1, TTL 64 (C)
samples/mpls/names-only.bin: accepted, 2 segments
  0: no SID; node 198.51.100.1
  1: no SID; adjacency from 192.0.2.1 to 192.0.2.2
END
expect 1 check --mpls samples/mpls/old-capability.bin
grep -q 'refused by 2, capability missing (MPLS), .*; PCErr 10/12' "$out/out" || fault "an OPEN with MPLS at fault: $(cat "$out/out")"
sample=$(digits samples/mpls/labels-with-nai.bin)
i=0
while [ "$i" -lt "${#sample}" ]; do
    octets "$(echo "$sample" | cut -c "1-$i" 2> /dev/null || true)" > "$out/in"
    expect 1 segments --mpls -
    i=$((i + 2))
done
: > "$out/in"

# ---- every prefix of a sample, as octets and as digits; every octet of it changed
sample=$(digits samples/bit-lengths-128.bin)
i=0
while [ "$i" -le "${#sample}" ]; do
    prefix=$(echo "$sample" | cut -c "1-$i" 2> /dev/null || true)
    if [ $((i % 2)) = 1 ]; then
        echo "$prefix" > "$out/in"
        expect 2 check --plain -
    else
        octets "$prefix" > "$out/in"
        as_checked "the first $((i / 2)) octets"
        line=$(cat "$out/out")
        echo "$prefix" | tr 'a-f' 'A-F' | sed 's/../& /g' | fold -w 30 > "$out/in"
        case $line in "0 "*) expect 0 segments - ;; *) expect 1 segments - ;; esac
        expect "$status" check --plain -
        [ "$(cat "$out/out")" = "$line" ] || fault "the first $((i / 2)) octets as digits: $(cat "$out/out"), not $line"
    fi
    i=$((i + 1))
done
i=1
while [ "$i" -lt "${#sample}" ]; do
    for with in 00 07 40 ff; do
        octets "$(echo "$sample" | cut -c "1-$i" | sed 's/.$//')$with$(echo "$sample" | cut -c "$((i + 2))-")" > "$out/in"
        as_checked "octet $((i / 2)) made $with"
    done
    i=$((i + 2))
done

# ---- inputs that are odd
head -c 70000 /dev/zero > "$out/in"
as_checked "70,000 octets of 0"
{ cat samples/accepted.bin; head -c 70000 /dev/zero; } > "$out/in"
as_checked "70,000 octets behind the ERO"
echo "01 1" > "$out/in"
expect 2 check -
grep -q 'an odd number of hexadecimal digits' "$out/err" || fault "an odd number of digits: $(cat "$out/err")"
printf '01 10\n0x20\n' > "$out/in"
expect 2 check -
grep -q "'x' in line 2" "$out/err" || fault "text that is no digits: $(cat "$out/err")"
printf ' \n' > "$out/in"
expect 1 check -
head -c 1100000 /dev/zero | tr '\0' ' ' > "$out/in"
expect 2 check -
: > "$out/in"
expect 1 check /dev/zero
expect 2 check "$out"
cp samples/accepted.bin "$out/--plain"
(cd "$out" && "$program" check -- --plain > out) || fault "a file called --plain cannot be checked"
expect 2 check "$(printf 'no\377such')"

# ---- bad usage, help, numbers
expect 2
expect 2 judge
expect 2 check
expect 2 segments
expect 2 explain
expect 2 check --quick samples/accepted.bin
expect 2 segments --plain samples/accepted.bin
expect 2 explain --plain 1
expect 2 explain --mpls 29
expect 2 check --mpls
expect 2 check - -
expect 2 explain 1000
expect 2 explain -- -1
expect 2 explain 99999999999999999999
expect 2 explain twelve
for words in --help -h help "check --help" "explain 1 -h"; do
    # shellcheck disable=SC2086
    expect 0 $words
    grep -q '^status' "$out/out" || fault "strundevi $words gives no help"
done
numbers=$(sed -n 's/^| \([0-9]*\) |.*/\1/p' docs/NUMBERS.md)
[ "$(echo "$numbers" | wc -l)" -ge 25 ] || fault "docs/NUMBERS.md has lost numbers"
for number in $numbers; do
    expect 0 explain "$number"
    name=$(sed -n "s/^| $number | \([^|]*\) |.*/\1/p" docs/NUMBERS.md)
    [ "$(head -n 1 "$out/out")" = "$number: $name" ] || fault "explain $number begins $(head -n 1 "$out/out")"
    [ "$(wc -l < "$out/out")" -eq 4 ] || fault "explain $number has not four lines"
done

# ---- an answer that cannot be written
if [ -e /dev/full ]; then
    status=0
    "$program" explain 1 > /dev/full 2> "$out/err" || status=$?
    [ "$status" = 2 ] || fault "a full disk: status $status"
    grep -q 'cannot be written' "$out/err" || fault "a full disk: $(cat "$out/err")"
fi
"$program" --help 2> "$out/err" | true
"$program" check samples/*.bin >&- 2>&- || true
[ ! -s "$out/err" ] || fault "a closed pipe: $(cat "$out/err")"

# ---- the examples of README.md: `$ ` is typed in the folder of this tree
awk '/^```session/ { inside = 1; next } /^```/ { inside = 0 } inside' README.md > "$out/session"
PATH=$(dirname "$program"):$PATH
while IFS= read -r line; do
    case $line in
        '$ '*)
            echo "$line"
            sh -c "${line#??}" < /dev/null || true
            ;;
    esac
done < "$out/session" > "$out/session.told"
diff "$out/session" "$out/session.told" || fault "an example of README.md answers otherwise"

[ "$faults" = 0 ] || exit 1
echo "program: $tried runs and the examples of README.md are as they should be"
