#!/bin/sh
# The pages say what is so: the definitions and edits that they name are there, and the console's examples and the samples' dialogues answer as they show.
#
#     tests/pages.sh             with the console of rust/reference, once tests/library.sh has built it
#     tests/pages.sh proved      with the proved one, which is proved and built first
set -eu
cd "$(dirname "$0")/.."
out=target/pages
rm -rf "$out"
mkdir -p "$out"
console() { "${STRUNDEVI_BIN:-rust/target/release}/reference-console"; }
if [ "${1:-}" = proved ]; then
    (cd crates/console && rt run) < /dev/null > "$out/log" 2>&1 || { cat "$out/log"; exit 1; }
    console() { tests/emulate.sh crates/console/out/console; }
fi
faults=0
fault() {
    echo "pages: $1"
    faults=$((faults + 1))
}

# ---- what pages name

# A name of a file of specs/ or proofs/: a definition or a law, a type, or a part of one.
defines() {
    grep -qE "^(abbrev |unfoldable )?(pub )?$2( |\$)|^(abbrev |unfoldable )?pub (record |data )?$2( |\$)|^  (pub )?$2 :" "$1"
}

named=0
for page in docs/*.md README.md; do
    # crate/specs/File.name and crate/specs/File; the same of proofs/
    for cited in $(grep -oE '`[a-z0-9_]+/(specs|proofs)/[A-Za-z0-9]+(\.[A-Za-z0-9-]+)?`' "$page" | tr -d '`' | sort -u); do
        named=$((named + 1))
        file=crates/${cited%%.*}.antt
        if [ ! -f "$file" ]; then
            fault "$page names $cited, and there is no $file"
        elif [ "$cited" != "${cited#*.}" ] && ! defines "$file" "${cited#*.}"; then
            fault "$page names $cited, and $file has no ${cited#*.}"
        fi
    done
    # File.name, of some crate
    for cited in $(grep -oE '`[A-Z][A-Za-z0-9]*\.[A-Za-z0-9-]+`' "$page" | tr -d '`' | grep -vE '\.(md|antt)$' | sort -u); do
        named=$((named + 1))
        found=no
        for file in crates/*/specs/"${cited%%.*}".antt crates/*/proofs/"${cited%%.*}".antt; do
            if [ -f "$file" ] && defines "$file" "${cited#*.}"; then found=yes; fi
        done
        # or a part of a record
        if [ "$found" = no ] && ! grep -qE "^  (pub )?${cited#*.} :" $(grep -lE "record ${cited%%.*}( |\$)" crates/*/specs/*.antt) /dev/null; then
            fault "$page names $cited, and no crate has it"
        fi
    done
    # crate::function, or a constant or a type
    for cited in $(grep -oE '`[a-z0-9_]+::[A-Za-z0-9_]+`' "$page" | tr -d '`' | sort -u); do
        crate=${cited%%::*}
        if [ -d "crates/$crate/src" ]; then
            named=$((named + 1))
            grep -rqE "(fn|const|struct|enum|trait) ${cited#*::}\\b|^pub use [a-z_:]+::${cited#*::};" "crates/$crate/src" || fault "$page names $cited, and $crate has none"
        fi
    done
    # CRATE/EDIT
    for cited in $(grep -oE '`[a-z0-9_]+/[a-z0-9_]+`' "$page" | tr -d '`' | sort -u); do
        crate=${cited%%/*}
        if [ -d "crates/$crate/must-fail" ] && [ ! -e "crates/$cited" ]; then
            named=$((named + 1))
            [ -f "crates/$crate/must-fail/${cited#*/}.edit" ] || fault "$page names the edit $cited, and there is none"
        fi
    done
done
if [ "$named" -lt 300 ]; then
    fault "only $named names were found on the pages"
fi

# ---- the console's examples

# Each block marked `console` becomes N.in, what is typed, and N.out, what is answered. N.skip is the number of answers before its first line.
o=01100020201E7807002200120000000103000000001B0006000000002C040000
e=0710001C281800020000000120010DB8000000010000000000000001
examples=0
for page in README.md docs/CONSOLE.md; do
    folder=$out/$(basename "$page" .md)
    mkdir -p "$folder"
    awk -v folder="$folder" -v o="$o" -v e="$e" '
        /^```console/ {
            n++; typed = folder "/" n ".in"; answered = folder "/" n ".out"; skip = 0
            printf "" > typed; printf "" > answered
            if ($2 == "agreed" || $2 == "reported") { print "pcc " o > typed; print "pce " o > typed; skip += 2 }
            if ($2 == "reported") { print "report 7 3 " e > typed; skip++ }
            print skip > (folder "/" n ".skip")
            inside = 1; next
        }
        /^```/ { if (inside) { close(typed); close(answered) } inside = 0; next }
        inside && /^>/ { sub(/^> ?/, ""); print > typed; next }
        inside { print > answered }
    ' "$page"
    for typed in "$folder"/*.in; do
        example=${typed%.in}
        console < "$typed" | tail -n "+$(($(cat "$example.skip") + 1))" > "$example.told"
        diff "$example.out" "$example.told" > "$example.diff" || {
            cat "$typed" "$example.diff"
            fault "an example of $page answers otherwise"
        }
        examples=$((examples + 1))
    done
done
if [ "$examples" -lt 18 ]; then
    fault "only $examples examples were found"
fi

# Every command of the console has a row and an example.
for command in pcc pce ero rro ero-segment rro-segment begin add finish lent report remove compact body next mark board chain moved positions addresses; do
    grep -qE "^\| \`${command}[\` ]" docs/CONSOLE.md || fault "docs/CONSOLE.md has no row for $command"
    cat "$out"/CONSOLE/*.in | grep -qE "^$command( |\$)" || fault "docs/CONSOLE.md has no example of $command"
done

# ---- the dialogues of samples/: NAME.out has what NAME.txt is answered

dialogues=0
for typed in samples/*.txt; do
    name=$(basename "$typed" .txt)
    grep -qE "^\| $name\.txt \|" samples/README.md || fault "samples/README.md has no row for $typed"
    console < "$typed" > "$out/$name.told"
    diff "samples/$name.out" "$out/$name.told" || fault "$typed is answered otherwise"
    dialogues=$((dialogues + 1))
done
if [ "$dialogues" -lt 4 ]; then
    fault "only $dialogues dialogues were found"
fi

[ "$faults" = 0 ] || exit 1
echo "pages: $named names are there, $examples examples and $dialogues dialogues answer as they should"
