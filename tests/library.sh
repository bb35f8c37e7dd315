#!/bin/sh
# The library as others link it: the archive, the C header in every C and C++ that it is for, the Rust wrapper and its documentation, the
# examples, the fuzz target, and the proved code against the reference by each way of calling it.
#
#     tests/library.sh [SEED]
#
# The archive is for x86-64. On another machine it is linked by a compiler for x86-64, and what comes of it run by an emulator, if they are there:
# STRUNDEVI_CC, STRUNDEVI_CXX and STRUNDEVI_RUN name them, else they are Debian's (g++-x86-64-linux-gnu, qemu-user); RUSTC and RUSTDOC name a Rust
# that has the standard library of x86-64. STRUNDEVI_LIB names the folder of another library, such as that of tools/native, to be tested instead.
#
# Ends with a status other than 0 at the first thing that is otherwise than it should be. Nothing is fetched.
set -eu
cd "$(dirname "$0")/.."
seed=${1:-1}
out=$PWD/target/library
archive=${STRUNDEVI_LIB:-target/staticlib}/libstrundevi.a
target=x86_64-unknown-linux-gnu
bin=$PWD/rust/target/release
mkdir -p "$out"

# Runs a command and shows what it wrote only if it fails.
quietly() {
    "$@" > "$out/log" 2>&1 || { cat "$out/log"; exit 1; }
}

in_rust() {
    quietly cargo "$@" --release --offline --manifest-path rust/Cargo.toml
}

warnings="-pedantic -Wall -Wextra -Wshadow -Wconversion -Wsign-conversion -Wundef -Wcast-qual -Werror"

if [ -z "${STRUNDEVI_LIB:-}" ]; then
    # STRUNDEVI_OVER=ci: over what rt ci has just proved (.ci/run)
    # shellcheck disable=SC2086
    quietly tools/archive ${STRUNDEVI_OVER:-}
else
    echo "library: tested is $archive, which need not be what was proved"
fi

# Of the C library it asks for no more than this.
others=$(nm -u "$archive" | awk '$1 == "U" && $2 !~ /^(memcpy|memmove|memset|memcmp|bcmp)$/ { print $2 }')
[ -z "$others" ] || { echo "library: the archive asks for $others"; exit 1; }

# ---- who compiles for x86-64, or for another library's machine, and runs what comes of it

echo 'int main(void) { return 0; }' > "$out/probe.c"
echo 'fn main() { println!("runs") }' > "$out/probe.rs"

compiles() {
    cc=$1 cxx=$2 run=$3
    [ -n "${STRUNDEVI_LIB:-}" ] || $cc -dumpmachine | grep ^x86_64 || return 1
    $cc "$out/probe.c" -o "$out/probe" && $run "$out/probe"
} > /dev/null 2>&1

rust_compiles() {
    [ -z "$run" ] || { ${RUSTC:-rustc} --target $target -C linker="$cc" "$out/probe.rs" -o "$out/probe" && $run "$out/probe"; }
} > /dev/null 2>&1

c=yes rust=yes
compiles "${STRUNDEVI_CC:-cc}" "${STRUNDEVI_CXX:-c++}" "${STRUNDEVI_RUN:-}" ||
    compiles x86_64-linux-gnu-gcc x86_64-linux-gnu-g++ "qemu-x86_64 -L /usr/x86_64-linux-gnu" || c=no
[ $c = yes ] && rust_compiles || rust=no

# ---- C

if [ $c = yes ]; then
    for standard in c99 c11 c17; do
        quietly $cc -std=$standard $warnings -Wstrict-prototypes -O2 -I include tests/header.c "$archive" -o "$out/header"
        quietly $run "$out/header"
    done
    if command -v "$cxx" > /dev/null; then
        for standard in c++11 c++14 c++17 c++20; do
            quietly $cxx -std=$standard $warnings -Wold-style-cast -O2 -I include -x c++ tests/header.c -x none "$archive" -o "$out/header"
            quietly $run "$out/header"
        done
    fi
    for name in tests/boundary examples/route examples/mpls examples/follow; do
        quietly $cc -std=c99 -pedantic -Wall -Wextra -Werror -O2 -I include "$name.c" "$archive" -o "$out/$(basename "$name")"
    done
    $run "$out/boundary"
    for name in route mpls follow; do
        $run "$out/$name" | diff - "examples/$name.out"
    done
    echo "library: the header, the C examples and the border in C are as they should be${run:+, run by $run}"

    echo 'int LLVMFuzzerTestOneInput(const unsigned char *data, unsigned long size) { return data == 0 && size == 1; }' > "$out/fuzzer.c"
    if [ -z "$run" ] && clang -fsanitize=fuzzer,address "$out/fuzzer.c" -o "$out/fuzzer" > /dev/null 2>&1; then
        rm -rf "$out/corpus"
        mkdir "$out/corpus"
        quietly clang -g -O1 -Wall -Wextra -Werror -fsanitize=fuzzer,address -I include fuzz/objects.c "$archive" -o "$out/fuzz-objects"
        quietly "$out/fuzz-objects" -seed="$seed" -runs=100000 -artifact_prefix="$out/" "$out/corpus" samples
        echo "library: the fuzz target found nothing"
    else
        quietly $cc -std=c99 -pedantic -Wall -Wextra -Werror -O2 -I include fuzz/objects.c fuzz/stored.c "$archive" -o "$out/fuzz-stored"
        quietly $run "$out/fuzz-stored" samples/*.bin samples/mpls/*.bin
        echo "library: without libFuzzer, the fuzz target found nothing in the samples, cut short anywhere and with any bit turned"
    fi
else
    for standard in c99 c11 c17; do
        for name in tests/header tests/boundary examples/route examples/mpls examples/follow; do
            quietly cc -std=$standard $warnings -Wstrict-prototypes -fsyntax-only -I include "$name.c"
        done
    done
    echo "library: nothing here compiles for x86-64 and runs it: the header, the C examples and the border in C were read, and not run"
fi

# ---- Rust

if [ $rust = no ]; then
    in_rust build --package reference
    in_rust test --package reference
    in_rust check --workspace --examples --bins
    tests/pages.sh
    echo "library: nothing here compiles Rust for x86-64 and runs it: wrapper, examples, program and differential test were read, and not run"
    exit 0
fi

if [ -n "$run" ]; then
    # Each program is stood for by a script that has it run by the emulator.
    export CARGO_BUILD_TARGET=$target CARGO_TARGET_X86_64_UNKNOWN_LINUX_GNU_RUNNER="$run" CARGO_TARGET_X86_64_UNKNOWN_LINUX_GNU_LINKER="$cc" CC="$cc"
    bin=$out/bin
    mkdir -p "$bin/examples"
    for name in differ strundevi reference-console reference-checker examples/route examples/mpls examples/follow; do
        printf '#!/bin/sh\nexec %s "%s" "$@"\n' "$run" "$PWD/rust/target/$target/release/$name" > "$bin/$name"
        chmod +x "$bin/$name"
    done
fi

in_rust build --workspace --examples --bins
in_rust test --package reference --package strundevi
for name in route mpls follow; do
    "$bin/examples/$name" | diff - "rust/strundevi/examples/$name.out"
done
echo "library: the Rust examples, the wrapper's documentation and the reference are as they should be${run:+, run by $run}"

"$bin/differ" "$seed" ${run:+100000 60000}
STRUNDEVI_BIN=$bin tests/pages.sh
STRUNDEVI_BIN=$bin tests/program.sh
