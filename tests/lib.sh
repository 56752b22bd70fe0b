# shellcheck shell=bash disable=SC2034
# What tests/run, bench/run and examples/run share. They source it with the repository's root as the current folder.
# Everything built goes below target/, which git ignores, but for what rt itself keeps in crates/CRATE/out.
built=target/tests
archives=target/staticlib
programs=target/bin

heading() { printf '\n== %s\n' "$1"; }

fail() {
    printf '%s\n' "$1" >&2
    exit 1
}

# run_parts PARTS [PART...]: calls run_PART for each part asked for; without one, for all of PARTS, a list in one word.
run_parts() {
    local part all
    read -ra all <<<"$1"
    shift
    [ $# -gt 0 ] || set -- "${all[@]}"
    for part; do
        [[ " ${all[*]} " == *" $part "* ]] || fail "$0: no part '$part'; the parts are ${all[*]}"
        "run_$part"
    done
}

# is_first NAME: whether this is the first time in a run that it is asked for. What is built, is built once.
declare -A asked=()
is_first() {
    local before=${asked[$1]-}
    asked[$1]=yes
    [ -z "$before" ]
}

# make_archive CRATE: the proved static library as target/staticlib/libCRATE.a, for C and Rust to link.
make_archive() { make_proved "archive of $1" "$1"; }

# make_program CRATE: the proved program as target/bin/CRATE.
make_program() { make_proved "program $1" "$1"; }

# make_proved WHAT CRATE: `rt ci` leaves neither archive nor program, so what tools/build proves and builds.
make_proved() {
    is_first "$1" || return 0
    heading "proved $1"
    tools/build "$2" || fail "tools/build $2 failed"
}

# rust SOURCE OUTPUT [WORD...]: compiles one Rust crate, release build, no crate from outside.
rust() {
    mkdir -p "$built"
    rustc --edition 2021 -C opt-level=3 "$1" -o "$2" -L "dependency=$built" "${@:3}"
}

# c SOURCE OUTPUT ARCHIVE [WORD...]: compiles one C program and links it with an archive.
c() {
    mkdir -p "$built"
    gcc -std=c11 -Wall -Wextra -Werror -O2 -g -Iinclude "$1" "$3" -o "$2" "${@:4}"
}

make_common() {
    is_first common || return 0
    rust tests/common/lib.rs "$built/libcommon.rlib" --crate-name common --crate-type rlib
}

make_oracle() {
    is_first oracle || return 0
    make_common
    rust tests/oracle/lib.rs "$built/liboracle.rlib" --crate-name oracle --crate-type rlib "${with_common[@]}"
    rust tests/oracle/main.rs "$built/oracle" --crate-name oracle_main "${with_oracle[@]}"
}

# The listing program without proofs, as a library and as a program.
make_plain_listing() {
    is_first plain_listing || return 0
    make_common
    rust bench/listing/lib.rs "$built/libplain_listing.rlib" --crate-name plain_listing --crate-type rlib \
        "${with_common[@]}"
    rust bench/listing/plain.rs "$built/plain_listing" --crate-name plain_listing_main "${with_plain_listing[@]}"
}

with_common=(--extern "common=$built/libcommon.rlib")
with_oracle=("${with_common[@]}" --extern "oracle=$built/liboracle.rlib")
with_plain_listing=("${with_common[@]}" --extern "plain_listing=$built/libplain_listing.rlib")
with_archives=(-L "native=$archives")
