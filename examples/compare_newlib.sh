#!/bin/sh
# Builds cards.c over newlib in two ways, with its calls as jal and as pairs, and optimises each file for the text of
# cards.c. Runs the old file and the new one on the same text, by qemu-riscv32 and by `halo run`, and compares their
# output and their statuses.
# Usage: NEWLIB=DIR compare_newlib.sh HALO, where HALO is the program halo, and DIR has newlib's include and lib, built
# for rv32im.
# The status is 0 where they agree, or where the toolchain, qemu-riscv32 or NEWLIB is missing, which it says.

LC_ALL=C
export LC_ALL
tools=riscv64-unknown-elf
flags="-march=rv32im -mabi=ilp32 -O1 -static -Wl,--emit-relocs"
area="--chunks 16 --log 6 --fallback 1024"

skip() {
    echo "skipped: $1"
    exit 0
}

fail() {
    echo "failed: $1"
    exit 1
}

[ $# -eq 1 ] || fail "usage: NEWLIB=DIR compare_newlib.sh HALO"
[ -x "$1" ] || fail "no program $1"
command -v "$tools-gcc" > /dev/null || skip "no $tools-gcc"
command -v qemu-riscv32 > /dev/null || skip "no qemu-riscv32"
[ -n "$NEWLIB" ] || skip "no NEWLIB"
for part in include/stdio.h lib/crt0.o lib/libc.a lib/libgloss.a; do
    [ -f "$NEWLIB/$part" ] || fail "no newlib in $NEWLIB: there is no $NEWLIB/$part"
done
halo=$1
here=$(dirname "$0")
made=$(mktemp -d) || fail "no directory for the files"
trap 'rm -rf "$made"' EXIT
input=$here/cards.c

# run NAME FILE: FILE by both, whose output goes to FILE_output; sets `status`, and `steps` of halo run
run() {
    chmod +x "$2"
    qemu-riscv32 "$2" < "$input" > "$2_output"
    status=$?
    "$halo" run "$2" < "$input" > "$2_halo" 2> "$2_note" || fail "$1: $(cat "$2_note")"
    cmp -s "$2_output" "$2_halo" || fail "$1: the outputs by qemu-riscv32 and by halo run differ"
    steps=$(sed -n "s/^exit $status after \([0-9]*\) steps$/\1/p" "$2_note")
    [ -n "$steps" ] || fail "$1: status $status by qemu-riscv32, but $(cat "$2_note")"
}

# compare NAME FLAGS..: the build of that name
compare() {
    name=$1
    shift
    # shellcheck disable=SC2086
    "$tools-gcc" $flags "$@" -isystem "$NEWLIB/include" -B"$NEWLIB/lib/" -L"$NEWLIB/lib" "$here/cards.c" \
        -o "$made/cards" || fail "$name: cards.c isn't built"
    # shellcheck disable=SC2086
    "$halo" optimise $area "$made/cards" < "$input" > "$made/new" || fail "$name: cards isn't optimised"
    # shellcheck disable=SC2086
    "$halo" profile $area "$made/cards" < "$input" > "$made/profile" || fail "$name: cards isn't profiled"
    # shellcheck disable=SC2086
    "$halo" plan $area "$made/profile" > "$made/plan" || fail "$name: there is no plan"
    run "$name, old" "$made/cards"
    old_status=$status
    old_steps=$steps
    run "$name, new" "$made/new"
    cmp -s "$made/cards_output" "$made/new_output" || fail "$name: the outputs differ"
    [ "$old_status" -eq "$status" ] || fail "$name: the statuses differ: $old_status and $status"
    echo "$name: $(grep -c '^context' "$made/profile") contexts, $(grep -c '^site' "$made/plan") sites and" \
        "$(grep -c '^row' "$made/plan") rows: $(wc -l < "$made/new_output") lines and status $status agree;" \
        "$old_steps and $steps steps"
}

compare relaxed
compare unrelaxed -mno-relax -Wl,--no-relax
