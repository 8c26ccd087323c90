#!/bin/sh
# Builds words.c in two ways, with its calls as jal and as pairs, and optimises each file for the text of words.c. Makes
# the same file step by step, by `profile`, `plan` and `rewrite`. Runs the old file and the new one on the same text, by
# qemu-riscv32 and by `halo run`, and compares their output and their statuses.
# Usage: compare_optimised.sh HALO, where HALO is the program halo.
# The status is 0 where they agree, or where the toolchain or qemu-riscv32 is missing, which it says.

LC_ALL=C
export LC_ALL
tools=riscv64-unknown-elf
flags="-march=rv32im -mabi=ilp32 -O1 -ffreestanding -fno-builtin -nostdlib -static -Wl,--emit-relocs"
area="--chunks 16 --log 6 --fallback 1024"

skip() {
    echo "skipped: $1"
    exit 0
}

fail() {
    echo "failed: $1"
    exit 1
}

[ $# -eq 1 ] || fail "usage: compare_optimised.sh HALO"
[ -x "$1" ] || fail "no program $1"
command -v "$tools-gcc" > /dev/null || skip "no $tools-gcc"
command -v qemu-riscv32 > /dev/null || skip "no qemu-riscv32"
halo=$1
here=$(dirname "$0")
made=$(mktemp -d) || fail "no directory for the files"
trap 'rm -rf "$made"' EXIT
input=$here/words.c

# run NAME FILE: FILE by both, whose output goes to FILE_output; sets `status`, and `steps` of halo run
run() {
    chmod +x "$2"
    qemu-riscv32 "$2" < "$input" > "$2_output"
    status=$?
    "$halo" run "$2" < "$input" > "$2_halo" 2> "$2_note" || fail "$1: $(cat "$2_note")"
    cmp -s "$2_output" "$2_halo" || fail "$1: the outputs by qemu-riscv32 and by halo run differ"
    steps=$(sed -n "s/^exit $status after \([0-9]*\) steps$/\1/p" "$2_note")
    [ -n "$steps" ] || fail "$1: status $status by qemu-riscv32, but $(cat "$2_note")"
}

# compare NAME FLAGS..: the build of that name
compare() {
    name=$1
    shift
    # shellcheck disable=SC2086
    "$tools-gcc" $flags "$@" "$here/start.s" "$here/words.c" -o "$made/words" || fail "$name: words.c isn't built"
    # shellcheck disable=SC2086
    "$halo" optimise $area "$made/words" < "$input" > "$made/new" || fail "$name: words isn't optimised"
    # shellcheck disable=SC2086
    "$halo" profile $area "$made/words" < "$input" > "$made/profile" || fail "$name: words isn't profiled"
    # shellcheck disable=SC2086
    "$halo" plan $area "$made/profile" > "$made/plan" || fail "$name: there is no plan"
    "$halo" rewrite "$made/plan" "$made/words" > "$made/same" || fail "$name: words isn't rewritten"
    cmp -s "$made/new" "$made/same" || fail "$name: the new files differ"
    run "$name, old" "$made/words"
    old_status=$status
    old_steps=$steps
    run "$name, new" "$made/new"
    cmp -s "$made/words_output" "$made/new_output" || fail "$name: the outputs differ"
    [ "$old_status" -eq "$status" ] || fail "$name: the statuses differ: $old_status and $status"
    echo "$name: $(grep -c '^context' "$made/profile") contexts, $(grep -c '^site' "$made/plan") sites and" \
        "$(grep -c '^row' "$made/plan") rows: $(wc -l < "$made/new_output") lines and status $status agree;" \
        "$old_steps and $steps steps"
}

compare relaxed
compare unrelaxed -mno-relax -Wl,--no-relax
