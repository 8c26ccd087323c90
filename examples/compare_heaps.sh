#!/bin/sh
# Builds words.c in two ways, with its calls as jal and as pairs, and rewrites each file under a plan that chooses
# the two calls of `claim` and gives each a group of its own. Runs the old file and the new one on the text of
# words.c, by qemu-riscv32 and by `halo run`, and compares their output and their statuses.
# Usage: compare_heaps.sh HALO, where HALO is the program halo.
# The status is 0 where they agree, or where the toolchain or qemu-riscv32 is missing, which it says.

LC_ALL=C
export LC_ALL
tools=riscv64-unknown-elf
flags="-march=rv32im -mabi=ilp32 -O1 -ffreestanding -fno-builtin -nostdlib -static -Wl,--emit-relocs"

skip() {
    echo "skipped: $1"
    exit 0
}

fail() {
    echo "failed: $1"
    exit 1
}

[ $# -eq 1 ] || fail "usage: compare_heaps.sh HALO"
[ -x "$1" ] || fail "no program $1"
command -v "$tools-gcc" > /dev/null || skip "no $tools-gcc"
command -v "$tools-nm" > /dev/null || skip "no $tools-nm"
command -v qemu-riscv32 > /dev/null || skip "no qemu-riscv32"
halo=$1
here=$(dirname "$0")
made=$(mktemp -d) || fail "no directory for the files"
trap 'rm -rf "$made"' EXIT
input=$here/words.c

# run NAME FILE: FILE by both, whose output goes to FILE_output; sets `status`, and `steps` of halo run
run() {
    chmod +x "$2"
    qemu-riscv32 "$2" < "$input" > "$2_output"
    status=$?
    "$halo" run "$2" < "$input" > "$2_halo" 2> "$2_note" || fail "$1: $(cat "$2_note")"
    cmp -s "$2_output" "$2_halo" || fail "$1: the outputs by qemu-riscv32 and by halo run differ"
    steps=$(sed -n "s/^exit $status after \([0-9]*\) steps$/\1/p" "$2_note")
    [ -n "$steps" ] || fail "$1: status $status by qemu-riscv32, but $(cat "$2_note")"
}

# compare NAME KIND FLAGS..: the build of that name, whose sites are of that kind
compare() {
    name=$1
    kind=$2
    shift 2
    # shellcheck disable=SC2086
    "$tools-gcc" $flags "$@" "$here/start.s" "$here/words.c" -o "$made/words" || fail "$name: words.c isn't built"
    "$halo" show "$made/words" > "$made/summary" || fail "$name: words isn't shown"
    claim=$("$tools-nm" "$made/words" | sed -n 's/^\([0-9a-f]*\) t claim$/\1/p')
    awk -v kind="$kind" -v claim="$claim" '
        $1 == "site" && $2 == kind && $4 == claim && $5 == "near" {
            sites = sites sprintf("site %d %s\n", bit, $3)
            rows = rows sprintf("row %d %08x\n", bit, 2 ^ bit)
            bit++
        }
        END { printf "halo-plan 1\narea 16 6 1024\n%s%send\n", sites, rows }' "$made/summary" > "$made/plan"
    [ "$(grep -c '^site' "$made/plan")" -eq 2 ] || fail "$name: there aren't two $kind sites that call claim"
    "$halo" rewrite "$made/plan" "$made/words" > "$made/new" || fail "$name: words isn't rewritten"
    run "$name, old" "$made/words"
    old_status=$status
    old_steps=$steps
    run "$name, new" "$made/new"
    cmp -s "$made/words_output" "$made/new_output" || fail "$name: the outputs differ"
    [ "$old_status" -eq "$status" ] || fail "$name: the statuses differ: $old_status and $status"
    echo "$name: 2 chosen $kind sites: $(wc -l < "$made/new_output") lines and status $status agree;" \
        "$old_steps and $steps steps"
}

compare relaxed jal
compare unrelaxed pair -mno-relax -Wl,--no-relax
