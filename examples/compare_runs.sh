#!/bin/sh
# Builds kinds.c in two ways, with its calls as jal and as pairs, rewrites each file under a plan with up to 32
# of its sites, and compares what qemu-riscv32 makes of the old and the new file: their output and their
# statuses. Usage: compare_runs.sh HALO, where HALO is the program halo.
# The status is 0 where they agree, or where the toolchain or qemu-riscv32 is missing, which it says.

LC_ALL=C
export LC_ALL
tools=riscv64-unknown-elf
flags="-march=rv32im -mabi=ilp32 -O1 -ffreestanding -fno-builtin -nostdlib -static -Wl,--emit-relocs"

skip() {
    echo "skipped: $1"
    exit 0
}

fail() {
    echo "failed: $1"
    exit 1
}

[ $# -eq 1 ] || fail "usage: compare_runs.sh HALO"
[ -x "$1" ] || fail "no program $1"
command -v "$tools-gcc" > /dev/null || skip "no $tools-gcc"
command -v qemu-riscv32 > /dev/null || skip "no qemu-riscv32"
halo=$1
here=$(dirname "$0")
made=$(mktemp -d) || fail "no directory for the files"
trap 'rm -rf "$made"' EXIT

printf '\001\002\003\004\377\376\375\374\000\000\000\200\377\377\377\377\007\000\000\000\000\000\000\000' > "$made/input"

# compare NAME KIND FLAGS..: the build of that name, whose sites are of that kind
compare() {
    name=$1
    kind=$2
    shift 2
    # shellcheck disable=SC2086
    "$tools-gcc" $flags "$@" "$here/start.s" "$here/kinds.c" -o "$made/kinds" || fail "$name: kinds.c isn't built"
    "$halo" show "$made/kinds" > "$made/summary" || fail "$name: kinds isn't shown"
    awk -v kind="$kind" '
        $1 == "site" && $2 == kind && $5 == "near" && bit < 32 { lines = lines "site " bit++ " " $3 "\n" }
        END { printf "halo-plan 1\narea 0 0 0\n%send\n", lines }' "$made/summary" > "$made/plan"
    grep -q '^site' "$made/plan" || fail "$name: no $kind sites"
    "$halo" rewrite "$made/plan" "$made/kinds" > "$made/new" || fail "$name: kinds isn't rewritten"
    chmod +x "$made/new"
    qemu-riscv32 "$made/kinds" < "$made/input" > "$made/old_output"
    old_status=$?
    qemu-riscv32 "$made/new" < "$made/input" > "$made/new_output"
    new_status=$?
    cmp -s "$made/old_output" "$made/new_output" || fail "$name: the outputs differ"
    [ "$old_status" -eq "$new_status" ] || fail "$name: the statuses differ: $old_status and $new_status"
    chosen=$(grep -c '^site' "$made/plan")
    echo "$name: $chosen chosen $kind sites: $(wc -l < "$made/new_output") lines and status $new_status agree"
}

compare relaxed jal
compare unrelaxed pair -mno-relax -Wl,--no-relax
