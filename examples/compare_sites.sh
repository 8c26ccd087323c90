#!/bin/sh
# Builds count.c in three ways and compares the call sites that `halo show` prints with those of
# `objdump -dr`. Usage: compare_sites.sh HALO, where HALO is the program halo. The status is 0 where they
# agree, or where the toolchain is missing, which it says; a wrong path of HALO is a failure.

LC_ALL=C
export LC_ALL
tools=riscv64-unknown-elf
flags="-march=rv32im -mabi=ilp32 -O1 -ffreestanding -fno-builtin -nostdlib -static"
link="-Wl,--emit-relocs"

skip() {
    echo "skipped: $1"
    exit 0
}

# The sites in a listing: each `jal ra` with a JAL entry, each `auipc ra` and `jalr ra` with a CALL or
# CALL_PLT entry, as 'site KIND ADDR TARGET'.
listed_sites() {
    "$tools-objdump" -dr -M no-aliases,numeric "$1" | awk '
        function word(text) {
            return substr("00000000" text, length(text) + 1)
        }
        $1 ~ /^[0-9a-f]+:$/ && length($2) == 8 && $2 ~ /^[0-9a-f]+$/ {
            place = substr($1, 1, length($1) - 1)
            if (call && $3 == "jalr" && $4 ~ /^x1,.*\(x1\)$/ && $5 == "#")
                print "site pair " word(call) " " word($6)
            call = ""
            pair = $3 == "auipc" && $4 ~ /^x1,/
            jump = $3 == "jal" && $4 ~ /^x1,/ ? substr($4, 4) : ""
        }
        $1 == place ":" && $2 == "R_RISCV_JAL" && jump {
            print "site jal " word(place) " " word(jump)
        }
        $1 == place ":" && $2 ~ /^R_RISCV_CALL(_PLT)?$/ && pair {
            call = place
        }' | sort -k 3
}

compare() {
    "$tools-gcc" $flags $link $2 start.s count.c -o "$folder/$1" || exit 1
    "$halo" show "$folder/$1" > "$folder/shown" || exit 1
    grep '^site ' "$folder/shown" | cut -d ' ' -f 1-4 > "$folder/shown_sites"
    listed_sites "$folder/$1" > "$folder/listed_sites"
    if [ ! -s "$folder/listed_sites" ] || ! diff "$folder/listed_sites" "$folder/shown_sites"; then
        echo "$1: the sites differ"
        exit 1
    fi
    jals=$(grep -c '^site jal' "$folder/shown")
    pairs=$(grep -c '^site pair' "$folder/shown")
    echo "$1: $jals jal sites and $pairs pair sites agree"
}

if [ ! -f "${1:-}" ] || [ ! -x "$1" ]; then
    echo "no program at '${1:-}'; usage: compare_sites.sh HALO" >&2
    exit 1
fi
halo=$(cd "$(dirname "$1")" && pwd)/$(basename "$1")
for tool in gcc objdump; do
    command -v "$tools-$tool" > /dev/null || skip "no $tools-$tool"
done
cd "$(dirname "$0")" || exit 1
folder=$(mktemp -d) || exit 1
trap 'rm -rf "$folder"' EXIT
compare relaxed ""
compare far "-Wl,--section-start=.far=0x400000"
compare unrelaxed "-mno-relax -Wl,--no-relax"
