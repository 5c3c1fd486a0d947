#!/usr/bin/env bash
# Counts the instructions of reading 65,536 bytes of text with 700 distinct names, and with one name,
# by callgrind. Run by hand from the root, after `rt run < stdin` in crates/trace: the counts are noted in docs/PROOFS.md.
set -eu
work=$(mktemp -d)
trap 'rm -r "$work"' EXIT
# so many distinct names of three to eight letters, over and over, 64 bytes or less a line
text() {
    awk -v names="$1" 'BEGIN {
        size = 0; i = 0
        while (1) {
            n = i % names; s = "\\"
            for (k = 0; k < 3 + n % 6; k++) { s = s sprintf("%c", 97 + (n + k * 7) % 26); n = int(n / 26) + k }
            s = s " "
            if (size + length(s) + 1 > 65536) break
            printf "%s", s; size += length(s); i++
            if (i % 7 == 0) { printf "\n"; size++ }
        }
    }'
}
for names in 1 700; do
    text "$names" > "$work/text"
    valgrind --tool=callgrind --callgrind-out-file="$work/out" crates/trace/out/trace < "$work/text" > "$work/trace" 2> "$work/log"
    printf '%s names: %s bytes, %s distinct, %s tokens, ' "$names" "$(wc -c < "$work/text")" "$(grep -o '^0000[0-9a-f]*' "$work/trace" | sort -u | wc -l)" "$(wc -l < "$work/trace")"
    grep -o 'Collected : [0-9]*' "$work/log"
done
