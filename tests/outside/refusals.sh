#!/usr/bin/env bash
# Runs the program on files that are refused, one or more for each cause, and compares the line. Not part of the gate,
# as some of the files are long.
set -euo pipefail
cd "$(dirname "$0")/../.."
folder=$(mktemp -d)
trap 'rm -rf "$folder"' EXIT
smlc=$PWD/smlc
failed=0

# the file is refused with this place, number and word
refused() {
    local line
    line=$(cd "$folder" && "$smlc" run f.sml 2>&1 > /dev/null) || true
    if [ "$line" != "f.sml:$1" ]; then
        echo "wanted f.sml:$1"
        echo "got    $line"
        failed=1
    fi
}

# so many copies of a text
times() {
    printf "%0.s$2" $(seq "$1")
}

# a file, where \n is a newline, and its refusal
while IFS='|' read -r line text; do
    printf "$text" > "$folder/f.sml"
    refused "$line"
done <<'CASES'
1:10: refused 1 BadToken|val x = ?\x01
1:9: refused 1 BadToken|val x = "\\q"
1:9: refused 1 BadToken|val x = #"ab"
1:1: refused 2 Unclosed|(* a (* b *)
1:9: refused 2 Unclosed|val x = "a
1:9: refused 3 LiteralRange|val x = 4611686018427387904
1:5: refused 4 Syntax|val = 1
1:17: refused 4 Syntax|val _ = print (1
2:9: refused 4 Syntax|fun f 0 = 1\nfun g 5 end
3:16: refused 5 MixedFixity|infix 5 **\ninfixr 5 ++\nval x = 1 ** 2 ++ 3
1:1: refused 6 NotInSubset structure|structure S = struct end
1:9: refused 6 NotInSubset real|val x = 1.5
1:9: refused 6 NotInSubset word|val x = 0w1
1:14: refused 6 NotInSubset datatype|datatype t = datatype u
1:9: refused 10 Unbound|val x = y
1:9: refused 10 Unbound|val x : t = 1
1:15: refused 10 Unbound|fun f x = (x, y)
1:9: refused 11 BadBinding|val (x, x) = (1, 2)
1:5: refused 11 BadBinding|fun true x = 1
1:15: refused 11 BadBinding|fun f 0 = 1 | f 1 2 = 3
1:13: refused 11 BadBinding|val rec f = 1
1:18: refused 11 BadBinding|datatype t = A | A
1:10: refused 11 BadBinding|type t = 'a
CASES

{ printf 'val _ = '; times 1023 '('; printf 0; times 1023 ')'; } > "$folder/f.sml"
refused '1:1: refused 8 TooDeep'
{ printf 'val _ = '; times 1000000 '('; } > "$folder/f.sml"
refused '1:1000009: refused 4 Syntax'
names=$(seq -s ', ' -f 'a%g' 0 2999)
printf 'fun f (%s) = (%s)' "$names" "$names" > "$folder/f.sml"
refused '1:1: refused 9 TooWide'
times 1048577 ' ' > "$folder/f.sml"
refused '1:1: refused 7 TooLong'

[ "$failed" = 0 ] && echo "all files are refused as they should be"
exit "$failed"
