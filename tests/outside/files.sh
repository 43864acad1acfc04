#!/usr/bin/env bash
# Compiles the examples, lets readelf and objdump of GNU binutils read the files, and compares what they print
# with a user-mode emulator where one is there. Where a tool is missing, it says so and goes on without it.
set -euo pipefail
cd "$(dirname "$0")/../.."

folder=$(mktemp -d)
trap 'rm -rf "$folder"' EXIT

# fails where a tool ends badly or complains
without_complaint() {
    if ! "$@" > "$folder/said" 2> "$folder/complaint" || [ -s "$folder/complaint" ] || grep -qi "warning\|error" "$folder/said"; then
        echo "failed: $*"
        cat "$folder/complaint"
        exit 1
    fi
}

for example in examples/*.sml; do
    file=$folder/$(basename "$example" .sml)
    ./smlc compile "$example" -o "$file"
    ./smlc run "$example" > "$folder/expected"
    ./smlc exec "$file" > "$folder/printed" 2> "$folder/status"
    cmp "$folder/expected" "$folder/printed"
    grep -qx "exit 0" "$folder/status"
    for tool in riscv64-linux-gnu-readelf riscv64-linux-gnu-objdump; do
        if ! command -v "$tool" > /dev/null; then
            echo "skipped: no $tool (package binutils-riscv64-linux-gnu)"
        elif [ "$tool" = riscv64-linux-gnu-readelf ]; then
            without_complaint "$tool" -a "$file"
        else
            without_complaint "$tool" -d "$file"
        fi
    done
    emulator=$(command -v qemu-riscv64 || command -v qemu-riscv64-static || true)
    if [ -n "$emulator" ]; then
        chmod +x "$file"
        "$emulator" "$file" > "$folder/printed"
        cmp "$folder/expected" "$folder/printed"
    else
        echo "skipped: no qemu-riscv64 (package qemu-user-static)"
    fi
    echo "$example: the same"
done
