#!/usr/bin/env bash
# Compares with GNU as and ld what the tests of the encodings and of the assembler expect: the word in each row of the
# instruction table, and the bytes of the small program. The lines of assembly stand in their comments.
# Where the tools are missing, it says so and ends with 0.
set -euo pipefail
cd "$(dirname "$0")/../.."

. tests/outside/needs.sh
needs "package binutils-riscv64-linux-gnu" "$tools-as" "$tools-ld" "$tools-objcopy"

# assembles NAME.s, links it at 0x10000 and writes its bytes into NAME.bin
assemble() {
    "$tools-as" -march=rv64im -mno-relax -o "$folder/$1.o" "$folder/$1.s"
    "$tools-ld" --no-relax -Ttext=0x10000 -e 0 -o "$folder/$1.elf" "$folder/$1.o"
    "$tools-objcopy" -O binary -j .text "$folder/$1.elf" "$folder/$1.bin"
}

# one word each line, from rows like '(Op::Ecall, [0, 0, 0], 0, 0x00000073), // ecall'
instructions() {
    local table=crates/machine_tests/src/words.rt rows mnemonics
    sed -nE 's|^ *\(Op::.*, 0x([0-9a-f]{8})\), // (.*)$|\1 \2|p' "$table" > "$folder/rows"
    rows=$(wc -l < "$folder/rows")
    mnemonics=$(sed -n '/^pub enum Op/,/^}/p' crates/rv_isa/src/table.rt | grep -cE '^ +[A-Z][a-z]+,$')
    if [ "$rows" -ne "$mnemonics" ]; then
        echo "$table has $rows rows that were read, and $mnemonics mnemonics"
        return 1
    fi
    cut -d' ' -f1 "$folder/rows" > "$folder/expected"
    cut -d' ' -f2- "$folder/rows" > "$folder/instructions.s"
    assemble instructions
    od -An -v -tx4 -w4 --endian=little "$folder/instructions.bin" | tr -d ' ' > "$folder/made"
    diff "$folder/expected" "$folder/made"
    echo "instructions: $rows words agree"
}

# the bytes of the constant BYTES, each line of them behind its line of assembly
program() {
    local table=crates/machine_tests/src/assembly.rt
    sed -n '/^const BYTES/,/^\];/p' "$table" > "$folder/block"
    sed -nE 's|^ *// (.*)$|\1|p' "$folder/block" > "$folder/program.s"
    grep -oE '0x[0-9a-f]{2},' "$folder/block" | tr -d 'x,' | cut -c2- > "$folder/expected"
    assemble program
    od -An -v -tx1 -w1 "$folder/program.bin" | tr -d ' ' > "$folder/made"
    diff "$folder/expected" "$folder/made"
    echo "program: $(wc -l < "$folder/made") bytes agree"
}

instructions
program
