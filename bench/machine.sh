#!/usr/bin/env bash
# Measures the machine: a loop of 50 million simple instructions against the same loop run natively, and how long
# a program with 64 MiB of memory takes to start. It needs GNU as and ld for RISC-V, and a C compiler.
set -euo pipefail
cd "$(dirname "$0")/.."

. tests/outside/needs.sh
needs "packages binutils-riscv64-linux-gnu, gcc and bc" "$tools-as" "$tools-ld" cc bc

# assembles and links NAME.s to NAME
link() {
    "$tools-as" -march=rv64im -mno-relax -o "$folder/$1.o" "$folder/$1.s"
    "$tools-ld" --no-relax -z norelro --build-id=none -o "$folder/$1" "$folder/$1.o"
}

# the least seconds that a command took in five runs, on the clock and of the processor: other work on the machine slows the clock's most
seconds() {
    local TIMEFORMAT='%R %U %S' run
    rm -f "$folder/times"
    for run in 1 2 3 4 5; do
        { time "$@" > /dev/null 2> "$folder/complaint"; } 2>> "$folder/times" || { cat "$folder/complaint" >&2; return 1; }
    done
    echo "$(cut -d ' ' -f 1 "$folder/times" | sort -n | head -1) $(awk '{ print $2 + $3 }' "$folder/times" | sort -n | head -1)"
}

cat > "$folder/loop.s" << 'END'
    .globl _start
_start:
    li t0, 10000000
turn:
    addi t0, t0, -1
    add t1, t1, t0
    xor t2, t2, t1
    slli t3, t2, 1
    bne t0, zero, turn
    li a0, 0
    li a7, 93
    ecall
END
cat > "$folder/loop.c" << 'END'
int main(void) {
    unsigned long t0 = 10000000, t1 = 0, t2 = 0, t3 = 0;
    do {
        __asm__ volatile("" : "+r"(t0), "+r"(t1), "+r"(t2), "+r"(t3));
        t0 -= 1;
        t1 += t0;
        t2 ^= t1;
        t3 = t2 << 1;
    } while (t0 != 0);
    __asm__ volatile("" : : "r"(t3));
    return 0;
}
END
cat > "$folder/large.s" << 'END'
    .globl _start
_start:
    li a0, 0
    li a7, 93
    ecall
    .bss
    .space 67108864
END
link loop
link large
cc -O1 -o "$folder/native" "$folder/loop.c"

./smlc exec "$folder/loop" > /dev/null 2>&1 || true # so that it is built
program=crates/smlc/out/smlc # the script `smlc` also looks whether a source has changed
machine=$(seconds "$program" exec "$folder/loop")
native=$(seconds "$folder/native")
large=$(seconds "$program" exec "$folder/large")
echo "50 million instructions: ${machine% *} s on the clock, ${machine#* } s of the processor; native ${native% *} s and ${native#* } s"
echo "a second: $(echo "50 / ${machine% *}" | bc) million instructions on the clock, $(echo "50 / ${machine#* }" | bc) million of the processor"
echo "ratio to native: $(echo "${machine% *} / ${native% *}" | bc) on the clock, $(echo "${machine#* } / ${native#* }" | bc) of the processor"
echo "a program with 64 MiB: ${large% *} s on the clock, ${large#* } s of the processor"
