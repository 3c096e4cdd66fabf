#!/bin/sh
# Prints the offsets of the basic blocks of a shared library in order, each with a comma: the targets of jumps, and what
# follows a jump or a return, other than padding. Each is the start of an instruction, so an offset too many does no harm.
#
#     fuzz_blocks.sh LIBRARY.so
objdump --disassemble --section=.text --no-show-raw-insn --wide "$1" | awk '
    function print_offset(hex) {
        hex = sprintf("%8s", hex)
        gsub(/ /, "0", hex)
        print "0x" hex ","
    }
    !/^ *[0-9a-f]+:\t/ { next }
    {
        sub(/:/, "", $1)
        # Prefixes are words of their own.
        for (at = 2; $at ~ /^(bnd|notrack|data16|cs|ds|lock|rep.*)$/; at++);
    }
    follows && $at !~ /^(nop|int3|xchg)/ { print_offset($1); follows = 0 }
    $at ~ /^j/ && $(at + 1) ~ /^[0-9a-f]+$/ && !/@plt/ { print_offset($(at + 1)) }
    $at ~ /^(j|ret|ud2)/ { follows = 1 }
' | sort -u
