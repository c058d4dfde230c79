#!/usr/bin/env python3
"""Has a module for x86-64 compiled for wasm64: both have little endian words, pointers of 64 bits, and the same sizes and
alignments of every type here.

usage: retarget.py FROM.ll TO.ll
"""
import re
import sys

LAYOUT = 'e-m:e-p:64:64-p10:8:8-p20:8:8-i64:64-i128:128-n32:64-S128-ni:1:10:20'
OF_X86 = re.compile(r'"(probe-stack|stack-probe-size|target-cpu|target-features|tune-cpu|frame-pointer)"(="[^"]*")?')


def main():
    if len(sys.argv) != 3:
        sys.exit('usage: retarget.py FROM.ll TO.ll')
    with open(sys.argv[1], encoding='utf-8') as lines, open(sys.argv[2], 'w', encoding='utf-8') as out:
        for line in lines:
            if line.startswith('target datalayout'):
                line = 'target datalayout = "%s"\n' % LAYOUT
            elif line.startswith('target triple'):
                line = 'target triple = "wasm64-unknown-unknown"\n'
            elif line.startswith('attributes #'):
                line = re.sub(r'\{\s*\}', '{ nounwind }', OF_X86.sub('', line))
            out.write(line)


main()
