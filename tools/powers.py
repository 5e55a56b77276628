#!/usr/bin/env python3
"""Prints a table of crates/powers/src by document 01 ("Domains"): of the 4,096 powers of ω in field 2, the first 1 and each next the one before times the ω of
n0 = 4096, every (4096/n0)-th, for the n0 given. table.rt is that of 4096, which is all of them, and few.rt that of 256."""

import sys

PRIME = 2013265921
GENERATOR = 31
SIZE = 4096
WIDTH = 99
n0 = int(sys.argv[1])

root = pow(GENERATOR, (PRIME - 1) // SIZE, PRIME)
powers = [1]
while len(powers) < SIZE:
    powers.append(powers[-1] * root % PRIME)
taken = powers[:: SIZE // n0]

step = "The" if n0 == SIZE else f"Every {SIZE // n0}th of the"
print(f"// {step} {SIZE} powers of {root}, modulo {PRIME}. Written by tools/powers.py {n0}.")
print(f"pub const POWERS: [u32; {n0}] = [")
# rt fmt has as many in a line as fit
line = "   "
for power in taken:
    if len(line) + len(f" {power},") > WIDTH:
        print(line)
        line = "   "
    line += f" {power},"
print(line)
print("];")
