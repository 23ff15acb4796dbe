#!/usr/bin/env python3
"""A job script with a programme text of so many bytes: bench/text.py 65536 > full.job"""
import sys

BLOCKS = b"N10 G90 G1 X12.5 Y-3.25 Z1\nROT RPL=30\nATRANS X1.5\nX10 Y20\nTRANS\n"
n = int(sys.argv[1])
sys.stdout.buffer.write(b"end scale 100 -50000000 50000000 -50000000 50000000 -50000000 50000000\nnew 100\nprogramme\n")
sys.stdout.buffer.write((BLOCKS * (n // len(BLOCKS) + 1))[:n])
