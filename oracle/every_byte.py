#!/usr/bin/env python3
"""What the program `every_byte` must write, by Python's own reading: python3 oracle/every_byte.py > crates/every_byte/stdout

Each byte stands at each place of three words; where all 16 characters are digits 0-9a-f, the word is read, and both texts accepted."""
import re

for place in range(16):
    for word in b"0123456789abcdef", b"9a9a9a9a9a9a9a9a", b"f00ff00ff00ff00f":
        for byte in range(256):
            tried = word[:place] + bytes([byte]) + word[place + 1 :]
            if re.fullmatch(rb"[0-9a-f]{16}", tried):
                print(f"{int(tried, 16):016x} budget frame")
