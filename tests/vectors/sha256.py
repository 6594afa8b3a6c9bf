#!/usr/bin/env python3
"""Writes crates/sha256_vectors/stdout: the digests that the program is to print, by Python's SHA-256."""
import hashlib
from pathlib import Path

pattern = bytes((7 * i + 3) % 256 for i in range(300))
messages = [pattern[:n] for n in range(301)] + [
    b"abc",
    b"abcdbcdecdefdefgefghfghighijhijkijkljklmklmnlmnomnopnopq",
    b"abcdefghbcdefghicdefghijdefghijkefghijklfghijklmghijklmnhijklmnoijklmnopjklmnopqklmnopqrlmnopqrsmnopqrstnopqrstu",
    b"a" * 1000000,
]
stdout = Path(__file__).resolve().parents[2] / "crates" / "sha256_vectors" / "stdout"
stdout.write_text("".join(hashlib.sha256(m).hexdigest() + "\n" for m in messages))
