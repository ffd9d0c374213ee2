#!/usr/bin/env python3
"""Makes stdin and stdout of crates/aes_vectors with OpenSSL's AES, a program of other authorship.

usage: tests/aes_vectors.py           write crates/aes_vectors/stdin and stdout
       tests/aes_vectors.py --check   compare instead of writing

The records: keys of 24 and 32 bytes in turn, FIPS 197's appendix A.2 and A.3 keys, appendices C.2 and C.3 both ways, then 50 of each
and blocks from a fixed seed; and with keys of 16 bytes appendix A.1's, appendix B, appendix C.1 both ways, then 200 keys and blocks.
FIPS 197's published values are written below and asserted. The refusals are those of document 01's table "Turned down".
"""
import os
import random
import sys

from openssl_aes import decipher, encipher, round_keys

CRATE = os.path.join(os.path.dirname(os.path.abspath(__file__)), "..", "crates", "aes_vectors")
h = bytes.fromhex

# FIPS 197, appendix A.1 (the key expansion) and B (the same key, and a block).
B_KEY = h("2b7e151628aed2a6abf7158809cf4f3c")
B_IN = h("3243f6a8885a308d313198a2e0370734")
B_OUT = h("3925841d02dc09fbdc118597196a0b32")
A1_ROUND_KEYS = h(
    "2b7e151628aed2a6abf7158809cf4f3c"
    "a0fafe1788542cb123a339392a6c7605"
    "f2c295f27a96b9435935807a7359f67f"
    "3d80477d4716fe3e1e237e446d7a883b"
    "ef44a541a8525b7fb671253bdb0bad00"
    "d4d1c6f87c839d87caf2b8bc11f915bc"
    "6d88a37a110b3efddbf98641ca0093fd"
    "4e54f70e5f5fc9f384a64fb24ea6dc4f"
    "ead27321b58dbad2312bf5607f8d292f"
    "ac7766f319fadc2128d12941575c006e"
    "d014f9a8c9ee2589e13f0cc8b6630ca6"
)
# FIPS 197, appendix C.1.
C1_KEY = h("000102030405060708090a0b0c0d0e0f")
C1_IN = h("00112233445566778899aabbccddeeff")
C1_OUT = h("69c4e0d86a7b0430d8cdb78070b4c55a")

# FIPS 197, appendices A.2 and A.3: the keys, and the last word of each expansion.
A2_KEY = h("8e73b0f7da0e6452c810f32b809079e562f8ead2522c6b7b")
A2_LAST = h("01002202")
A3_KEY = h("603deb1015ca71be2b73aef0857d77811f352c073b6108d72d9810a30914dff4")
A3_LAST = h("706c631e")
# FIPS 197, appendices C.2 and C.3, with the block of C.1.
C2_KEY, C2_OUT = bytes(range(24)), h("dda97ca4864cdfe06eaf70a0ec0d7191")
C3_KEY, C3_OUT = bytes(range(32)), h("8ea2b7ca516745bfeafc49904b496089")

assert round_keys(B_KEY) == A1_ROUND_KEYS
assert round_keys(A2_KEY)[-4:] == A2_LAST and round_keys(A3_KEY)[-4:] == A3_LAST
assert encipher(C2_KEY, C1_IN) == C2_OUT and decipher(C2_KEY, C2_OUT) == C1_IN
assert encipher(C3_KEY, C1_IN) == C3_OUT and decipher(C3_KEY, C3_OUT) == C1_IN
assert encipher(B_KEY, B_IN) == B_OUT and decipher(B_KEY, B_OUT) == B_IN
assert encipher(C1_KEY, C1_IN) == C1_OUT and decipher(C1_KEY, C1_OUT) == C1_IN

chance = random.Random(197)
records = [(B_KEY, bytes(16)), (B_KEY, B_IN), (C1_KEY, C1_IN), (C1_KEY, C1_OUT)]
records += [(chance.randbytes(16), chance.randbytes(16)) for _ in range(200)]

# Before them those with longer keys, as many as the program's LONGER of each length.
longer = [(A2_KEY, bytes(16)), (A3_KEY, bytes(16)), (A2_KEY, B_IN), (A3_KEY, B_IN)]
longer += [(C2_KEY, C1_IN), (C3_KEY, C1_IN), (C2_KEY, C2_OUT), (C3_KEY, C3_OUT)]
longer += [(chance.randbytes(size), chance.randbytes(16)) for _ in range(50) for size in (24, 32)]
records = longer + records

# The lengths of key, block in and block out that the program tries, in its order.
attempts = [(n, 16, 16) for n in (0, 15, 17, 24, 32)]
attempts += [(16, n, 16) for n in (0, 15, 17)]
attempts += [(16, 16, n) for n in (0, 15, 17)]
attempts += [(16, 15, 17), (15, 15, 16), (17, 16, 0), (0, 0, 0), (16, 16, 16)]


def cause(key, block_in, block_out):
    """Document 01: 1 for a key not of 16 bytes, 10 for a block not of 16 bytes, in or out; the lowest that applies."""
    return 1 if key != 16 else 10 if block_in != 16 or block_out != 16 else 0


def attempted(lengths, call, held):
    n = cause(*lengths)
    if n:
        return ["refused %d 0" % n, (held * lengths[2]).hex()]
    return ["done", call(b"\x01" * 16, b"\x02" * 16).hex()]


stdin = b"".join(key + block for key, block in records)
lines = []
for key, block in records:
    lines += [round_keys(key).hex(), encipher(key, block).hex(), decipher(key, block).hex()]
for lengths in attempts:
    lines += attempted(lengths, encipher, b"\x03") + attempted(lengths, decipher, b"\x04")
stdout = "".join(line + "\n" for line in lines).encode()

failed = False
for name, content in (("stdin", stdin), ("stdout", stdout)):
    path = os.path.join(CRATE, name)
    if "--check" in sys.argv[1:]:
        with open(path, "rb") as f:
            same = f.read() == content
        print("%s: %s" % (name, "as OpenSSL gives it" if same else "DIFFERS from what OpenSSL gives"))
        failed |= not same
    else:
        with open(path, "wb") as f:
            f.write(content)
sys.exit(1 if failed else 0)
