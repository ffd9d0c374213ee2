#!/usr/bin/env python3
"""Makes crates/maker/stdin and stdout, a sample key and bundle and their set, from the reference (tests/reference/).

usage: tests/maker_sample.py           write both files
       tests/maker_sample.py --check   compare them with what the reference says
"""
import os
import random
import sys

HERE = os.path.dirname(os.path.abspath(__file__))
sys.path.insert(0, os.path.join(HERE, "reference"))
import tickets
import wbref

RULES = tickets.Rules(5)
TARGET = os.path.join(HERE, "..", "crates", "maker")
SEED = 10  # of a bundle with a gap before almost every section


def main():
    key_and_bundle = wbref.random_key(SEED) + tickets.random_bundle(random.Random(SEED))
    for name, data in (("stdin", key_and_bundle), ("stdout", RULES.maker_program(key_and_bundle))):
        path = os.path.join(TARGET, name)
        if sys.argv[1:] == ["--check"]:
            with open(path, "rb") as f:
                assert f.read() == data, path
        else:
            with open(path, "wb") as f:
                f.write(data)


main()
