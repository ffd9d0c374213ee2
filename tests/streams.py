#!/usr/bin/env python3
"""Runs the programs where a read or a write fails: standard error says so, and what was written to standard output before stays.

usage: tests/streams.py [PROGRAMS]     PROGRAMS is the folder of the compiled programs, target/bin by default

A write to /dev/full takes nothing; a file size limit cuts a write short; a read of a folder fails. Where nothing fails, standard error is empty.
"""
import os
import resource
import subprocess
import sys
import tempfile

HERE = os.path.dirname(os.path.abspath(__file__))
sys.path.insert(0, os.path.join(HERE, "reference"))
import wbref

PROGRAMS = sys.argv[1] if len(sys.argv) > 1 else os.path.join(HERE, "..", "target", "bin")
SIZE = wbref.SET_LEN
NOT_READ = b"a read from standard input failed\n"
NOT_WRITTEN = b"a write to standard output failed or was cut short\n"


def sample(crate, name):
    with open(os.path.join(HERE, "..", "crates", crate, name), "rb") as f:
        return f.read()


def run(name, data, stdout=subprocess.PIPE, **more):
    done = subprocess.run([os.path.join(PROGRAMS, name)], input=data, stdout=stdout, stderr=subprocess.PIPE, check=True, **more)
    return done.stdout, done.stderr


def silent(name, data):
    """Nothing fails: nothing is said on standard error."""
    assert run(name, data)[1] == b"", (name, len(data))


def full(name, data):
    """A write that fails."""
    with open("/dev/full", "wb") as f:
        said = run(name, data, stdout=f)[1]
    assert said == NOT_WRITTEN, (name, len(data), said)


def cut(name, data, want, limit):
    """A write that is cut short: what fits is there, and no more. The signal for the limit stays ignored, as Python has it."""

    def less():
        resource.setrlimit(resource.RLIMIT_FSIZE, (limit, limit))

    with tempfile.TemporaryFile() as f:
        said = run(name, data, stdout=f, preexec_fn=less, restore_signals=False)[1]
        f.seek(0)
        got = f.read()
    assert said == NOT_WRITTEN, (name, limit, said)
    assert got == want[:limit], (name, limit, len(got))


def unread(name, want):
    """A read that fails: the bytes before it were none, so what is too short is refused."""
    folder = os.open(HERE, os.O_RDONLY)
    done = subprocess.run([os.path.join(PROGRAMS, name)], stdin=folder, capture_output=True, check=True)
    os.close(folder)
    assert done.stdout == want, (name, done.stdout)
    assert done.stderr.startswith(NOT_READ), (name, done.stderr)


def main():
    key_and_bundle, made, catalogue = sample("maker", "stdin"), sample("maker", "stdout"), sample("catalogue_list", "stdout")
    zeros = bytes(16 + SIZE)
    for name, inputs in (("maker", (key_and_bundle, b"")), ("walker", (zeros, zeros[:-1], b"")), ("catalogue_list", (b"",))):
        for data in inputs:
            silent(name, data)
            full(name, data)
    cut("maker", key_and_bundle, made, 100000)
    cut("maker", key_and_bundle, made, SIZE - 1)
    cut("walker", zeros, b"0" * 32 + b"\n", 32)
    cut("catalogue_list", b"", catalogue, 4096)
    cut("catalogue_list", b"", catalogue, len(catalogue) - 1)
    unread("maker", b"refused 1 0\n")
    unread("walker", b"refused 10\n")
    print("streams: failures are told")


main()
