#!/usr/bin/env python3
"""Writes pairs whose keys all collide in std's HashMap: hostile_keys.py COUNT > FILE. With `ordinary` after it, keys that don't.

std hashes a text sixteen bytes at a time with a seed that is known. It multiplies two words: its state mixed with the first
eight bytes, and a constant mixed with the other eight. Where the first eight bytes are the state, a factor is 0 and so is
the product, whatever the other eight are. So all keys begin with the same sixteen bytes and the state that these leave,
and differ in the eight bytes that then count for nothing.
"""
import itertools
import sys

FACTOR = 0x9E3779B97F4A7C15
SEED = 0x243F6A8885A308D3
KEY_LENGTH = 48


def is_key(word):
    return all(0x21 <= byte < 0x7F and byte not in b"#!:=\\" for byte in word)


def state_after(block):
    low, high = (int.from_bytes(half, "little") for half in (block[:8], block[8:]))
    product = (low ^ (SEED + KEY_LENGTH)) * (high ^ FACTOR)
    return ((product >> 64) ^ product) & (1 << 64) - 1


def colliding_front():
    for number in itertools.count():
        block = b"%016d" % number
        state = state_after(block).to_bytes(8, "little")
        if is_key(state):
            return block + state


def main(count, ordinary):
    front = b"an.ordinary.key.of.the.s" if ordinary else colliding_front()
    for number in range(count):
        sys.stdout.buffer.write(b"%s%08d/equal.for.all.k=v\n" % (front, number))


if __name__ == "__main__":
    main(int(sys.argv[1]), sys.argv[2:] == ["ordinary"])
