#!/usr/bin/env python3
"""Times a check of volumes whose sequences hold many implementation use descriptors.

    python3 bench/descriptors.py [PROGRAM]      at the top of the repository; by default the proved build of udffsck

Each image is made of the sample volume: both sequences get so many implementation use descriptors behind their own, and lie
in a longer image. In `apart` each has an identifier of its own, in `alike` all have one, and in `shuffled` the reserve sequence
has those of `apart` backwards. In all of them both sequences agree, so that a check compares every descriptor.
"""
import binascii
import os
import struct
import subprocess
import sys
import tempfile
import time

SIZE = 512
TOP = os.path.join(os.path.dirname(os.path.abspath(__file__)), '..')
SAMPLE = os.path.join(TOP, 'crates', 'udffsck', 'data', 'a.img')
COUNTS = (1000, 2000, 4000, 8000, 16000)


def tagged(block, identifier, location):
    """The bytes of a block behind a whole tag (ECMA-167 3/7.2)."""
    body = block[16:]
    tag = bytearray(struct.pack('<HHBBHHHI', identifier, 2, 0, 0, 1, binascii.crc_hqx(body, 0), len(body), location))
    tag[4] = sum(tag) % 256
    return bytes(tag) + body


def implementation_use(number, identifier):
    """Bytes of an implementation use descriptor (3/10.4)."""
    block = bytearray(SIZE)
    struct.pack_into('<IB23s', block, 16, number, 0, identifier)
    return bytes(block)


def used(count, shape, reserve):
    """The implementation use descriptors of a sequence, without tags."""
    order = range(count)
    if shape == 'shuffled' and reserve:
        order = reversed(order)
    for k in order:
        name = b'*all alike' if shape == 'alike' else b'*used %d' % k
        yield implementation_use(k + 10, name)


def image_of(count, shape):
    """The sample volume with so many implementation use descriptors in both sequences."""
    with open(SAMPLE, 'rb') as file:
        sample = file.read()
    blocks = [sample[n * SIZE:(n + 1) * SIZE] for n in range(len(sample) // SIZE)]
    long = count + 16
    main = len(blocks)
    reserve = main + long
    end = reserve + long + 256
    blocks += [bytes(SIZE)] * (end - len(blocks))
    for extent, old in ((main, 96), (reserve, 1007)):
        at = extent
        for n in range(5):
            blocks[at] = tagged(blocks[old + n], struct.unpack_from('<H', blocks[old + n])[0], at)
            at += 1
        for block in used(count, shape, extent == reserve):
            blocks[at] = tagged(block, 4, at)
            at += 1
        blocks[at] = tagged(bytes(SIZE), 8, at)
    for place in (256, end - 1, end - 257):
        anchor = bytearray(SIZE)
        struct.pack_into('<IIII', anchor, 16, long * SIZE, main, long * SIZE, reserve)
        blocks[place] = tagged(bytes(anchor), 2, place)
    return b''.join(blocks)


def main():
    program = os.path.abspath(sys.argv[1] if len(sys.argv) > 1 else os.path.join(TOP, 'crates', 'udffsck', 'out', 'udffsck'))
    with tempfile.TemporaryDirectory() as work:
        for shape in ('apart', 'alike', 'shuffled'):
            for count in COUNTS:
                path = os.path.join(work, 'a.img')
                with open(path, 'wb') as file:
                    file.write(image_of(count, shape))
                start = time.monotonic()
                run = subprocess.run([program, '-c', '-B', str(SIZE), path], capture_output=True)
                took = time.monotonic() - start
                said = run.stdout.decode().replace(path, 'a.img').strip()
                print(f'{shape:9} {count:6} descriptors, {os.path.getsize(path) / 1e6:5.1f} MB: {took:6.2f} s, status {run.returncode}, {said}', flush=True)


if __name__ == '__main__':
    main()
