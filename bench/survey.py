#!/usr/bin/env python3
"""Makes the volumes whose survey bench/survey.sh times.

    python3 bench/survey.py CASE COUNT IMAGE      at the top of the repository

`files` has so many empty files, a hundred in a directory; `plain` the same with a block each; `runs` the same with a hundred
blocks each that do not touch; `wide` so many empty directories in the root; `deep` so many directories, each in the one before;
`shared` so many directories in the root, each with the root's own content as its content. Blocks have 2,048 bytes. Contents of
directories are embedded where they fit, and else have one short allocation descriptor. The image is sparse. Its descriptors are
those of the sample volume, with another block size and another partition, and without a space bitmap.
"""
import binascii
import os
import struct
import sys

SIZE = 2048
SAMPLE = os.path.join(os.path.dirname(os.path.abspath(__file__)), '..', 'crates', 'udffsck', 'data', 'a.img')
# Sectors of the sequences, of the integrity extent and of the partition.
MAIN, RESERVE, INTEGRITY, START = 32, 48, 64, 257
# Blocks of the partition.
FILE_SET, ROOT = 0, 2
DIRECTORY, FILE = 4, 5
# Bytes before the allocation descriptors of an extended file entry (ECMA-167 4/14.17).
HEAD = 216


def tagged(body, identifier, location):
    """Bytes behind a whole tag (ECMA-167 3/7.2)."""
    tag = bytearray(struct.pack('<HHBBHHHI', identifier, 3, 0, 0, 1, binascii.crc_hqx(body, 0), len(body), location))
    tag[4] = sum(tag) % 256
    return bytes(tag) + body


class Volume:
    """A sparse image. Blocks of the partition are taken one after another."""

    def __init__(self, path):
        self.file = open(path, 'wb')
        self.next = ROOT + 1

    def take(self, count):
        """The first of so many blocks that nobody has."""
        first = self.next
        self.next += count
        return first

    def put(self, sector, content):
        self.file.seek(sector * SIZE)
        self.file.write(content)

    def entry(self, at, kind, length, flags, body):
        """Puts an extended file entry with a body of descriptors or of embedded content."""
        block = bytearray(HEAD - 16)
        struct.pack_into('<HHHBB6xH', block, 4, 4, 0, 1, 0, kind, flags)
        struct.pack_into('<H', block, 32, 1)
        struct.pack_into('<QQQ', block, 40, length, length, 0 if flags == 3 else -(-length // SIZE))
        struct.pack_into('<QII', block, 184, at, 0, len(body))
        self.put(START + at, tagged(bytes(block) + body, 266, at))

    def directory(self, at, content):
        if HEAD + len(content) <= SIZE:
            self.entry(at, DIRECTORY, len(content), 3, content)
            return
        first = self.take(-(-len(content) // SIZE))
        self.entry(at, DIRECTORY, len(content), 0, struct.pack('<II', len(content), first))
        self.put(START + first, content)

    def close(self):
        """Puts what stands outside the partition, and the file set."""
        with open(SAMPLE, 'rb') as file:
            sample = file.read()
        end = START + self.next + 1
        for first in (MAIN, RESERVE):
            for n in range(6):
                block = bytearray(sample[(96 + n) * 512:(97 + n) * 512] + bytes(SIZE - 512))
                identifier = struct.unpack_from('<H', block)[0]
                if identifier == 5:
                    struct.pack_into('<II', block, 64, 0, 0)
                    struct.pack_into('<II', block, 188, START, self.next)
                if identifier == 6:
                    struct.pack_into('<I', block, 212, SIZE)
                    struct.pack_into('<IIH', block, 248, SIZE, FILE_SET, 0)
                    struct.pack_into('<II', block, 432, 2 * SIZE, INTEGRITY)
                self.put(first + n, tagged(bytes(block[16:]), identifier, first + n))
        anchor = struct.pack('<IIII480x', 16 * SIZE, MAIN, 16 * SIZE, RESERVE)
        for place in (256, end - 1):
            self.put(place, tagged(anchor, 2, place))
        files = bytearray(sample[258 * 512:259 * 512])
        struct.pack_into('<IIH', files, 400, SIZE, ROOT, 0)
        self.put(START + FILE_SET, tagged(bytes(files[16:]), 256, FILE_SET))
        self.file.truncate(end * SIZE)
        self.file.close()


def fid(characteristics, at, name):
    """A file identifier descriptor (4/14.4)."""
    body = struct.pack('<HBBIIH6xH', 1, characteristics, len(name), SIZE, at, 0, 0) + name
    return tagged(body + bytes(-len(body) % 4), 257, at)


def named(stem, number):
    """A name of 12 characters of 8 bits."""
    return b'\x08' + b'%s%08d' % (stem, number)


def parent(at):
    return fid(10, at, b'')


def put_files(volume, count, put_file):
    """So many files, a hundred in a directory."""
    root = [parent(ROOT)]
    for k in range(0, count, 100):
        at = volume.take(1)
        root.append(fid(2, at, named(b'dirs', k)))
        content = [parent(ROOT)]
        for n in range(k, min(k + 100, count)):
            file = volume.take(1)
            put_file(volume, file)
            content.append(fid(0, file, named(b'file', n)))
        volume.directory(at, b''.join(content))
    volume.directory(ROOT, b''.join(root))


def put_empty(volume, at):
    volume.entry(at, FILE, 0, 3, b'')


def put_plain(volume, at):
    volume.entry(at, FILE, SIZE, 0, struct.pack('<II', SIZE, volume.take(1)))


def put_runs(volume, at):
    first = volume.take(200)
    runs = b''.join(struct.pack('<II', SIZE, first + 2 * n) for n in range(100))
    volume.entry(at, FILE, 100 * SIZE, 0, runs)


def put_wide(volume, count):
    root = [parent(ROOT)]
    for n in range(count):
        at = volume.take(1)
        volume.directory(at, parent(ROOT))
        root.append(fid(2, at, named(b'dirs', n)))
    volume.directory(ROOT, b''.join(root))


def put_deep(volume, count):
    above, at = ROOT, ROOT
    for n in range(count):
        below = volume.take(1)
        volume.directory(at, parent(above) + fid(2, below, named(b'dirs', n)))
        above, at = at, below
    volume.directory(at, parent(above))


def put_shared(volume, count):
    """So many directories whose lists are that of the root."""
    fids = [parent(ROOT)]
    first = volume.take(count)
    for n in range(count):
        fids.append(fid(2, first + n, named(b'dirs', n)))
    content = b''.join(fids)
    blocks = volume.take(-(-len(content) // SIZE))
    volume.put(START + blocks, content)
    for at in [ROOT] + list(range(first, first + count)):
        volume.entry(at, DIRECTORY, len(content), 0, struct.pack('<II', len(content), blocks))


CASES = {
    'files': lambda volume, count: put_files(volume, count, put_empty),
    'plain': lambda volume, count: put_files(volume, count, put_plain),
    'wide': put_wide,
    'deep': put_deep,
    'shared': put_shared,
    'runs': lambda volume, count: put_files(volume, count, put_runs),
}


def main():
    case, count, path = sys.argv[1:]
    volume = Volume(path)
    CASES[case](volume, int(count))
    volume.close()


if __name__ == '__main__':
    main()
