#!/usr/bin/env python3
"""Makes the volumes whose check bench/check.sh times, and those whose repair bench/repair.sh times. Each but those of `linked`, `open` and
`spoilt` is clean, so that a check looks for every rule to its end.

    python3 bench/check.py CASE COUNT IMAGE      at the top of the repository

`empty` is a volume of so many blocks with an empty root; `files` has so many files of one block, a hundred in a directory; `large` has
1 TiB and so many files of 10 GB. `linked` is `files` where the last file states a link too many, `open` the same where the integrity
descriptor is open, and `spoilt` where every file states a link too many. Blocks have 2,048 bytes and the revision is 2.01. What is written at all is the volume's description:
blocks of files, and of the bitmap where it tells of used blocks, are holes of a sparse image. The descriptors are those of the sample
volume, with another block size and another partition.
"""
import struct
import sys
from survey import DIRECTORY, FILE, HEAD, INTEGRITY, MAIN, RESERVE, SAMPLE, SIZE, START, fid, named, tagged

# Sectors of the recognition sequence, from byte 32768 on (ECMA-167 2/8.2).
RECOGNITION = 32768 // SIZE
# Kinds of an entry's descriptors (4/14.6.8).
SHORT, EMBEDDED = 0, 3
# The most bytes of whole blocks that one descriptor names (4/14.14.1.1).
LONGEST = (2 ** 30 - 1) // SIZE * SIZE
# The least identifier of an entry that is not the root (OSTA UDF 3.2.1.1).
FIRST_IDENTIFIER = 16


def blocks_of(length):
    """How many blocks so many bytes take."""
    return -(-length // SIZE)


class Volume:
    """A sparse image of so many blocks. Blocks of the partition are taken one after another: the bitmap, the file set, the root, files."""

    def __init__(self, path, blocks):
        with open(SAMPLE, 'rb') as file:
            self.sample = file.read()
        self.file = open(path, 'wb')
        self.end = blocks
        self.length = blocks - START - 1
        self.bitmap = 24 + -(-self.length // 8)
        self.file_set = blocks_of(self.bitmap)
        self.root = self.file_set + 1
        self.next = self.root + 1
        self.identifier = FIRST_IDENTIFIER
        self.files = 0
        self.directories = 0

    def take(self, count):
        """The first of so many blocks that nobody has."""
        first = self.next
        self.next += count
        assert self.next <= self.length
        return first

    def put(self, sector, content):
        self.file.seek(sector * SIZE)
        self.file.write(content)

    def of_sample(self, sector):
        """What stands behind the tag in a block of the sample volume, as long as a block of this one."""
        return bytearray(self.sample[sector * 512 + 16:(sector + 1) * 512] + bytes(SIZE - 512))

    def entry(self, at, kind, links, length, flags, body):
        """Puts an extended file entry (4/14.17) with a body of descriptors or of embedded content."""
        head = self.of_sample(259)[:HEAD - 16]
        head[11] = kind
        identifier = 0
        if at != self.root:
            identifier = self.identifier
            self.identifier += 1
        struct.pack_into('<H', head, 18, flags)
        struct.pack_into('<H', head, 32, links)
        struct.pack_into('<QQQ', head, 40, length, length, 0 if flags == EMBEDDED else blocks_of(length))
        struct.pack_into('<QII', head, 184, identifier, 0, len(body))
        self.put(START + at, tagged(bytes(head) + body, 266, at))

    def put_file(self, at, length, first, links=1):
        """A file whose blocks follow one another, and which states so many links."""
        body = b''
        for offset in range(0, length, LONGEST):
            body += struct.pack('<II', min(LONGEST, length - offset), first + offset // SIZE)
        self.entry(at, FILE, links, length, SHORT, body)
        self.files += 1

    def put_directory(self, at, above, below, fids):
        """A directory with a parent FID and these, of which so many name directories: each of those has a parent FID that is a link."""
        content = b''.join([fid(10, above, b'')] + fids)
        links = 1 + below
        self.directories += 1
        if HEAD + len(content) <= SIZE:
            self.entry(at, DIRECTORY, links, len(content), EMBEDDED, content)
            return
        first = self.take(blocks_of(len(content)))
        self.entry(at, DIRECTORY, links, len(content), SHORT, struct.pack('<II', len(content), first))
        self.put(START + first, content)

    def close(self, closed=True):
        """Puts what stands outside the partition, the bitmap and the file set."""
        self.put_recognition()
        for first in (MAIN, RESERVE):
            self.put_sequence(first)
        anchor = struct.pack('<IIII480x', 16 * SIZE, MAIN, 16 * SIZE, RESERVE)
        for place in (256, self.end - 1):
            self.put(place, tagged(anchor, 2, place))
        self.put_integrity(closed)
        self.put_bitmap()
        files = self.of_sample(258)
        struct.pack_into('<IIH', files, 384, SIZE, self.root, 0)
        self.put(START + self.file_set, tagged(bytes(files), 256, self.file_set))
        self.file.truncate(self.end * SIZE)
        self.file.close()

    def put_recognition(self):
        for n, name in enumerate((b'BEA01', b'NSR03', b'TEA01')):
            self.put(RECOGNITION + n, b'\0' + name + b'\1')

    def put_sequence(self, first):
        for n in range(6):
            body = self.of_sample(96 + n)
            identifier = struct.unpack_from('<H', self.sample, (96 + n) * 512)[0]
            if identifier == 5:
                struct.pack_into('<II', body, 48, self.bitmap, 0)
                struct.pack_into('<II', body, 172, START, self.length)
            if identifier == 6:
                struct.pack_into('<I', body, 196, SIZE)
                struct.pack_into('<IIH', body, 232, SIZE, self.file_set, 0)
                struct.pack_into('<II', body, 416, 2 * SIZE, INTEGRITY)
            self.put(first + n, tagged(bytes(body), identifier, first + n))

    def put_integrity(self, closed):
        """An integrity descriptor (3/10.10), closed or open, and a terminator."""
        body = self.of_sample(112)
        struct.pack_into('<I', body, 12, int(closed))
        struct.pack_into('<Q', body, 24, self.identifier)
        struct.pack_into('<II', body, 64, self.length - self.next, self.length)
        struct.pack_into('<II', body, 104, self.files, self.directories)
        self.put(INTEGRITY, tagged(bytes(body), 9, INTEGRITY))
        self.put(INTEGRITY + 1, tagged(bytes(SIZE - 16), 8, INTEGRITY + 1))

    def put_bitmap(self):
        """The space bitmap (4/14.12), in which each taken block is a hole's zero and each other one a one."""
        self.put(START, tagged(struct.pack('<II', self.length, self.bitmap - 24), 264, 0))
        whole = -(-self.next // 8)
        self.file.seek(START * SIZE + 24 + self.next // 8)
        if self.next % 8:
            self.file.write(bytes([0xFF << self.next % 8 & 0xFF]))
        self.file.write(b'\xFF' * (self.length // 8 - whole))
        if self.length % 8:
            self.file.write(bytes([(1 << self.length % 8) - 1]))


def empty(path, blocks):
    volume = Volume(path, blocks)
    volume.put_directory(volume.root, volume.root, 0, [])
    volume.close()


def files(path, count, wrong=range(0), closed=True):
    """Entries of a directory follow one another, and so do the blocks of its files. Those with a wrong number state a link too many."""
    volume = Volume(path, 3 * count + 4096)
    root = []
    for k in range(0, count, 100):
        at = volume.take(1)
        root.append(fid(2, at, named(b'dirs', k)))
        many = min(100, count - k)
        entries = volume.take(many)
        volume.put_directory(at, volume.root, 0, [fid(0, entries + n, named(b'file', k + n)) for n in range(many)])
        blocks = volume.take(many)
        for n in range(many):
            volume.put_file(entries + n, SIZE, blocks + n, 2 if k + n in wrong else 1)
    volume.put_directory(volume.root, volume.root, len(root), root)
    volume.close(closed)


def linked(path, count):
    files(path, count, range(count - 1, count))


def unclosed(path, count):
    files(path, count, closed=False)


def spoilt(path, count):
    files(path, count, range(count))


def large(path, count):
    volume = Volume(path, 2 ** 40 // SIZE)
    entries = volume.take(count)
    volume.put_directory(volume.root, volume.root, 0, [fid(0, entries + n, named(b'file', n)) for n in range(count)])
    for n in range(count):
        volume.put_file(entries + n, 10 ** 10, volume.take(blocks_of(10 ** 10)))
    volume.close()


CASES = {'empty': empty, 'files': files, 'large': large, 'linked': linked, 'open': unclosed, 'spoilt': spoilt}


def main():
    case, count, path = sys.argv[1:]
    CASES[case](path, int(count))


if __name__ == '__main__':
    main()
