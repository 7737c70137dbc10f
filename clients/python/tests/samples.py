"""Which of the machine's files a test takes, where it can't take all."""

import os
import zlib


def sampled(checksums, count):
    """So many of some files, by their names: those of the lowest hashes of name and contents, whose checksums are given. What is tried is the
    same wherever the files are the same, and a file that is tried among many is tried among fewer of them, too."""
    return sorted(checksums, key=lambda it: (zlib.crc32(it.encode(errors="surrogateescape"), checksums[it]), it))[:count]


def below(folder, is_wanted):
    """The files below a folder whose names are wanted."""
    for room, _, names in os.walk(folder):
        yield from (f"{room}/{name}" for name in names if is_wanted(name))


def sample(files, sizes, count, is_read=lambda contents: True):
    """So many of some files, as `sampled` has them, each with its contents: those whose sizes lie in a range, and whose contents can be read.
    Links to files are left out."""
    found, checksums = {}, {}
    for file in files:
        if os.path.islink(file) or not os.path.isfile(file) or os.path.getsize(file) not in sizes:
            continue
        with open(file, "rb") as it:
            contents = it.read()
        if is_read(contents):
            found[file], checksums[file] = contents, zlib.crc32(contents)
    return [(file, found[file]) for file in sampled(checksums, count)]
