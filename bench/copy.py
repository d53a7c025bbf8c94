#!/usr/bin/env python3
"""Times `nif check scene` and `nif copy scene` on files of growing size, beside `cp` on the same files.

    bench/copy.py [PROGRAM]        PROGRAM: crates/nif/out/nif, as `rt run` in crates/nif builds it

It makes scenes of version 20.2.0.7 of 1, 4, 16 and 64 MiB in three shapes: many small blocks, few long runs of bytes,
and long strips. A file has at most 2^26 bytes, 2^20 blocks and 2^24 nodes, so that the last of a shape is the longest
that it has within these. For each it prints the best of three runs: seconds and bytes a second of `check` and of
`copy`, the most memory that either held, how much the time of `copy` grew beside the size (about 1.0 is linear), and
what `cp` takes. It is no part of the tests.
"""
import filecmp, os, struct, subprocess, sys, tempfile, time

LINE = b"Gamebryo File Format, Version 20.2.0.7\n"
MOST_BYTES, MOST_BLOCKS, MOST_NODES = 1 << 26, 1 << 20, 1 << 24
NONE = 0xFFFFFFFF


class Block:
    """One block that is written again and again: its type, its bytes piece by piece, and how many nodes it has."""

    def __init__(self, kind, pieces, nodes):
        self.kind, self.pieces, self.nodes = kind, pieces, nodes
        self.length = sum(len(piece) * times for piece, times in pieces)


def empty_length(kind):
    """The bytes of a file with no block and this type: the header and the footer."""
    return len(LINE) + 4 + 1 + 4 + 4 + 2 + 4 + len(kind) + 12 + 4


# the nodes of such a file
EMPTY_NODES = 22


def node():
    """A node without name and target, with five children that are none."""
    head = struct.pack("<II", NONE, 5)
    return Block(b"SceneNode", [(head + b"\xff" * 20 + struct.pack("<IB", NONE, 1), 1)], 13)


def image(length):
    """An image of so many bytes."""
    return Block(b"SceneImage", [(struct.pack("<I", length), 1), (b"\x5a", length)], 3)


def shape(strips, points):
    """A shape of so many strips of so many points each."""
    pieces = [(struct.pack("<IH", NONE, strips), 1), (struct.pack("<H", points), strips),
              (struct.pack("<H", 7), strips * points), (struct.pack("<II", NONE, NONE), 1)]
    return Block(b"SceneShape", pieces, 9 + 2 * strips + strips * points)


def many_blocks(size):
    return node()


def long_runs(size):
    """Four images that fill the file."""
    return image((size - empty_length(b"SceneImage")) // 4 - 10)


def long_strips(size):
    return shape(100, 1000)


def count_of(block, size):
    """How many of a block fit into a file of a size."""
    bytes_of_each, nodes_of_each = block.length + 6, block.nodes + 2
    return min((size - empty_length(block.kind)) // bytes_of_each, MOST_BLOCKS, (MOST_NODES - EMPTY_NODES) // nodes_of_each)


def put(f, piece, times):
    """Writes bytes so many times, piece by piece, since memory that is held here would count below."""
    most = max(1, 65536 // max(1, len(piece)))
    for first in range(0, times, most):
        f.write(piece * min(most, times - first))


def write_scene(path, block, size):
    """Writes a scene of at most so many bytes, and answers the line that is printed of it."""
    blocks = count_of(block, size)
    with open(path, "wb") as f:
        f.write(LINE + bytes([7, 0, 2, 20, 1]) + struct.pack("<IIH", 0, blocks, 1))
        f.write(struct.pack("<I", len(block.kind)) + block.kind)
        put(f, b"\0\0", blocks)
        put(f, struct.pack("<I", block.length), blocks)
        f.write(bytes(12))
        for _ in range(blocks):
            for piece, times in block.pieces:
                put(f, piece, times)
        f.write(bytes(4))
    nodes = EMPTY_NODES + blocks * (block.nodes + 2)
    return "ok 20.2.0.7 blocks %d bytes %d nodes %d\n" % (blocks, os.path.getsize(path), nodes)


def best(words, printed, folder, runs=3):
    """The least seconds, and the most kilobytes held, over some runs that print a text."""
    seconds, held, out = [], 0, os.path.join(folder, "printed")
    for _ in range(runs):
        with open(out, "w") as f:
            begin = time.perf_counter()
            child = subprocess.Popen(words, stdout=f)
            _, status, usage = os.wait4(child.pid, 0)
            seconds.append(time.perf_counter() - begin)
        held = max(held, usage.ru_maxrss)
        with open(out) as f:
            text = f.read()
        if status != 0 or text != printed:
            sys.exit("%s ended with %s: %s" % (" ".join(words), status, text))
    return min(seconds), held


def main():
    program = os.path.abspath(sys.argv[1] if len(sys.argv) > 1 else "crates/nif/out/nif")
    head = ("shape", "bytes", "check s", "MB/s", "copy s", "MB/s", "growth", "held kB", "held/B", "cp s")
    print("%-12s %9s %8s %7s %8s %7s %7s %9s %7s %7s" % head)
    with tempfile.TemporaryDirectory() as folder:
        source, out = os.path.join(folder, "in.nif"), os.path.join(folder, "out.nif")
        for make in (many_blocks, long_runs, long_strips):
            before = None
            for size in (1 << 20, 4 << 20, 16 << 20, MOST_BYTES - 1000):
                printed = write_scene(source, make(size), size)
                length = os.path.getsize(source)
                checking, held = best([program, "check", "scene", source], printed, folder)
                copying, more = best([program, "copy", "scene", source, out], printed, folder)
                held = max(held, more)
                if not filecmp.cmp(source, out, shallow=False):
                    sys.exit("the copy differs")
                yardstick, _ = best(["cp", source, out], "", folder)
                growth = "%.2f" % (copying / before[0] / (length / before[1])) if before else ""
                before = (copying, length)
                print("%-12s %9d %8.3f %7.1f %8.3f %7.1f %7s %9d %7.1f %7.3f" % (
                    make.__name__, length, checking, length / checking / 1e6, copying, length / copying / 1e6,
                    growth, held, held * 1024 / length, yardstick))


if __name__ == "__main__":
    main()
