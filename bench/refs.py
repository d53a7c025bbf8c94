#!/usr/bin/env python3
"""Times `nif refs scene` beside `nif check scene` on scenes of growing size.

    bench/refs.py [PROGRAM]        PROGRAM: crates/nif/out/nif, as `rt run` in crates/nif builds it

It makes scenes of version 20.2.0.7 whose blocks have ten references each, half of them to the first block and half to
a block before: of 6,250, 25,000 and 100,000 blocks. For each it prints the best of three runs: seconds of `check` and
of `refs`, the most memory that either held, how much the time of `refs` grew beside the number of references (about 1.0
is linear), and how many lines were printed. It is no part of the tests.
"""
import os, struct, subprocess, sys, tempfile

LINE = b"Gamebryo File Format, Version 20.2.0.7\n"
NONE = 0xFFFFFFFF
CHILDREN = 9


def write_scene(path, blocks):
    """Nodes of nine children and a target each, and one root."""
    kind = b"SceneNode"
    length = 4 + 4 + 4 * CHILDREN + 4 + 1
    with open(path, "wb") as f:
        f.write(LINE + struct.pack("<IBIII", 0x14020007, 1, 12, blocks, 83) + b"\0\0\0")
        f.write(struct.pack("<HI", 1, len(kind)) + kind + b"\0\0" * blocks)
        f.write(struct.pack("<I", length) * blocks)
        f.write(struct.pack("<III", 0, 0, 0))
        for block in range(blocks):
            before = max(block - 1, 0)
            targets = [0 if k % 2 == 0 else before for k in range(CHILDREN)]
            f.write(struct.pack("<II", NONE, CHILDREN) + struct.pack("<9I", *targets) + struct.pack("<IB", before, 1))
        f.write(struct.pack("<II", 1, 0))


def run(command):
    """The user and system time of a command, the most memory that it held in MiB, and the lines that it printed."""
    with tempfile.TemporaryFile() as out:
        process = subprocess.Popen(command, stdout=out)
        _, status, usage = os.wait4(process.pid, 0)
        if status != 0:
            out.seek(0)
            sys.exit(f"{command}: {out.read(200)!r}")
        out.seek(0)
        lines = sum(piece.count(b"\n") for piece in iter(lambda: out.read(1 << 20), b""))
        return usage.ru_utime + usage.ru_stime, usage.ru_maxrss / 1024, lines


def best(command):
    return min(run(command) for _ in range(3))


def main():
    program = sys.argv[1] if len(sys.argv) > 1 else os.path.join(os.path.dirname(__file__), "../crates/nif/out/nif")
    print(f"{'blocks':>8} {'references':>10} {'check s':>8} {'refs s':>8} {'MiB':>6} {'growth':>6}")
    before = None
    with tempfile.TemporaryDirectory() as folder:
        path = os.path.join(folder, "scene.nif")
        for blocks in (6250, 25000, 100000):
            write_scene(path, blocks)
            check, check_held, _ = best([program, "check", "scene", path])
            refs, refs_held, lines = best([program, "refs", "scene", path])
            wanted = blocks * (CHILDREN + 1) + 1
            if lines != wanted:
                sys.exit(f"{lines} lines were printed, {wanted} are wanted")
            growth = f"{refs / before / 4:.2f}" if before else ""
            print(f"{blocks:8} {lines:10} {check:8.3f} {refs:8.3f} {max(check_held, refs_held):6.0f} {growth:>6}")
            before = refs


main()
