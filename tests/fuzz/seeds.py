"""Inputs for the fuzzer to begin with: seeds.py FOLDER ORACLE

Packs, models and building calls of the vectors and of the second program's generators (what has landed: C-16), written as the bytes that
packs.c, lists.c and building.c read. Those of over 8,192 bytes are left out.
"""

import pathlib
import subprocess
import sys

MOST = 8_192
VECTORS = pathlib.Path(__file__).parents[2] / "reference" / "vectors"
OWN = pathlib.Path(__file__).parents[1] / "definitions"
NAMES = ["new", "forward", "backward", "border", "split", "close", "union", "start"]


def lines(text):
    return [line for line in text.splitlines() if line and not line.startswith("#")]


def two(number):
    return (number % 65_536).to_bytes(2, "big")


def lending(kind, i):
    """The part of the fuzzer, then where memory lies, its filler, and three lengths: all as needed, or one is not."""
    lengths = [0, 0, i % 200]
    if i % 5 == 4:
        lengths[i // 5 % 3] = 200 + i % 56
    return bytes([kind, i % 3, i % 251, *lengths])


def of_pack(text, i):
    return lending(0, i) + bytes.fromhex(text)


def of_model(text, i):
    v, *numbers = map(int, text.split())
    return lending(1, i) + bytes([i % 4, i * 7 % 256, 0]) + two(v) + b"".join(map(two, numbers))


def of_operation(words):
    code = NAMES.index(words[1])
    index = b""
    if code == 4:
        index = two(int(words[2]))
    elif code == 6:
        index = bytes([int(words[2]) % 256]) + two(int(words[3]))
    return bytes([code | 0x80]) + index


def damage(i):
    """A link or a vertex of one of the first places becomes a number at some limit; and one more operation."""
    return bytes([0xFF]) + two(i % 8 + 1_024 * (i // 8 % 3)) + two(0x8000 + i) + bytes([3, 0])


def of_calls(calls, i):
    """A beginning and what follows it; the loops that are left are ended by borders in every other run."""
    counts = b"".join(two(int(word.split("=")[-1])) for word in calls[0].split()[1:5])
    steps = [of_operation(words) for words in (call.split() for call in calls[1:]) if words[0] == "op"]
    if i % 5 == 0:
        steps.append(damage(i // 5))
    given = i % 8 + (i % 11 == 0) * 192
    return lending(2, i) + (bytes([1, given]) + counts if i % 2 else bytes([0, given])) + b"".join(steps)


def runs(calls):
    found = []
    for call in calls:
        if call.startswith("begin"):
            found.append([])
        found[-1].append(call)
    return found


def fan(triangles):
    """A disc of so many triangles around vertex 0; over 1,024 of them are refused with 9."""
    return f"{triangles + 1} " + " ".join(f"0 {1 + i} {1 + (i + 1) % triangles}" for i in range(triangles))


def main(folder, oracle):
    def told(*words):
        return lines(subprocess.run([oracle, *words], capture_output=True, text=True, check=True).stdout)

    landed = told("gen02", "16", "1", "6000")
    packs = lines((VECTORS / "packs.txt").read_text())
    packs += [word[5:] for line in landed for word in line.split() if word.startswith("pack=")]
    models = lines((VECTORS / "models.txt").read_text()) + lines((OWN / "models.txt").read_text())
    models += told("gen", "1", "200") + [fan(n) for n in range(1_022, 1_030)]
    calls = lines((VECTORS / "calls.txt").read_text()) + lines((OWN / "calls.txt").read_text())
    calls += [line for line in landed if line.split()[0] in ("begin", "op")] + told("gencalls", "1", "200")
    kinds = {"pack": map(of_pack, packs, range(len(packs))), "model": map(of_model, models, range(len(models)))}
    kinds["calls"] = (of_calls(run, i) for i, run in enumerate(runs(calls)))
    for kind, inputs in kinds.items():
        for i, data in enumerate(inputs):
            if len(data) <= MOST:
                (pathlib.Path(folder) / f"{kind}{i}").write_bytes(data)


if __name__ == "__main__":
    main(*sys.argv[1:])
