#!/usr/bin/env python3
"""Runs `algebra check` and `tools/check.py` on the same certificates and compares what they say.

First on each certificate of examples/ and of the stored runs as it stands, then on copies of it with a line left out,
doubled or exchanged with the next, a digit or a letter changed, and the end cut off. It ends with how many pairs were
compared, and fails at the first that differ. The program has to be built (`./algebra`); `--count N` says how many
changed copies of each certificate are tried (200 where it isn't given), `--seed N` which.
"""
import argparse
import pathlib
import random
import subprocess
import sys
import tempfile

TOP = pathlib.Path(__file__).resolve().parent.parent
CHECKER = TOP / "tools" / "check.py"


def pairs():
    """The certificates with their files."""
    for folder in (TOP / "examples", TOP / "crates" / "algebra_runs" / "data"):
        for certificate in sorted(folder.glob("*.cert")):
            file = certificate.with_suffix(".alg")
            yield (file if file.exists() else folder / "first.alg"), certificate


def changed(data, chance):
    """A copy with one change."""
    lines = data.split(b"\n")
    place = chance.randrange(max(len(lines) - 1, 1))
    kind = chance.randrange(5)
    if kind == 0:
        del lines[place]
    elif kind == 1:
        lines.insert(place, lines[place])
    elif kind == 2:
        lines[place : place + 2] = lines[place : place + 2][::-1]
    elif kind == 3:
        return data[: chance.randrange(len(data) + 1)]
    else:
        at = chance.randrange(max(len(data), 1))
        return data[:at] + bytes([chance.choice(b"0123456789 ;()$#@tabdlnmqNZQ-")]) + data[at + 1 :]
    return b"\n".join(lines)


def said(command, file, certificate):
    done = subprocess.run([*command, str(file), str(certificate)], stdout=subprocess.PIPE, stderr=subprocess.PIPE, check=False)
    return done.returncode, done.stdout


def main():
    words = argparse.ArgumentParser(description=__doc__.split("\n", maxsplit=1)[0])
    words.add_argument("--count", type=int, default=200)
    words.add_argument("--seed", type=int, default=0)
    words.add_argument("--program", default=str(TOP / "algebra"))
    words = words.parse_args()
    chance = random.Random(words.seed)
    compared = 0
    with tempfile.TemporaryDirectory() as folder:
        copy = pathlib.Path(folder) / "changed.cert"
        for file, certificate in pairs():
            data = certificate.read_bytes()
            for number in range(words.count + 1):
                copy.write_bytes(data if number == 0 else changed(data, chance))
                ours = said([words.program, "check"], file, copy)
                theirs = said([sys.executable, str(CHECKER)], file, copy)
                if ours != theirs:
                    kept = pathlib.Path("differs.cert")
                    kept.write_bytes(copy.read_bytes())
                    print(f"{file.name}: they differ on {kept}:\n{ours[1].decode()}\n{theirs[1].decode()}")
                    return 1
                compared += 1
            print(f"{certificate.name}: the same", flush=True)
    print(f"compared {compared}, all the same")
    return 0


if __name__ == "__main__":
    sys.exit(main())
