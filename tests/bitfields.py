#!/usr/bin/env python3
"""Holds bit-fields against gcc's: tests/bitfields.py [COUNT [PROGRAM]]

Makes COUNT (200, if not given) sources, each with a structure of bit-fields and members of one type, that write and
read its bit-fields in any order, runs each on the little-endian machine and as gcc compiles it, and compares the bytes
of the structure, the numbers read and its size. gcc has to compile for a little-endian machine whose bit-fields lie
lowest first, as on x86-64. Structures of several types aren't compared: there gcc lets a unit overlap what stands
before it. Builds the program without proofs, unless a PROGRAM is given.
"""
import os, random, subprocess, sys, tempfile

import measure

HERE = os.path.dirname(os.path.abspath(__file__))
EP_H = os.path.join(HERE, os.pardir, "examples", "ep.h")
TYPES = {"uint8_t": 8, "uint16_t": 16, "uint32_t": 32}
STEPS = "1000"


def entries(rng, type_name):
    """The members of a structure, as text, and the names of its bit-fields with their widths."""
    bits = TYPES[type_name]
    text, fields = [], []
    for k in range(rng.randint(1, 12)):
        form = rng.choice("ffffffunem")
        if form == "f":
            width = rng.choice([1, rng.randint(1, bits), rng.randint(1, min(bits, 6)), bits])
            text.append(f"{type_name} f{k} : {width};")
            fields.append((f"f{k}", width))
        elif form == "u":
            text.append(f"{type_name} : {rng.randint(1, bits)};")
        elif form == "e":
            text.append(f"{type_name} : 0;")
        elif form == "m":
            text.append(f"{type_name} m{k};")
    width = rng.randint(1, bits)
    text.append(f"{type_name} last : {width};")
    fields.append(("last", width))
    return text, fields


def source(rng):
    type_name = rng.choice(sorted(TYPES))
    members, fields = entries(rng, type_name)
    lines = ["struct s {", *members, "};", "int main(void) {", "struct s v = {0};", "struct s *p = &v;", "uint32_t x;"]
    for _ in range(2 * len(fields)):
        name, width = rng.choice(fields)
        way = rng.choice(("v.", "p->"))
        if rng.random() < 0.7:
            lines.append(f"{way}{name} = {rng.randrange(2 ** 32)};")
        else:
            lines.append(f"x = {way}{name};")
            lines.append("ep_out_u32(x);")
    for name, width in fields:
        lines.append(f"x = v.{name};")
        lines.append("ep_out_u32(x);")
    lines += ["ep_out_u32(sizeof v);", "ep_write(&v, sizeof v);", "}"]
    return "\n".join(lines) + "\n"


def by_program(program, path):
    """The numbers that are put out, but the last one, which is what `main` returns."""
    done = subprocess.run([program, "run", "--order", "little", "--steps", STEPS, path], capture_output=True, text=True)
    lines = done.stdout.split("\n")
    if done.returncode != 0 or lines[-2] != "ended":
        sys.exit(f"{open(path).read()}{done.stdout}ended with {done.returncode}")
    return [line.split()[1] for line in lines[:-3]]


def by_gcc(folder, path):
    made = os.path.join(folder, "made")
    subprocess.check_call(["gcc", "-w", "-include", EP_H, "-o", made, path])
    return subprocess.run([made], capture_output=True, text=True, check=True).stdout.split()


def main():
    count = int(sys.argv[1]) if len(sys.argv) > 1 else 200
    with tempfile.TemporaryDirectory() as folder:
        program = measure.named_or_built(folder, sys.argv[2:])
        rng = random.Random(45)
        path = os.path.join(folder, "file.c")
        failed = 0
        for _ in range(count):
            text = source(rng)
            with open(path, "w") as file:
                file.write(text)
            ours, theirs = by_program(program, path), by_gcc(folder, path)
            if ours != theirs:
                failed += 1
                print(f"{text}here {ours}\ngcc  {theirs}\n")
        print(f"{count - failed} passed, {failed} failed")
        sys.exit(1 if failed else 0)


if __name__ == "__main__":
    main()
