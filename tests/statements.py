#!/usr/bin/env python3
"""What statements cost the analysis, as a table: tests/statements.py [PASSES [PROGRAM]]

Builds the program without proofs, compiled as the proved one is, unless a PROGRAM is given, and checks generated
sources: one with a statement so many times, one without it. An entry is the difference of the processor times for
each time that the statement stands there, the least of PASSES (3, if not given). A branch on a byte that the two
machines may have otherwise makes both sides run one after the other, so such an entry has the statement on each side
alone.
"""
import os, resource, subprocess, sys, tempfile

import measure

# bytes of all objects of a source, which are at most 65,536
SIZES = (16320, 32640, 65280)
TIMES = 8

HEAD = """#include <stdint.h>
#include <string.h>
#include "ep.h"
"""

# name, how many objects of n bytes, declarations at file scope, declarations of main, what stands before, the statement
TABLE = [
    ("memset to 0", 1, "uint8_t a[{n}];", "", "", "memset(a, 0, {n});"),
    ("memset to an input", 1, "uint8_t a[{n}];", "int x;", "x = ep_in_u8();", "memset(a, x, {n});"),
    ("memset, one place of two", 2, "uint8_t a[{n}]; uint8_t b[{n}];", "uint8_t *p; uint8_t x;",
     "x = ep_in_u8(); p = a; if (x) p = b;", "memset(p, 0, {n});"),
    ("memset on each side alone", 1, "uint8_t a[{n}];", "uint32_t x; uint8_t *q;",
     "x = ep_in_u32(); q = (uint8_t *)&x;", "if (*q) memset(a, 1, {n});"),
    ("the branch without it", 1, "uint8_t a[{n}];", "uint32_t x; uint8_t *q;",
     "x = ep_in_u32(); q = (uint8_t *)&x;", "if (*q) a[0] = 1;"),
    ("memcpy of bytes", 2, "uint8_t a[{n}]; uint8_t b[{n}];", "", "", "memcpy(a, b, {n});"),
    ("memcpy of 32 bits each", 2, "uint32_t a[{n} / 4]; uint32_t b[{n} / 4];", "", "", "memcpy(a, b, {n});"),
    ("memcpy, one place of two", 3, "uint8_t a[{n}]; uint8_t b[{n}]; uint8_t c[{n}];", "uint8_t *p; uint8_t x;",
     "x = ep_in_u8(); p = a; if (x) p = b;", "memcpy(p, c, {n});"),
    ("memcpy, from one place of two", 3, "uint8_t a[{n}]; uint8_t b[{n}]; uint8_t c[{n}];", "uint8_t *p; uint8_t x;",
     "x = ep_in_u8(); p = a; if (x) p = b;", "memcpy(c, p, {n});"),
    ("a structure of bytes assigned", 2, "struct s {{ uint8_t x[{n}]; }}; struct s a; struct s b;", "", "", "a = b;"),
    ("one with padding", 2, "struct e {{ uint8_t c; uint32_t i; }}; struct s {{ struct e x[{n} / 8]; }}; "
     "struct s a; struct s b;", "", "", "a = b;"),
    ("one to one place of two", 3, "struct s {{ uint8_t x[{n}]; }}; struct s a; struct s b; struct s c;",
     "struct s *p; uint8_t x;", "x = ep_in_u8(); p = &a; if (x) p = &b;", "*p = c;"),
    ("one from one place of two", 3, "struct s {{ uint8_t x[{n}]; }}; struct s a; struct s b; struct s c;",
     "struct s *p; uint8_t x;", "x = ep_in_u8(); p = &a; if (x) p = &b;", "c = *p;"),
    ("ep_read", 1, "uint8_t a[{n}];", "", "", "ep_read(a, {n});"),
    ("ep_write", 1, "uint8_t a[{n}];", "", "", "ep_write(a, {n});"),
    ("an element by an unknown index", 1, "uint8_t a[{n}];", "uint16_t i;",
     "i = ep_in_u16(); i = i % {n}u;", "a[i] = 1;"),
    ("a call with an array of bytes in its frame", 1, "static void f(void) {{ uint8_t a[{n}]; a[0] = 0; }}", "", "",
     "f();"),
    ("the same, with the array cleared", 1, "static void f(void) {{ uint8_t a[{n}] = {{ 0 }}; a[0] = 0; }}", "", "",
     "f();"),
    ("of 32 bits each", 1, "static void f(void) {{ uint32_t a[{n} / 4]; a[0] = 0; }}", "", "", "f();"),
    ("the same, cleared", 1, "static void f(void) {{ uint32_t a[{n} / 4] = {{ 0 }}; a[0] = 0; }}", "", "", "f();"),
    ("of structures with padding", 1, "struct e {{ uint8_t c; uint32_t i; }}; "
     "static void f(void) {{ struct e a[{n} / 8]; a[0].i = 0; }}", "", "", "f();"),
    ("the same, cleared", 1, "struct e {{ uint8_t c; uint32_t i; }}; "
     "static void f(void) {{ struct e a[{n} / 8] = {{ {{ 0 }} }}; a[0].i = 0; }}", "", "", "f();"),
    ("of pointers", 1, "static void f(void) {{ uint8_t *a[{n} / 8]; a[0] = NULL; }}", "", "", "f();"),
    ("the same, cleared", 1, "static void f(void) {{ uint8_t *a[{n} / 8] = {{ 0 }}; a[0] = NULL; }}", "", "", "f();"),
]


def source(row, n, times):
    at_file, in_main, before, statement = (part.format(n=n) for part in row[2:])
    return f"{HEAD}{at_file}\nint main(void) {{\n{in_main}\n{before}\n" + f"{statement}\n" * times + "return 0;\n}\n"


def seconds(program, path):
    """The processor time of the program's check of a file."""
    before = resource.getrusage(resource.RUSAGE_CHILDREN)
    child = subprocess.run([program, "check", path], capture_output=True, text=True)
    after = resource.getrusage(resource.RUSAGE_CHILDREN)
    if child.returncode not in (0, 1):
        sys.exit(f"{path}: {child.returncode}\n{child.stdout}{child.stderr}\n{open(path).read()}")
    return after.ru_utime + after.ru_stime - before.ru_utime - before.ru_stime


def main():
    passes = int(sys.argv[1]) if len(sys.argv) > 1 else 3
    with tempfile.TemporaryDirectory() as folder:
        program = os.path.abspath(sys.argv[2]) if len(sys.argv) > 2 else measure.build(folder, "endport_cli")
        path = os.path.join(folder, "source.c")
        print("| | n | n bytes | 2n | 4n |")
        print("|---|---|---|---|---|")
        for row in TABLE:
            shown = [f"{SIZES[0] // row[1]:,}"]
            for size in SIZES:
                n = size // row[1]
                least = []
                for times in (0, TIMES):
                    with open(path, "w") as f:
                        f.write(source(row, n, times))
                    least.append(min(seconds(program, path) for _ in range(passes)))
                shown.append(f"{(least[1] - least[0]) * 1000 / TIMES:.1f} ms")
            print("|", row[0], "|", " | ".join(shown), "|", flush=True)


if __name__ == "__main__":
    main()
