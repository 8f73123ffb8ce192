#!/usr/bin/env python3
"""What `layout` costs beside a compiler, as two tables: tests/beside_gcc.py [PASSES [PROGRAM]]

Builds the program without proofs, compiled as the proved one is, unless a PROGRAM is given, and takes the layouts of
generated sources and `gcc -fsyntax-only` on the same source in turn. A table entry is the least processor time of
PASSES (5, if not given). The second table has what `layout` takes of sources of growing size: twice the source is to
take about twice the time.
"""
import os, resource, subprocess, sys, tempfile

import measure

MAIN = "int main(void) {\n"


def lines(count, line):
    """A line for each number, with the number for `{k}` and sums of it."""
    return "".join(line(k) + "\n" for k in range(count))


def in_main(before, count, line):
    return f"{MAIN}{before}\n{lines(count, line)}}}\n"


def at_file(count, line):
    return f"{lines(count, line)}{MAIN}}}\n"


LONG = "a_rather_long_name_of_a_counter"

SHAPES = [
    ("30,000 statements `x=x+1;`", in_main("int x = 0;", 30000, lambda k: "x=x+1;")),
    ("20,000 assignments among 1,000 variables", in_main(
        lines(1000, lambda k: f"int v{k} = 0;"), 20000, lambda k: f"v{k % 1000}=v{k * 7 % 1000}+{k};")),
    ("8,000 tests", in_main("int x = 0;", 8000, lambda k: f"if (x < {k}) x = {k};")),
    ("5,000 `if`s with `else` and blocks", in_main(
        "int x = 0;", 5000, lambda k: f"if (x < {k}) {{ x = {k}; }} else {{ x = x - 1; }}")),
    ("5,000 `for` loops", in_main(
        "int i; int x = 0;", 5000, lambda k: f"for (i = 0; i < {k}; i++) x = x + i;")),
    ("6,000 `while` loops", in_main("int x = 0;", 6000, lambda k: f"while (x < {k}) {{ x++; }}")),
    ("6,000 blocks with variables", in_main("", 6000, lambda k: f"{{ int x = {k}; int y; y = x; }}")),
    ("10,000 statements of long names", in_main(
        f"int {LONG} = 0;", 10000, lambda k: f"{LONG} = {LONG} + 1;")),
    ("10,000 stores of bytes into a buffer", "unsigned char b[1000];\n" + in_main(
        "", 10000, lambda k: f"b[{k % 1000}] = (unsigned char)({k} >> 8);")),
    ("12,000 members through pointers", "struct s { int a; int b; };\n" + in_main(
        "struct s t; struct s *p; p = &t;", 12000, lambda k: f"p->a = p->b + {k};")),
    ("10,000 stores through pointers", in_main(
        "int a[10]; int *p; p = a;", 10000, lambda k: f"*(p + {k % 10}) = p[{(k + 1) % 10}];")),
    ("60,000 operators, 40 a statement", in_main(
        "unsigned x = 1;", 1500, lambda k: "x=" + "+".join(f"x*{j}" for j in range(20)) + ";")),
    ("5,000 functions", at_file(5000, lambda k: f"int f{k}(int a, int b) {{ return a + b * {k}; }}")),
    ("5,000 functions that call one", "int f0(int a) { return a; }\n" + at_file(
        5000, lambda k: f"int f{k + 1}(int a) {{ int r; r = f0(a); return r + {k}; }}")),
    ("10,000 prototypes", at_file(10000, lambda k: f"int f{k}(int a, unsigned b, char *c);")),
    ("15,000 globals", at_file(15000, lambda k: f"int g{k};")),
    ("10,000 globals with values", at_file(10000, lambda k: f"unsigned g{k} = {k};")),
    ("an array of 16,000 values", "int a[16000] = {" + ",".join(map(str, range(16000))) + "};\n" + MAIN + "}\n"),
    ("6,000 structures", at_file(6000, lambda k: f"struct s{k} {{ char a; int b; short c; }};")),
    ("10,000 members of one structure", "struct s {\n" + lines(10000, lambda k: f"int m{k};") + f"}};\n{MAIN}}}\n"),
    ("12,000 typedefs", at_file(12000, lambda k: f"typedef unsigned int t{k};")),
    ("8,000 statements between comments", in_main(
        "int x = 0;", 8000, lambda k: f"/* step {k} of a long way, told in words */\n\nx = x + {k}; // as said")),
]


def chain(n):
    return "typedef int t0;\n" + lines(n, lambda k: f"typedef t{k} *t{k + 1};")


def chain_alone(n):
    return chain(n) + MAIN + "}\n"


def deep_globals(n):
    return chain(24000) + at_file(n, lambda k: f"t24000 g{k};")


def arms(head):
    """Conditionals of a function each, whose heads are the same but for the name."""
    order = "#if __BYTE_ORDER__ == __ORDER_LITTLE_ENDIAN__"

    def source(n):
        one = "{order}\nint f{i}({head}) {{ return 0; }}\n#else\nint f{i}({head}) {{ return 1; }}\n#endif\n"
        return "int g;\n" + "".join(one.format(order=order, i=i, head=head) for i in range(n)) + "int main(void) {}\n"

    return source


GROWING = [
    ("a chain of typedefs, each a pointer to the one before", chain_alone, (5000, 10000, 20000, 40000)),
    ("globals behind such a chain of 24,000, of its last type", deep_globals, (2000, 4000, 8000)),
    ("conditionals of one function each, `int f(int x)`", arms("int x"), (1000, 2000, 4000, 8000)),
    ("the same, `int f(int a[][sizeof g])`", arms("int a[][sizeof g]"), (1000, 2000, 4000)),
    ("the same, `int f(int n, int a[][sizeof n])`", arms("int n, int a[][sizeof n]"), (500, 1000, 2000)),
]


def milliseconds(words):
    """The processor time of a command that must end well."""
    before = resource.getrusage(resource.RUSAGE_CHILDREN)
    child = subprocess.run(words, capture_output=True, text=True)
    after = resource.getrusage(resource.RUSAGE_CHILDREN)
    if child.returncode != 0:
        sys.exit(f"{words}: {child.returncode}\n{child.stdout[:300]}{child.stderr[:300]}")
    return (after.ru_utime + after.ru_stime - before.ru_utime - before.ru_stime) * 1000


def main():
    passes = int(sys.argv[1]) if len(sys.argv) > 1 else 5
    with tempfile.TemporaryDirectory() as folder:
        program = os.path.abspath(sys.argv[2]) if len(sys.argv) > 2 else measure.build(folder, "endport_cli")
        path = os.path.join(folder, "source.c")
        ours, others = [program, "layout", path], ["gcc", "-fsyntax-only", "-w", path]

        def least(text, commands):
            with open(path, "w") as f:
                f.write(text)
            times = [[milliseconds(words) for words in commands] for _ in range(passes)]
            return " | ".join(f"{min(column):,.0f} ms" for column in zip(*times))

        print("| Source | `layout` | `gcc` |\n|---|---|---|")
        for name, text in SHAPES:
            print(f"| {name} | {least(text, [ours, others])} |", flush=True)
        print("\n| Source | n | `layout` |\n|---|---|---|")
        for name, source, sizes in GROWING:
            for n in sizes:
                print(f"| {name} | {n:,} | {least(source(n), [ours])} |", flush=True)


if __name__ == "__main__":
    main()
