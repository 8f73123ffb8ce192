#!/usr/bin/env python3
"""Tries sources in which all is as deep, or as many, as it may be: tests/deep.py [PROGRAM]

Builds the program without proofs, compiled as the proved one is, unless a PROGRAM is given. `check`, `run` and
`layout` of each source have to end as wanted with a stack of 8 MB. Then the least stack with which they do is looked
for, by halves, down to 8 KB; the table has it in KB, with the processor time of `check`.
"""
import os, resource, subprocess, sys, tempfile, time

import measure

KB = 1024
STARS = "*" * 64


def nots(count, inner):
    """An operand in so many `!`, each round parentheses."""
    return "!(" * count + inner + ")" * count


# with the `{` of main and the `(` of an `if` 64 brackets are open in it, and 64 operators are inside one another
TEST = "!" + nots(61, f"p == (int {STARS})0")
# the same in an assignment, which is an operator too
VALUE = nots(61, f"p == (int {STARS})0")
POINTER = f"int {STARS}p = 0; int x = 1; "


def all_at_once(inner):
    """64 statements, the last of them this one, 63 of them tests of 64 operators over a pointer of 64 stars."""
    return f"if ({TEST}) " * 63 + inner


def along(count, body):
    """So many functions, each of which calls the one before, and main as the last."""
    lines = [f"int f0(void) {{ {POINTER}{body(f'x = {VALUE};')} return x; }}"]
    for k in range(1, count):
        name = f"f{k}" if k + 1 < count else "main"
        lines.append(f"int {name}(void) {{ {POINTER}{body(f'x = f{k - 1}();')} return x; }}")
    return "\n".join(lines) + "\n"


def chain(count):
    lines = ["void f1(void) { }"] + [f"void f{k}(void) {{ f{k - 1}(); }}" for k in range(2, count + 1)]
    return "\n".join(lines) + f"\nint main(void) {{ f{count}(); return 0; }}\n"


def struct_in_struct(count):
    """A variable of a structure in so many others, cleared and with one value."""
    inner = "".join(f"struct s{k} {{ " for k in range(count)) + "int a; " + "} a; " * (count - 1) + "};"
    member = "v" + ".a" * count
    return f"{inner}\nint main(void) {{ struct s0 v = {'{' * count} 1 {'}' * count}; return {member}; }}\n"


def blocks(count):
    names = [f"v{k}" for k in range(count)]
    return ("int main(void) {\nuint32_t " + ", ".join(names) + ";\n" + "".join(f"{n} = 1;\n" for n in names)
            + f"ep_out_u32({names[-1]});\nreturn 0;\n}}\n")


ONE_BLOCK = """int main(void) {
  uint8_t a[65532];
  memset(a, 7, 65532);
  a[65531] = 1;
  ep_out_u8(a[0]);
  return 0;
}
"""

# name, source
TABLE = [
    ("parentheses", "int main(void) { int x; x = " + "(" * 63 + "1" + ")" * 63 + "; return x; }\n"),
    ("blocks in one another", "int main(void) { int x = 1; " + "{" * 63 + "x = 2;" + "}" * 63 + " return x; }\n"),
    ("operators", "int main(void) { int x; x = " + "- " * 63 + "1; return x; }\n"),
    ("operators, from the left", "int main(void) { int x; x = 1" + " + 1" * 63 + "; return x; }\n"),
    ("`&&` and `||` in turn", "int main(void) { int x = ep_in_i32(); if (" + "(x == 1 || (x == 2 && " * 31 + "x"
     + "))" * 31 + ") x = 2; return x; }\n"),
    ("`? :`", "int main(void) { int x = ep_in_i32(); x = " + "x ? 1 : " * 63 + "2; return x; }\n"),
    ("`if`s", "int main(void) { int x = 1; " + "if (x) " * 63 + "x = 2; return x; }\n"),
    ("`if`s over an input", "int main(void) { int x = ep_in_i32(); " + "if (x) " * 63 + "x = 2; return x; }\n"),
    ("`else if`s", "int main(void) { int x = 1; " + "if (!x) ; else " * 63 + "x = 2; return x; }\n"),
    ("`do`s", "int main(void) { int x = 1; " + "do " * 63 + "x = 2;" + " while (0);" * 63 + " return x; }\n"),
    ("stars", f"int main(void) {{ int {STARS}p = 0; return p == 0; }}\n"),
    ("bounds", "int a" + "[1]" * 64 + ";\nint main(void) { return a" + "[0]" * 63 + " == 0; }\n"),
    ("structures", struct_in_struct(63)),
    ("all at once", f"int main(void) {{ {POINTER}{all_at_once(f'x = {VALUE};')} return x; }}\n"),
    ("256 calls", chain(256)),
    ("all at once, 256 statements along 4 functions", along(4, all_at_once)),
    ("65,532 bytes in one block", ONE_BLOCK),
    ("16,383 variables", blocks(16383)),
]

RUN = ["run", "--order", "big", "--steps", "100000"]


def limited(program, words, stack):
    """The status and the text with so many bytes of stack, and the processor time."""
    def limit():
        resource.setrlimit(resource.RLIMIT_CORE, (0, 0))
        resource.setrlimit(resource.RLIMIT_STACK, (stack, stack))
    child = subprocess.Popen([program, *words], preexec_fn=limit, stdin=subprocess.DEVNULL, stdout=subprocess.PIPE,
                             stderr=subprocess.DEVNULL)
    text = child.stdout.read()
    child.stdout.close()
    _, status, used = os.wait4(child.pid, 0)
    child.returncode = os.waitstatus_to_exitcode(status)
    return child.returncode, text, used.ru_utime + used.ru_stime


def least(program, words, wanted):
    """The least stack, in KB, with which the answer is the wanted one."""
    low, high = 8, 8192
    while high - low > max(1, low // 64):
        middle = (low + high) // 2
        if limited(program, words, middle * KB)[:2] == wanted:
            high = middle
        else:
            low = middle
    return high


def main():
    failed = 0
    with tempfile.TemporaryDirectory() as folder:
        program = measure.named_or_built(folder, sys.argv[1:])
        print("| | `check` | `run` | `layout` | time of `check` |\n|---|---|---|---|---|")
        for name, source in TABLE:
            path = os.path.join(folder, "deep.c")
            with open(path, "w") as f:
                f.write(source)
            row, spent = [], 0
            for command in (["check"], RUN, ["layout"]):
                words = [*command, path] + (["1"] if command is RUN else [])
                status, text, seconds = limited(program, words, 8192 * KB)
                if command[0] == "check":
                    spent = seconds
                if status not in ((0, 1) if command[0] == "check" else (0,)):
                    failed += 1
                    print(f"{name}, {command[0]}: status {status}, {text[:100]!r}")
                    row.append("")
                else:
                    row.append(f"{least(program, words, (status, text))} KB")
            print("|", " | ".join([name, *row, f"{spent * 1000:.0f} ms"]), "|", flush=True)
    print(f"{3 * len(TABLE) - failed} passed, {failed} failed")
    sys.exit(1 if failed else 0)


if __name__ == "__main__":
    main()
