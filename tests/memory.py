#!/usr/bin/env python3
"""How much memory the program takes for sources of 1 MiB, as a table: tests/memory.py [PROGRAM]

Builds the program without proofs, compiled as the proved one is, unless a PROGRAM is given. For each shape of source
an entry is the most memory in MB (resident, of the whole process) that `check`, `run` of a step and `layout` take,
with the status of `check` and its processor time. The last line names the worst.
"""
import itertools, os, resource, subprocess, sys, tempfile

import measure

MOST = 1048576
# no command gets more processor time, in seconds
PATIENCE = 60


def filled(front, part, end, first=0):
    """A source of 1 MiB at most: between two texts a part, in which `@` is a number that rises, as often as it fits."""
    if "@" not in part:
        return front + part * ((MOST - len(front) - len(end)) // len(part)) + end
    parts, left = [], MOST - len(front) - len(end)
    for k in itertools.count(first):
        text = part.replace("@", format(k, "x"))
        if len(text) > left:
            return front + "".join(parts) + end
        parts.append(text)
        left -= len(text)


MAIN = "int main(void) {"
BACK = "int main(void) { }"
X = MAIN + " int x = 1; "

# name, and what its source is filled from: one source at a time, since a child counts what its parent has
TABLE = [
    ("`;`", (MAIN, ";", "}")),
    ("`{}`", (MAIN, "{}", "}")),
    ("`{;}`", (MAIN, "{;}", "}")),
    ("blocks of 2 `;`", (MAIN, "{" + ";" * 2 + "}", "}")),
    ("blocks of 12 `;`", (MAIN, "{" + ";" * 12 + "}", "}")),
    ("blocks of 33 `;`", (MAIN, "{" + ";" * 33 + "}", "}")),
    ("blocks of 65 `;`", (MAIN, "{" + ";" * 65 + "}", "}")),
    ("blocks of 257 `;`", (MAIN, "{" + ";" * 257 + "}", "}")),
    ("functions of 65 `;`", ("", "void f@(){" + ";" * 65 + "}", BACK)),
    ("`{{..}}`, 60 blocks in one another", (MAIN, "{" * 60 + "}" * 60, "}")),
    ("`x;`", (X, "x;", "}")),
    ("`1;`", (MAIN, "1;", "}")),
    ("`x=1;`", (X, "x=1;", "}")),
    ("`x++;`", (X, "x++;", "}")),
    ("`x=-x;`", (X, "x=-x;", "}")),
    ("`x=x+1;`", (X, "x=x+1;", "}")),
    ("`x=1+1+..`, 63 operators", (X, "x=1" + "+1" * 63 + ";", "}")),
    ("`x=- - ..1`, 63 operators", (X, "x=" + "- " * 63 + "1;", "}")),
    ("`if(x);`", (X, "if(x);", "}")),
    ("`if(x);else;`", (X, "if(x);else;", "}")),
    ("`while(0);`", (MAIN, "while(0);", "}")),
    ("`for(;0;);`", (MAIN, "for(;0;);", "}")),
    ("`f();`", ("void f(void){}" + MAIN, "f();", "}")),
    ("`ep_out_u8(1);`", (MAIN, "ep_out_u8(1);", "}")),
    ("`a[0]=1;`", (MAIN + "int a[1];", "a[0]=1;", "}")),
    ("`*p=1;`", (MAIN + "int x;int*p=&x;", "*p=1;", "}")),
    ("`s.a=1;`", ("struct s{int a;}s;" + MAIN, "s.a=1;", "}")),
    ("`break;` in a loop", (MAIN + "do{", "break;", "}while(0);}")),
    ("`return;`", ("void f(void){", "return;", "}" + BACK)),
    ("`char v@;` in a block", (MAIN, "char v@;", "}")),
    ("`int v@=1;` in a block", (MAIN, "int v@=1;", "}")),
    ("`char v@;` at file scope", ("", "char v@;", BACK)),
    ("`,v@` of one declaration", ("char v", ",v@", ";" + BACK)),
    ("`typedef int t@;`", ("", "typedef int t@;", BACK)),
    ("`void f@();`", ("", "void f@();", BACK)),
    ("`void f@(){}`", ("", "void f@(){}", BACK)),
    ("`struct s@{int a;};`", ("", "struct s@{int a;};", BACK)),
    ("`int m@;` of one structure", ("struct s{", "int m@;", "};" + BACK)),
    ("`1,` of a list", ("char a[]={", "1,", "1};" + BACK)),
    ("a `#if` round `;`", (MAIN + "\n", "#if __BYTE_ORDER__==__ORDER_BIG_ENDIAN__\n;\n#endif\n", "}")),
    ("blanks", (MAIN, " ", "}")),
    ("one name", ("", "a", "")),
    ("`a `", ("", "a ", "")),
]


def measured(program, words):
    """The status, the most memory in bytes and the processor time, or nothing, where it takes too long."""
    def limit():
        resource.setrlimit(resource.RLIMIT_CORE, (0, 0))
        resource.setrlimit(resource.RLIMIT_CPU, (PATIENCE, PATIENCE))
    child = subprocess.Popen([program, *words], preexec_fn=limit, stdin=subprocess.DEVNULL,
                             stdout=subprocess.DEVNULL, stderr=subprocess.DEVNULL)
    _, status, used = os.wait4(child.pid, 0)
    child.returncode = os.waitstatus_to_exitcode(status)
    if child.returncode < 0:
        return None
    return child.returncode, used.ru_maxrss * 1024, used.ru_utime + used.ru_stime


def main():
    worst = (0, "")
    with tempfile.TemporaryDirectory() as folder:
        program = measure.named_or_built(folder, sys.argv[1:])
        print("| | `check` | `run` | `layout` | status | time |\n|---|---|---|---|---|---|")
        for name, pieces in TABLE:
            path = os.path.join(folder, "full.c")
            with open(path, "w") as f:
                f.write(filled(*pieces))
            row, told = [], ("", "")
            for words in (["check", path], ["run", "--order", "big", "--steps", "1", path], ["layout", path]):
                found = measured(program, words)
                if found is None:
                    row.append(f"over {PATIENCE} s")
                    continue
                status, memory, seconds = found
                worst = max(worst, (memory, f"{words[0]} of {name}"))
                row.append(f"{memory / 1e6:.0f}")
                if words[0] == "check":
                    told = (status, f"{seconds:.1f} s")
            print("|", " | ".join([name, *row, *map(str, told)]), "|", flush=True)
    print(f"the worst: {worst[0] / 1e6:.0f} MB, {worst[1]}")


if __name__ == "__main__":
    main()
