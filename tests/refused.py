#!/usr/bin/env python3
"""Refuses `check` each request for memory in turn, one a run: tests/refused.py [--checked] [FILE..]

Builds the program once, without proofs, as `rt try --fail-alloc N` does for one N: there N is a constant in the code of
the wrapper round the allocator, and for each run it is changed in place. Optimised, unless `--checked` is given: then
with the address sanitizer, as `rt try` has it. Each run has to end with 6 and nothing written, or with the status and
the text that come where nothing is refused (some requests are for more than is needed, and then for less). Of each
source it says how many requests were refused, one after another from the first, and how the runs ended; the last is
found by 1,000 runs after it with the usual answer. Without FILEs it takes three small sources and examples/packet.c.
"""
import concurrent.futures, os, shutil, struct, subprocess, sys, tempfile, threading

import measure

MARK = 305419896
# so many runs one after another in which nothing was refused
QUIET = 1000
WORKERS = 2
BEGINNING = threading.Lock()

SMALL = {
    "a number that is taken and put out": """int main(void) {
  uint32_t x;
  x = ep_in_u32();
  ep_out_u32(x);
}
""",
    "a function by byte order": """#if __BYTE_ORDER__ == __ORDER_LITTLE_ENDIAN__
uint16_t ntohs_(uint16_t v) { return (v >> 8) | (v << 8); }
#else
uint16_t ntohs_(uint16_t v) { return v; }
#endif
int main(void) {
  uint16_t x, y;
  ep_read(&x, 2);
  y = ntohs_(x);
  ep_out_u16(y);
}
""",
    "a loop that one machine may leave before the other": """union word { uint32_t w; uint8_t b[4]; };
int main(void) {
  union word u;
  uint32_t n, t;
  u.w = ep_in_u32();
  n = u.b[0] & 15;
  t = 0;
  while (n) { n = n - 1; t = t + 1; }
  t = 5;
  ep_out_u32(t);
}
""",
}


def places(program):
    """Where the number stands in the program: as it is, or one less, in a comparison by 32 bits."""
    with open(program, "rb") as f:
        code = f.read()
    found = []
    for less in (0, 1):
        at = code.find(struct.pack("<I", MARK - less))
        while at >= 0:
            found.append((at, less))
            at = code.find(struct.pack("<I", MARK - less), at + 1)
    if not found:
        sys.exit("the number isn't found in the program")
    return found


class Refusing:
    """A copy of the program, whose number is set before each run."""

    def __init__(self, program, found, path):
        shutil.copy(program, path)
        self.path, self.found = path, found

    def run(self, number, source):
        # a file that is open for writing, in a child that was just begun too, can't be run
        with BEGINNING:
            with open(self.path, "r+b") as f:
                for at, less in self.found:
                    f.seek(at)
                    f.write(struct.pack("<I", number - less))
            child = subprocess.Popen([self.path, "check", source], stdin=subprocess.DEVNULL, stdout=subprocess.PIPE,
                                     stderr=subprocess.DEVNULL)
        text = child.communicate(timeout=120)[0]
        return child.returncode, text


def tried(copies, source, pool):
    """The usual answer; how many requests were refused, and in how many runs with the usual answer; other answers."""
    usual = copies[0].run(2 ** 31 - 1, source)
    wrong, plain, last, number = [], [], 0, 1
    while number - last <= QUIET:
        numbers = range(number, number + len(copies) * 50)

        def part(k):
            return [(n, copies[k].run(n, source)) for n in numbers[k::len(copies)]]

        for n, answer in sorted(pair for done in pool.map(part, range(len(copies))) for pair in done):
            if answer == usual:
                plain.append(n)
                continue
            last = n
            if answer != (6, b""):
                wrong.append((n, answer))
        number = numbers[-1] + 1
    return usual, last, sum(n < last for n in plain), wrong


def main():
    words = sys.argv[1:]
    checked = "--checked" in words
    files = [os.path.abspath(word) for word in words if word != "--checked"]
    with tempfile.TemporaryDirectory() as folder:
        build = os.path.join(folder, "build")
        os.mkdir(build)
        program = measure.build(build, "endport_cli", ["--fail-alloc", str(MARK)], checked)
        found = places(program)
        copies = [Refusing(program, found, os.path.join(folder, f"program{k}")) for k in range(WORKERS)]
        sources = [(os.path.relpath(file, measure.ROOT), file) for file in files]
        if not files:
            for k, (name, text) in enumerate(SMALL.items()):
                path = os.path.join(folder, f"{k}.c")
                with open(path, "w") as f:
                    f.write(text)
                sources.append((name, path))
            sources.append(("examples/packet.c", os.path.join(measure.ROOT, "examples", "packet.c")))
        bad = False
        with concurrent.futures.ThreadPoolExecutor(WORKERS) as pool:
            for name, path in sources:
                (status, _), count, plain, wrong = tried(copies, path, pool)
                for number, (got, text) in wrong:
                    print(f"{name}: where request {number} is refused: status {got}, {text[:200]!r}")
                bad = bad or bool(wrong) or count == 0
                print(f"{name}: {count} requests refused in turn: {count - plain - len(wrong)} ended with 6 and "
                      f"nothing written, {plain} with the usual status {status} and text, {len(wrong)} otherwise",
                      flush=True)
    sys.exit(1 if bad else 0)


if __name__ == "__main__":
    main()
