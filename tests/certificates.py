#!/usr/bin/env python3
"""Tries `prove` and `verify` on the built program, and measures them: tests/certificates.py [CHANGES [PROGRAM]]

Builds the program without proofs, compiled as the proved one is, unless a PROGRAM is given.
- Each source of examples/ and of the tables of tests is given to `prove`, as the tables have it and with no turns of
  loops unrolled: its answer is that of `check`, but a certificate where that is `portable`, and `verify` of this
  certificate answers `verified`.
- CHANGES times (10,000, if not given) one of these certificates is changed, always the same ones. `verify` says `bad
  certificate` exactly where the reader of this script reads none, and else what it may say. Where it says `verified`,
  `check` of the source inside says `portable`, or both machines do the same on some inputs.
- A table has what `prove`, `verify` and `check` cost: processor time, the least of 5.
The last line is 'N passed, M failed'.
"""
import collections, concurrent.futures, glob, os, random, re, resource, subprocess, sys, tempfile

import measure

WORKERS = 2
PASSES = 5
ORDERS = ["little", "big", "swapped-words"]
MODELS = ["ilp32", "lp64"]
BITS = [8, 8, 16, 16, 32, 32, 64, 64]
LEAST, GREATEST = -2 ** 63, 2 ** 64 - 1
SOURCE_MOST, CERTIFICATE_MOST = 1048576, 16777216
STDIN = "/dev/stdin"

Certificate = collections.namedtuple("Certificate", "left right model unroll heads source fields parts")
Cell = collections.namedtuple("Cell", "side block offset type maybe sort value form")
Run = collections.namedtuple("Run", "name begin end")
Fixed = collections.namedtuple("Fixed", "bits width")


# ---- a reader of certificates, by the format alone

class NoCertificate(Exception):
    pass


def wants(holds):
    if not holds:
        raise NoCertificate


class Reader:
    """Reads from the front. `fields` has where each field lies, `parts` the same of heads, cells, targets and segments,
    and then where the field lies that counts these.
    """

    def __init__(self, data):
        self.data, self.at, self.fields, self.parts = data, 0, [], []

    def take(self, count):
        wants(self.at + count <= len(self.data))
        self.at += count
        self.fields.append((self.at - count, self.at))
        return self.data[self.at - count:self.at]

    def number(self, count):
        return int.from_bytes(self.take(count), "little")

    def one_of(self, count):
        n = self.number(1)
        wants(n < count)
        return n

    def signed(self):
        return int.from_bytes(self.take(16), "little", signed=True)

    def list(self, count_size, read):
        """As many parts as a field says."""
        count, values = self.number(count_size), []
        field = self.fields[-1]
        while len(values) < count:
            begin = self.at
            values.append(read())
            self.parts.append(((begin, self.at), field))
        return values

    def value(self):
        low, high, remainder, modulus = (self.signed() for _ in range(4))
        wants(LEAST <= low <= high <= GREATEST)
        wants(0 <= modulus < 2 ** 65 and (modulus == 0 or 0 <= remainder < modulus))
        if modulus:
            wants(LEAST + (remainder - LEAST) % modulus <= GREATEST)
        else:
            # a number alone; the range of any other class is that of all numbers
            wants(LEAST <= remainder <= GREATEST)
            low, high = max(low, remainder), min(high, remainder)
        wants(low < high or low == high and (low - remainder) % (modulus or 1) == 0)

    def pointer(self):
        null, blocks = self.one_of(2), self.list(4, lambda: (self.number(4), self.value())[0])
        wants(all(a < b for a, b in zip(blocks, blocks[1:])) and (null or blocks))

    def segment(self):
        if self.one_of(2):
            return Fixed(self.number(8), self.number(1))
        name = (self.one_of(3), self.number(4), self.number(4), self.one_of(8))
        return Run(name, self.number(1), self.number(1))

    def cell(self):
        head = (self.one_of(3), self.number(4), self.number(4), self.one_of(9), self.one_of(2), self.one_of(3))
        value = [lambda: None, self.value, self.pointer][head[-1]]()
        return Cell(*head, value, self.list(1, self.segment))

    def head(self, model):
        cells = self.list(4, self.cell)
        keys = [(c.block, c.offset, c.side) for c in cells]
        wants(all(a < b for a, b in zip(keys, keys[1:])))
        names = {(c.side, c.block, c.offset, c.type) for c in cells if not c.maybe}
        for c in cells:
            wants(c.offset + size(c, model) <= 2 ** 32)
            wants(c.sort == 0 and c.maybe or c.sort == (2 if c.type == 8 else 1))
            wants(not c.form or c.type < 8 and not c.maybe and is_form(c.form, BITS[c.type]))
            wants(all(s.name in names for s in c.form if isinstance(s, Run)))
        for sides in ((0, 2), (1, 2)):
            seen = [c for c in cells if c.side in sides]
            wants(all(a.block < b.block or a.offset + size(a, model) <= b.offset for a, b in zip(seen, seen[1:])))
        return cells

    def certificate(self):
        wants(self.take(8) == b"ENDCERT1")
        left, right, model = self.one_of(3), self.one_of(3), self.one_of(2)
        unroll = self.number(4)
        wants(left != right and unroll <= 4096)
        heads = self.list(8, lambda: self.head(model))
        length = self.number(4)
        wants(length <= SOURCE_MOST and length == len(self.data) - self.at)
        return Certificate(left, right, model, unroll, heads, self.take(length), self.fields, self.parts)


def size(cell, model):
    return (4, 8)[model] if cell.type == 8 else BITS[cell.type] // 8


def width(segment):
    return segment.end - segment.begin if isinstance(segment, Run) else segment.width


def is_form(form, bits):
    """Whether these segments are in normal form, and have so many bits."""
    for s in form:
        right = s.begin < s.end <= 64 if isinstance(s, Run) else 0 < s.width <= 64 and s.bits < 2 ** s.width
        if not right:
            return False
    for a, b in zip(form, form[1:]):
        both = isinstance(a, Fixed) and isinstance(b, Fixed)
        if both or isinstance(a, Run) and isinstance(b, Run) and a.name == b.name and a.end == b.begin:
            return False
    return sum(map(width, form)) == bits


def read(data):
    try:
        return Reader(data).certificate()
    except NoCertificate:
        return None


# ---- sources

LITERAL = re.compile(r'"((?:[^"\\]|\\.)*)"', re.S)
ESCAPE = re.compile(r"\\(?:x([0-9a-fA-F]{2})|(\n\s*)|(.))", re.S)
NAMED = {"n": "\n", "t": "\t", "r": "\r", "0": "\0"}


def unescaped(text):
    def of(found):
        if found[1]:
            return chr(int(found[1], 16))
        return "" if found[2] else NAMED.get(found[3], found[3])
    return ESCAPE.sub(of, text)


def content(*names):
    with open(os.path.join(measure.ROOT, *names), "rb") as f:
        return f.read()


def sources():
    """All sources, each once: a name, the options that its table has, and the source."""
    found = {}

    def add(name, options, source):
        found.setdefault((tuple(options), source), name)

    for path in sorted(glob.glob(os.path.join(measure.ROOT, "examples", "*.c"))):
        add("examples/" + os.path.basename(path), [], content(path))
    for k, row in enumerate((b"\n" + content("crates", "tests_reports", "stdin")).split(b"\n> ")[1:]):
        words, source = row.split(b"\n", 1)
        options = words.decode().split()[1:-1]
        if words.startswith(b"check ") and "--domain" not in options:
            add(f"row {k + 1} of tests_reports", options, source)
    for k, row in enumerate(content("crates", "tests_sources", "data", "sources.txt").split(b"\n== ")[1:]):
        words, source = row.split(b"\n", 1)
        add(f"row {k + 1} of tests_sources", ["--model", words.decode().split()[1]], source)
    for path in sorted(glob.glob(os.path.join(measure.ROOT, "crates", "tests_*", "src", "*.rt"))):
        for k, text in enumerate(LITERAL.findall(content(path).decode())):
            if "main(" in text:
                add(f"text {k + 1} of {os.path.basename(path)}", [], unescaped(text).encode())
    return [(name, list(options), source) for (options, source), name in found.items()]


# ---- the program

class Program:
    def __init__(self, path):
        self.path = path

    def __call__(self, words, data, *inputs):
        done = subprocess.run([self.path, *words, STDIN, *inputs], input=data, capture_output=True, timeout=300)
        if done.stderr:
            sys.exit(f"{words}: {done.stderr[:300]}")
        return done.returncode, done.stdout

    def run(self, cert, order, inputs):
        words = ["run", "--order", ORDERS[order], "--steps", "100000", "--model", MODELS[cert.model]]
        return self(words, cert.source, *map(str, inputs))


def options_of(cert):
    orders = f"{ORDERS[cert.left]},{ORDERS[cert.right]}"
    return ["--unroll", str(cert.unroll), "--orders", orders, "--model", MODELS[cert.model]]


class Tries:
    def __init__(self):
        self.passed = self.failed = 0

    def told(self, name, holds, *got):
        if holds:
            self.passed += 1
        else:
            self.failed += 1
            print(f"{name}:", *(repr(g)[:300] for g in got), flush=True)


def try_source(program, name, options, source):
    """What fails, and the certificate, if there is one."""
    checked, proved = program(["check", *options], source), program(["prove", *options], source)
    if checked[0] != 0:
        return (None, None) if proved == checked else ((name, options, checked, proved), None)
    cert = read(proved[1])
    if proved[0] != 0 or cert is None or cert.source != source:
        return (name, options, checked, proved), None
    # what the words don't say is as usual
    usual = Certificate(0, 1, 0, 32, [], b"", [], [])
    wanted = options_of(usual)
    for k in range(0, len(options), 2):
        wanted[wanted.index(options[k]) + 1] = options[k + 1]
    verified = program(["verify"], proved[1])
    holds = options_of(cert) == wanted and verified == (0, b"verified\n")
    return None if holds else (name, options, wanted, verified), proved[1]


def try_sources(program, tries, pool):
    """All certificates of the sources."""
    rows = []
    for name, options, source in sources():
        rows.append((name, options, source))
        if "--unroll" not in options:
            rows.append((name, [*options, "--unroll", "0"], source))
    certs = {}
    for row, (fault, cert) in zip(rows, pool.map(lambda row: try_source(program, *row), rows)):
        tries.told(row[0], fault is None, fault)
        if cert is not None:
            certs.setdefault(cert, row[0])
    heads = [h for c in certs for h in read(c).heads]
    cells = sum(map(len, heads))
    size = sum(len(c) - 27 - len(read(c).source) for c in certs)
    print(f"{len(rows):,} calls of prove: {len(certs):,} different certificates, with {len(heads):,} heads of "
          f"{cells:,} cells, {size / max(cells, 1):.1f} bytes for each cell", flush=True)
    return list(certs)


# ---- changed certificates

def counted(data, field, change):
    """The same with another number in a field, if it isn't below 0."""
    a, b = field
    count = max(0, int.from_bytes(data[a:b], "little") + change)
    return data[:a] + count.to_bytes(b - a, "little") + data[b:]


def some_place(rng, data, cert):
    """A place, every second time before the source."""
    return rng.randrange(len(data) - (len(cert.source) if rng.randrange(2) else 0))


def a_byte(rng, data, cert):
    at = some_place(rng, data, cert)
    new = rng.choice([rng.randrange(256), data[at] ^ 1 << rng.randrange(8), (data[at] + rng.choice([-1, 1])) % 256])
    return data[:at] + bytes([new]) + data[at + 1:]


def a_span(rng, data, cert):
    """Where some bytes, a field or a part lies, and for three of four parts the field that counts it."""
    if cert.parts and rng.randrange(2):
        span, field = rng.choice(cert.parts)
        return span, field if rng.randrange(4) else None
    if rng.randrange(2):
        return rng.choice(cert.fields), None
    at = some_place(rng, data, cert)
    return (at, min(len(data), at + rng.randrange(1, 40))), None


def cut(rng, data, cert):
    if rng.randrange(4) == 0:
        return data[:rng.randrange(len(data))]
    (a, b), field = a_span(rng, data, cert)
    less = data[:a] + data[b:]
    return counted(less, field, -1) if field else less


def doubled(rng, data, cert):
    (a, b), field = a_span(rng, data, cert)
    more = data[:b] + data[a:]
    return counted(more, field, 1) if field else more


def swapped(rng, data, cert):
    (a, b), (c, d) = sorted(rng.sample(cert.fields, 2))
    if rng.randrange(2):
        alike = [f for f in cert.fields if f[1] - f[0] == b - a and data[f[0]:f[1]] != data[a:b]]
        (a, b), (c, d) = sorted([(a, b), rng.choice(alike or [(c, d)])])
    return data[:a] + data[c:d] + data[b:c] + data[a:b] + data[d:]


CHANGES = [("a byte changed", a_byte), ("cut", cut), ("doubled", doubled), ("two fields swapped", swapped)]
TEXTS = {
    0: rb"verified\n", 2: rb"\d+: refused \d+ [a-z-]+( .*)?\n", 6: rb"", 7: rb"", 12: rb"bad certificate\n",
    11: rb"not verified: (fault \d+ [UE]\d+ [a-z0-9-]+|outside \d+|missing \d+|spare)\n",
}


def agrees(program, data, cert):
    """Why a yes is right: what `check` says, or runs on both machines. None, where it is wrong."""
    if program(["check", *options_of(cert)], cert.source) == (0, b"portable\n"):
        return "portable"
    rng = random.Random(len(data))
    for inputs in [[], [0] * 64, [255] * 64, *([rng.randrange(2 ** 64) for _ in range(64)] for _ in range(5))]:
        left, right = (program.run(cert, order, inputs) for order in (cert.left, cert.right))
        if left != right or left[0] == 9:
            return None
    return "runs alike"


def try_changed(program, data):
    """The status, what was right about it, and what fails."""
    status, text = program(["verify"], data)
    cert = read(data)
    right = status in TEXTS and re.fullmatch(TEXTS[status], text) is not None
    right = right and (status == 7) == (len(data) > CERTIFICATE_MOST)
    if status not in (6, 7):
        right = right and (status == 12) == (cert is None)
    why = text.decode().split(":")[-1].split()[0] if status == 11 else ""
    if right and status == 2:
        right = program(["check", "--model", MODELS[cert.model]], cert.source) == (status, text)
    if right and status == 0:
        why = agrees(program, data, cert)
    return status, why, None if right and why is not None else (status, text, data.hex())


def try_changes(program, tries, pool, certs, count):
    rng = random.Random(1)
    with_heads = [c for c in certs if read(c).heads]
    changed = []
    for k in range(count):
        data = rng.choice(with_heads if with_heads and rng.randrange(4) else certs)
        name, change = CHANGES[k % len(CHANGES)]
        changed.append((name, change(rng, data, read(data))))
    counts = collections.Counter()
    for (name, _), (status, why, fault) in zip(changed, pool.map(lambda row: try_changed(program, row[1]), changed)):
        counts[name, status, why] += 1
        tries.told(name, fault is None, fault)
    print("\n| Changed | Status | | Certificates |\n|---|---|---|---|")
    for (name, status, why), n in sorted(counts.items(), key=str):
        print(f"| {name} | {status} | {why} | {n:,} |")


# ---- what it costs

def sample(start, fields):
    """The source that the command `sample` checks."""
    text, seed = ("#include <stdint.h>\n#include \"ep.h\"\n#if __BYTE_ORDER__ == __ORDER_LITTLE_ENDIAN__\n"
                  "uint16_t swap(uint16_t v) { return (uint16_t)((v >> 8) | (v << 8)); }\n#else\n"
                  "uint16_t swap(uint16_t v) { return v; }\n#endif\n"
                  "int main(void)\n{\n  uint32_t x, y;\n  uint16_t h;\n  uint8_t b[1];\n"), start
    for _ in range(fields):
        seed = (seed * 1103515245 + 12345) % 2 ** 31
        text += [
            "  x = ep_in_u32();\n  y = (x >> 8) | (x << 24);\n  ep_out_u32(y);\n",
            "  ep_read(&h, 2);\n  h = swap(h);\n  ep_out_u16(h);\n",
            f"  x = ep_in_u32();\n  b[0] = (uint8_t)(x >> {8 * (seed // 196608 % 4)});\n  ep_write(b, 1);\n",
        ][seed // 65536 % 3]
    return (text + "  return 0;\n}\n").encode()


LOOPS = ("int main(void)\n{\n  uint32_t a[64], i;\n  memset(a, 0, 256);\n"
         + "  for (i = 0; i < 64; i++)\n    a[i] = i;\n" * 200 + "  return 0;\n}\n").encode()


def milliseconds(program, words, data):
    before = resource.getrusage(resource.RUSAGE_CHILDREN)
    answer = program(words, data)
    after = resource.getrusage(resource.RUSAGE_CHILDREN)
    return answer, (after.ru_utime + after.ru_stime - before.ru_utime - before.ru_stime) * 1000


def costs(program, options, source):
    """The least times of `check`, `prove` and `verify`, with the certificate. None, where there are alarms."""
    status, cert = program(["prove", *options], source)
    if status != 0:
        return None
    calls = [(["check", *options], source), (["prove", *options], source), (["verify"], cert)]
    return [min(milliseconds(program, *call)[1] for _ in range(PASSES)) for call in calls], cert


def measures(program):
    examples = [row for row in sources() if row[0].startswith("examples/")]
    packet = next(source for name, _, source in examples if name == "examples/packet.c")
    rows = [("examples/packet.c", [packet]), ("a sample of 1,000 fields", [sample(7, 1000)]),
            ("200 loops over an array of 64", [LOOPS]), ("examples/", [source for _, _, source in examples])]
    print("\n| Source | `--unroll` | Portable | `check` | `prove` | `verify` | Heads | Cells | Certificates |")
    print("|---" * 9 + "|")
    for name, texts in rows:
        for unroll in ("32", "0"):
            found = [c for c in (costs(program, ["--unroll", unroll], text) for text in texts) if c]
            if not found:
                print(f"| {name} | {unroll} | 0 |")
                continue
            times = " | ".join(f"{sum(column):.1f} ms" for column in zip(*(c[0] for c in found)))
            heads = [len(h) for c in found for h in read(c[1]).heads]
            size = sum(len(c[1]) for c in found)
            print(f"| {name} | {unroll} | {len(found)} | {times} | {len(heads)} | {sum(heads)} | {size:,} bytes |",
                  flush=True)


def main():
    count = int(sys.argv[1]) if len(sys.argv) > 1 else 10000
    tries = Tries()
    with tempfile.TemporaryDirectory() as folder, concurrent.futures.ThreadPoolExecutor(WORKERS) as pool:
        program = Program(measure.named_or_built(folder, sys.argv[2:]))
        certs = try_sources(program, tries, pool)
        try_changes(program, tries, pool, certs, count)
        measures(program)
    print(f"{tries.passed} passed, {tries.failed} failed")
    sys.exit(1 if tries.failed else 0)


if __name__ == "__main__":
    main()
