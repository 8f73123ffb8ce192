#!/usr/bin/env python3
"""Tries the program where its file or its output fails, as the system has it: tests/ends.py [PROGRAM]

Builds the program without proofs, compiled as the proved one is, unless a PROGRAM is given. Each case has the status
that the README's table has, and what is written. The last line is 'N passed, M failed'.
"""
import os, subprocess, sys, tempfile

import measure

MOST = 1048576

NUMBER = b"""int main(void) {
  uint32_t x;
  x = ep_in_u32();
  ep_out_u32(x);
}
"""

BYTES = NUMBER.replace(b"ep_out_u32(x)", b"ep_write(&x, 4)")
TYPES = b"struct s { int a; };\nint main(void) { return 0; }\n"
RUN = ["run", "--order", "big", "--steps", "9"]
ALARM = b"4: E1 output-differs left [0,255] right [0,255]\n1 alarms\n"


def many_alarms(count):
    """A source whose report has so many alarms, one a line."""
    return b"int main(void) {\nuint32_t x = ep_in_u32();\n" + b"ep_write(&x, 1);\n" * count + b"}\n"


class Tries:
    def __init__(self, program, folder):
        self.program, self.folder = program, folder
        self.passed = self.failed = 0

    def file(self, name, text):
        path = os.path.join(self.folder, name)
        with open(path, "wb") as f:
            f.write(text)
        return path

    def told(self, name, wanted, got):
        if wanted == got:
            self.passed += 1
        else:
            self.failed += 1
            print(f"{name}: wanted {wanted}, got {got}")

    def run(self, words, **how):
        done = subprocess.run([self.program, *words], stderr=subprocess.PIPE, timeout=120, **how)
        return done.returncode, done.stdout, done.stderr

    def expect(self, name, words, status, text, given=b""):
        self.told(name, (status, text, b""), self.run(words, input=given, stdout=subprocess.PIPE))

    def on_full(self, name, words, status):
        with open("/dev/full", "wb") as full:
            self.told(name + ", on a full disk", (status, None, b""), self.run(words, stdout=full))

    def on_closed(self, name, words, status):
        reader, writer = os.pipe()
        os.close(reader)
        self.told(name + ", into a closed pipe", (status, None, b""), self.run(words, stdout=writer))
        os.close(writer)
        closed = ["sh", "-c", 'exec "$@" >&-', "sh", self.program, *words]
        done = subprocess.run(closed, stderr=subprocess.PIPE, timeout=120)
        self.told(name + ", without an output", (status, b""), (done.returncode, done.stderr))


def files(tries):
    number = tries.file("number.c", NUMBER)
    usage = tries.run(["check"], stdout=subprocess.PIPE)[1]
    for command in (["check"], ["layout"], RUN):
        name = command[0]
        tries.expect(f"{name} of a name without a file", [*command, os.path.join(tries.folder, "none.c")], 4, b"")
        tries.expect(f"{name} of a folder", [*command, tries.folder], 4, b"")
        tries.expect(f"{name} of a file as a folder", [*command, number + "/x.c"], 4, b"")
        tries.expect(f"{name} of a name that is too long", [*command, "x" * 5000], 4, b"")
        tries.expect(f"{name} of a file without an end", [*command, "/dev/zero"], 7, b"")
        tries.expect(f"{name} of an empty file", [*command, "/dev/null"], 2, b"1: refused 36 no-main\n")
        tries.expect(f"{name} of no name", [*command, ""], 3, usage)
        tries.expect(f"{name} of a word that is no text", [*command, b"\xff.c"], 3, usage)
    tries.expect("check of a file", ["check", number], 0, b"portable\n")
    tries.expect("check of a pipe", ["check", "/dev/stdin"], 0, b"portable\n", NUMBER)
    filled = tries.file("filled.c", NUMBER + b" " * (MOST - len(NUMBER)))
    tries.expect("check of as many bytes as a source has", ["check", filled], 0, b"portable\n")
    longer = tries.file("longer.c", NUMBER + b" " * (MOST + 1 - len(NUMBER)))
    tries.expect("check of one byte more", ["check", longer], 7, b"")
    if os.geteuid():
        secret = tries.file("secret.c", NUMBER)
        os.chmod(secret, 0)
        tries.expect("check of a file that may not be read", ["check", secret], 4, b"")


def outputs(tries):
    number, other = tries.file("number.c", NUMBER), tries.file("bytes.c", BYTES)
    types, refused = tries.file("types.c", TYPES), tries.file("refused.c", b"int main(void) { goto out; }\n")
    rows = [
        ("portable", ["check", number], 0, b"portable\n"),
        ("an alarm", ["check", other], 1, ALARM),
        ("a refusal", ["check", refused], 2, b"1: refused 8 reserved-word goto\n"),
        ("a layout", ["layout", types], 0, b"struct s size 4 align 4\n  a offset 0 size 4\n"),
        ("a run", [*RUN, number, "7"], 0, b"u32 7\ni32 0\nended\n"),
    ]
    for name, words, status, text in rows:
        tries.expect(name, words, status, text)
        tries.on_full(name, words, 5)
        tries.on_closed(name, words, 5)
    tries.on_full("the usage text", ["check"], 5)
    tries.on_closed("the usage text", ["check"], 5)
    # where nothing is written, nothing fails
    tries.on_full("a layout of no types", ["layout", number], 0)
    tries.on_full("a file that can't be opened", ["check", tries.folder], 4)


def parts(tries):
    """A reader that takes a front of a long report and goes: the status, and that the front is one."""
    path = tries.file("many.c", many_alarms(4000))
    status, whole, _ = tries.run(["check", path], stdout=subprocess.PIPE)
    tries.told("a report of 4,000 alarms", (1, 4001, True), (status, whole.count(b"\n"), len(whole) > 150000))
    for count in (1, 10, 65536, 100000):
        child = subprocess.Popen([tries.program, "check", path], stdout=subprocess.PIPE, stderr=subprocess.PIPE)
        front = child.stdout.read(count)
        child.stdout.close()
        said = child.stderr.read()
        child.stderr.close()
        got = (child.wait(timeout=120), front == whole[:count], said)
        tries.told(f"a reader that goes after {count} bytes", (5, True, b""), got)


def main():
    with tempfile.TemporaryDirectory() as folder:
        program = measure.named_or_built(folder, sys.argv[1:])
        room = os.path.join(folder, "files")
        os.mkdir(room)
        tries = Tries(program, room)
        files(tries)
        outputs(tries)
        parts(tries)
    print(f"{tries.passed} passed, {tries.failed} failed")
    sys.exit(1 if tries.failed else 0)


if __name__ == "__main__":
    main()
