#!/usr/bin/env python3
"""Tries the built program as a user drives it: python3 tools/try_edge.py [--program PATH]

No clause speaks of real files, of standard output or of the exit status: each is tried here, on real files. Prints each
try that fails, and at the end 'N passed, M failed'.
"""

import argparse
import os
import struct
import subprocess
import tempfile
import threading
import time

from base_image import FALSE, HEAP_WORDS, NIL, SPECIAL_ARRAY, address, header, header_word, heap_words

TOP = os.path.dirname(os.path.dirname(os.path.abspath(__file__)))
USAGE = b"usage: spur replay IMAGE SCRIPT [--eden W] [--survivor W] [--room W] [--saved W] | spur drill START LINES\n"

# slots of the array behind the base image's objects, whose last slot names false
MANY = 1_000_000


def image(heap):
    return header(len(heap)) + struct.pack(f"<{len(heap)}Q", *heap)


def large_image():
    """The base image with an array of a million slots behind its objects, which the special objects array names in slot 8."""
    heap = heap_words()
    bridge = heap[-2:]
    front = heap[:-2]
    start = len(front) + 1  # behind its overflow word
    slots = [address(NIL)] * (MANY - 1) + [address(FALSE)]
    front[SPECIAL_ARRAY + 1 + 8] = address(start)
    return image(front + [255 << 56 | MANY, header_word(255, 2, 51)] + slots + bridge)


class Edge:
    """The program in a folder of its own, and what came of the tries."""

    def __init__(self, program, folder):
        self.program = program
        self.folder = folder
        self.passed = 0
        self.failed = 0

    def path(self, name):
        return os.path.join(self.folder, name)

    def put(self, name, content):
        with open(self.path(name), "wb") as file:
            file.write(content)

    def run(self, *words, stdout=subprocess.PIPE, stdin=subprocess.DEVNULL):
        return subprocess.run(
            [self.program, *words], cwd=self.folder, stdin=stdin, stdout=stdout, stderr=subprocess.PIPE, timeout=120
        )

    def judge(self, name, status, stdout, ended, output=None):
        got = ended.stdout if output is None else output
        if ended.returncode == status and (got or b"") == stdout and not ended.stderr:
            self.passed += 1
            return
        self.failed += 1
        print(f"{name}: status {ended.returncode}, wanted {status}; {len(got or b'')} bytes, wanted {len(stdout)}")
        print(f"    begins {(got or b'')[:80]!r}, standard error {ended.stderr[:200]!r}")

    def holds(self, name, path, wanted):
        """A file has these bytes."""
        with open(self.path(path), "rb") as file:
            got = file.read()
        if got == wanted:
            self.passed += 1
            return
        self.failed += 1
        print(f"{name}: {len(got)} bytes, wanted {len(wanted)}, the first other one is {next((i for i, (a, b) in enumerate(zip(got, wanted)) if a != b), 'none')}")

    def wants(self, name, status, stdout, *words):
        """A run with these words ends with this status, has put these bytes, and said nothing on standard error."""
        self.judge(name, status, stdout, self.run(*words))


def try_words(edge):
    for name, words in [
        ("no words", []),
        ("one word", ["replay"]),
        ("an unknown command", ["play", "base.image", "a.script"]),
        ("an option for a file", ["replay", "--room", "a.script"]),
        ("an empty file name", ["replay", "", "a.script"]),
        ("a room of one word", ["replay", "base.image", "a.script", "--room", "1"]),
        ("a room with a zero in front", ["replay", "base.image", "a.script", "--room", "02"]),
        ("a word that is no UTF-8", ["replay", b"\xff", b"a.script"]),
    ]:
        edge.wants(name, 2, USAGE, *words)


def try_files(edge):
    edge.wants("no image", 4, b"", "replay", "none.image", "a.script")
    edge.wants("no script", 4, b"", "replay", "base.image", "none.script")
    edge.wants("a folder for the image", 4, b"", "replay", "folder", "a.script")
    edge.wants("a folder for the script", 4, b"", "replay", "base.image", "folder")
    edge.wants("an image in a folder that is missing", 4, b"", "replay", "none/base.image", "a.script")
    edge.wants("an image in a file", 4, b"", "replay", "a.script/base.image", "a.script")
    edge.wants("an empty script", 0, b"", "replay", "base.image", "empty.script")
    edge.wants("both in a folder", 0, b"ok\nobject 51 2\n", "replay", "folder/base.image", "folder/a.script")


def try_refusals(edge):
    base = image(heap_words())
    edge.put("short.image", base[:-8])
    edge.put("text.image", b"this is a text and no image, but it has more than the 128 bytes that a header of an image has" * 2)
    edge.put("slot.image", base[: 128 + 8 * (SPECIAL_ARRAY + 1)] + b"\x08" + base[128 + 8 * (SPECIAL_ARRAY + 1) + 1 :])
    edge.wants("an empty image", 3, b"image: short 0\n", "replay", "empty.script", "a.script")
    edge.wants("an image that is cut off", 3, f"image: short {len(base) - 8}\n".encode(), "replay", "short.image", "a.script")
    edge.wants("a text as an image", 3, b"image: format 1936287860\n", "replay", "text.image", "a.script")
    place = 128 + 8 * (SPECIAL_ARRAY + 1)
    edge.wants("a slot into an object", 3, f"image: slot {place}\n".encode(), "replay", "slot.image", "a.script")
    edge.wants("a refused image and no script", 3, b"image: short 0\n", "replay", "empty.script", "none.script")


def try_output(edge):
    lines = [b"special s", b"fetch a s 8", b"size a", f"fetch f a {MANY - 1}".encode(), b"kind f", f"fetch f a {MANY}".encode()]
    edge.put("large.script", b"\n".join(lines))
    edge.wants("an image of several MiB", 0, b"ok\nok\n1000000 0\nok\nfalse\n! index\n", "replay", "large.image", "large.script")

    count = 50_000
    edge.put("long.script", b"special s\n" + b"kind s\nsize s\nint n 7\nkind n\n" * count)
    answers = b"ok\n" + b"object 51 2\n10 0\nok\nint 7\n" * count
    edge.wants("output past 64 KiB", 0, answers, "replay", "base.image", "long.script")

    with open(edge.path("out.txt"), "wb") as out:
        ended = edge.run("replay", "base.image", "long.script", stdout=out)
    with open(edge.path("out.txt"), "rb") as out:
        edge.judge("output into a file", 0, answers, ended, out.read())

    with open("/dev/full", "wb") as full:
        edge.judge("a device that is full", 5, b"", edge.run("replay", "base.image", "a.script", stdout=full))
        edge.judge("a device that is full, past 64 KiB", 5, b"", edge.run("replay", "base.image", "long.script", stdout=full))
        edge.judge("a device that is full, for the usage line", 5, b"", edge.run(stdout=full))
        edge.judge("a device that is full, for a refused image", 5, b"", edge.run("replay", "empty.script", "a.script", stdout=full))

    reader, writer = os.pipe()
    os.close(reader)
    with os.fdopen(writer, "wb") as closed:
        edge.judge("a pipe that is closed", 5, b"", edge.run("replay", "base.image", "long.script", stdout=closed))


def try_lines(edge):
    edge.put("lines.script", b"special s\r\nspecial s\n\nkind \xff\n" + b"x" * 1025 + b"\nkind s")
    wanted = b"! syntax\nok\n! syntax\n! syntax\n! long\nobject 51 2\n"
    edge.wants("lines of all kinds, the last one open", 0, wanted, "replay", "base.image", "lines.script")
    edge.put("piece.script", b"special s\n" + b"kind s  \n" * 455 + b"kind s\n" * 3)
    edge.wants("a line over the end of a piece", 0, b"ok\n" + b"! syntax\n" * 455 + b"object 51 2\n" * 3, "replay", "base.image", "piece.script")


def try_slow_pipe(edge):
    """A script through a pipe that is filled a few bytes at a time. A pipe can't be read at a place, only onwards."""
    os.mkfifo(edge.path("slow.script"))

    def fill():
        with open(edge.path("slow.script"), "wb", buffering=0) as pipe:
            for part in [b"spec", b"ial s\nki", b"nd s\n", b"fetch c s 3", b"\nkind c"]:
                pipe.write(part)
                time.sleep(0.05)

    filler = threading.Thread(target=fill, daemon=True)
    filler.start()
    edge.wants("a script through a slow pipe", 0, b"ok\nobject 51 2\nok\nobject 32 1\n", "replay", "base.image", "slow.script")
    filler.join(timeout=5)


def try_saves(edge):
    """Saves into files: as it was loaded, over an older file, twice over a load, onto a device that is full, and where there is a folder."""
    base = image(heap_words())
    edge.put("save.script", b"save copy.image\nsave save.script\n")
    edge.put("copy.image", base * 2)
    edge.wants("a save, and one over the script", 0, b"ok\n! name\n", "replay", "base.image", "save.script")
    edge.holds("the base image is saved as it was", "copy.image", base)

    lines = [
        "special s", "fetch c s 3", "newold a c 1", "newold b c 300", "newold d c 0", "hash a", "become a b", "forward d a hash",
        "store s 0 a", "store s 1 b", "store b 0 s", "save first.image",
    ]
    edge.put("change.script", "\n".join(lines).encode())
    wanted = b"ok\n" * 5 + b"991766\n" + b"ok\n" * 6
    edge.wants("a save behind exchanges", 0, wanted, "replay", "base.image", "change.script")
    edge.put("again.script", b"special s\nfetch a s 0\nsize a\nhash a\nfetch b s 1\nfetch t b 0\nsame s t\nsave second.image\n")
    wanted = b"ok\nok\n300 0\n991766\nok\nok\ntrue\nok\n"
    edge.wants("what was saved, loaded", 0, wanted, "replay", "first.image", "again.script")
    with open(edge.path("first.image"), "rb") as first:
        edge.holds("what was saved, saved again", "second.image", first.read())
    edge.put("large.saves", b"save large.copy\n")
    edge.wants("a save of several MiB", 0, b"ok\n", "replay", "large.image", "large.saves")
    with open(edge.path("large.image"), "rb") as large:
        edge.holds("an image of several MiB is saved as it was", "large.copy", large.read())

    os.symlink("/dev/full", edge.path("full"))
    edge.put("full.script", b"special s\nkind s\nsave full\nkind s\n")
    edge.wants("a save onto a device that is full", 5, b"ok\nobject 51 2\n", "replay", "base.image", "full.script")
    edge.put("folder.script", b"special s\nkind s\nsave folder\nkind s\n")
    edge.wants("a save where there is a folder", 5, b"ok\nobject 51 2\n", "replay", "base.image", "folder.script")


def try_long_script(edge):
    """A script of more than 2^32 bytes: a file with a hole, so that it takes no room."""
    with open(edge.path("huge.script"), "wb") as file:
        file.write(b"special s\nkind s\n")
        file.truncate((1 << 32) + 1)
    edge.wants("a script past 2^32 bytes", 7, b"ok\nobject 51 2\n", "replay", "base.image", "huge.script")
    os.truncate(edge.path("huge.script"), 1 << 32)
    edge.wants("a script of 2^32 bytes", 0, b"ok\nobject 51 2\n! long\n", "replay", "base.image", "huge.script")


def main():
    parser = argparse.ArgumentParser(description=__doc__.splitlines()[0])
    parser.add_argument("--program", default=os.path.join(TOP, "spur"))
    program = os.path.abspath(parser.parse_args().program)
    with tempfile.TemporaryDirectory() as folder:
        edge = Edge(program, folder)
        os.mkdir(edge.path("folder"))
        for name in ("base.image", "folder/base.image"):
            edge.put(name, image(heap_words()))
        for name in ("a.script", "folder/a.script"):
            edge.put(name, b"special s\nkind s\n")
        edge.put("empty.script", b"")
        edge.put("large.image", large_image())
        # builds it where it is not built
        subprocess.run([program], stdout=subprocess.DEVNULL, stderr=subprocess.DEVNULL)
        for tries in (try_words, try_files, try_refusals, try_output, try_lines, try_slow_pipe, try_saves, try_long_script):
            tries(edge)
    print(f"{edge.passed} passed, {edge.failed} failed")
    raise SystemExit(1 if edge.failed else 0)


if __name__ == "__main__":
    main()
