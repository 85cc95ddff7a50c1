#!/usr/bin/env python3
"""Times ./spur: python3 tools/bench.py [--runs N] [--only NAME,..] [--program PATH]

Makes images and scripts in a folder of its own, runs each workload by turns with what bounds it from below (`cat` of the
image, `wc -l` of the script), and prints the median time, the bytes or lines per second, and the most memory held.
"""

import argparse
import multiprocessing
import os
import statistics
import subprocess
import tempfile
import time
from array import array

from base_image import BASE, HEAP_WORDS, NIL, SPECIAL_ARRAY, address, header, header_word, heap_words

TOP = os.path.dirname(os.path.dirname(os.path.abspath(__file__)))
MIB = 1 << 20


FIRST = BASE + 8 * (HEAP_WORDS - 2)  # the address of the first further object


def write_image(path, objects, root=address(NIL)):
    """Writes the base image with further objects behind its own: words that refer to one another by address. The special objects array names the root in
    its first slot."""
    heap = array("Q", heap_words()[:-2]) + objects + array("Q", [0, 0])
    heap[SPECIAL_ARRAY + 1] = root
    with open(path, "wb") as file:
        file.write(header(len(heap)))
        heap.tofile(file)


def objects(count, slots, stride):
    """So many arrays, the first slot of each naming the one `stride` places on, the others nil."""
    words = array("Q", [header_word(slots, 2, 51)] + [address(NIL)] * slots) * count
    size = slots + 1
    words[1::size] = array("Q", (FIRST + 8 * size * ((i + stride) % count) for i in range(count)))
    return words


def write_objects(path, count, slots, stride):
    write_image(path, objects(count, slots, stride))


def write_lines(path, count, front, lines):
    """Writes a script of `count` lines: some in front, and behind them others over and over."""
    rest = count - len(front)
    with open(path, "w") as file:
        file.write("".join(line + "\n" for line in front))
        file.write("".join(line + "\n" for line in lines) * (rest // len(lines)))


def spend(words, folder):
    """Runs a command, and answers its seconds and the KiB that it held at most."""
    begin = time.perf_counter()
    with open(os.devnull, "wb") as nothing:
        child = subprocess.Popen(words, cwd=folder, stdout=nothing)
        _, status, usage = os.wait4(child.pid, 0)
    if os.waitstatus_to_exitcode(status) != 0:
        raise SystemExit(f"{' '.join(words)}: status {os.waitstatus_to_exitcode(status)}")
    return time.perf_counter() - begin, usage.ru_maxrss


def measure(label, words, floor, amount, unit, folder, runs):
    """Times a command and the one that bounds it, by turns, and prints a line on it."""
    taken, least, held = [], [], 0
    for _ in range(runs):
        seconds, memory = spend(words, folder)
        taken.append(seconds)
        held = max(held, memory)
        least.append(spend(floor, folder)[0])
    median = statistics.median(taken)
    print(
        f"{label:44} {median:7.3f} s  {amount / median:8.1f} {unit}/s  {held / 1024:7.1f} MiB held"
        f"   {floor[0]} {statistics.median(least):6.3f} s"
    )


def load_images(program, folder, runs):
    """Loads images of many objects: small ones that name their neighbours, the same with references all over, and large ones."""
    for label, count, slots, stride in [
        ("load 6-slot objects, near references", 2_400_000, 6, 1),
        ("load 6-slot objects, references all over", 2_400_000, 6, 1_000_003),
        ("load 100-slot objects", 160_000, 100, 1),
    ]:
        image = os.path.join(folder, "some.image")
        # in a process of its own, since what a program holds at most is told together with what the one that starts it held
        writer = multiprocessing.Process(target=write_objects, args=(image, count, slots, stride))
        writer.start()
        writer.join()
        size = os.path.getsize(image) / MIB
        words = [program, "replay", "some.image", "no.script", "--room", "0"]
        measure(f"{label}, {size:.0f} MiB", words, ["cat", "some.image"], size, "MiB", folder, runs)
        os.remove(image)


def save_images(program, folder, runs):
    """Loads an image of many small objects, and loads and saves it."""
    for label, count, slots, stride in [
        ("3-slot objects, near references", 8_000_000, 3, 1),
        ("3-slot objects, references all over", 8_000_000, 3, 1_000_003),
    ]:
        image = os.path.join(folder, "some.image")
        writer = multiprocessing.Process(target=write_objects, args=(image, count, slots, stride))
        writer.start()
        writer.join()
        size = os.path.getsize(image) / MIB
        with open(os.path.join(folder, "save.script"), "w") as file:
            file.write("save copy.image\n")
        for what, script, floor in [("load", "no.script", ["cat", "some.image"]), ("load, save", "save.script", ["cp", "some.image", "copy.image"])]:
            words = [program, "replay", "some.image", script, "--room", "0"]
            measure(f"{what} {label}, {size:.0f} MiB", words, floor, size, "MiB", folder, runs)
        os.remove(image)


def run_lines(program, folder, runs, count=1_000_000):
    """Answers lines over the base image."""
    front = ["special s", "fetch c s 3", "fetch p s 7"]
    for label, lines in [
        ("fetch c s 3", ["fetch c s 3"]),
        ("fetch, store, kind, same", ["fetch c s 3", "store s 4 p", "kind c", "same c p"]),
    ]:
        script = os.path.join(folder, "lines.script")
        write_lines(script, count, front, lines)
        words = [program, "replay", "base.image", "lines.script"]
        measure(f"{count:,} lines {label}", words, ["wc", "-l", "lines.script"], count / 1e6, "Mlines", folder, runs)


def free_chunks(count):
    """So many free chunks of different sizes, 2 to 201 words, with an array of one slot between each two."""
    words = array("Q")
    array_words = array("Q", [header_word(1, 2, 51), address(NIL)])
    for i in range(count):
        size = 2 + i * 7919 % 200
        words.extend(array_words)
        words.append(header_word(size - 1, 9, 0))
        words.extend(array("Q", [0]) * (size - 1))
    return words


def write_free_chunks(path, count):
    write_image(path, free_chunks(count))


def make_objects(program, folder, runs, count=1_000_000):
    """Makes objects in old space, counts, and makes objects of many sizes over many free chunks. The room is the largest that can be asked for."""
    front = ["special s", "fetch c s 3"]
    script = os.path.join(folder, "making.script")
    for label, lines in [("newold x c 1", ["newold x c 1"]), ("stat", ["stat"])]:
        write_lines(script, count, front, lines)
        words = [program, "replay", "base.image", "making.script", "--room", "67108864"]
        measure(f"{count:,} lines {label}", words, ["wc", "-l", "making.script"], count / 1e6, "Mlines", folder, runs)
    image = os.path.join(folder, "free.image")
    writer = multiprocessing.Process(target=write_free_chunks, args=(image, 100_000))
    writer.start()
    writer.join()
    lines = [f"newold x c {1 + i * 127 % 190}" for i in range(1_000)]
    write_lines(script, 200_000 + len(front), front, lines)
    words = [program, "replay", "free.image", "making.script", "--room", "67108864"]
    measure("200,000 newold over 100,000 free chunks", words, ["wc", "-l", "making.script"], 0.2, "Mlines", folder, runs)
    os.remove(image)


def exchange_objects(program, folder, runs):
    """Exchanges the same two objects over and over, of equal words and of others, and fresh objects of other words, with room for all copies."""
    front = ["special s", "fetch c s 3", "newold a c 1", "newold b c 1", "newold d c 2"]
    script = os.path.join(folder, "becoming.script")
    words = [program, "replay", "base.image", "becoming.script", "--room", "67108864"]
    for label, count, lines in [
        ("1,000,000 become of two, equal words", 1_000_000, ["become a b"]),
        ("1,000,000 become of two, other words", 1_000_000, ["become a d"]),
        ("200,000 become of fresh objects, other words", 600_000, ["newold a c 1", "newold d c 2", "become a d"]),
    ]:
        write_lines(script, count, front, lines)
        measure(label, words, ["wc", "-l", "becoming.script"], count / 1e6, "Mlines", folder, runs)


def write_list(path, count, step):
    """So many arrays of three slots. Every `step`th stands in a list that the special objects array names, and the others are garbage."""
    words = objects(count, 3, step)
    words[4 * ((count - 1) // step * step) + 1] = address(NIL)
    write_image(path, words, FIRST)


def write_ephemerons(path, count):
    """A chain of ephemerons, the first of which is live: each has a key of its own, and names the next, so that each fires in a round of its own."""
    words = array("Q", [header_word(3, 5, 54), 0, 0, address(NIL), header_word(1, 2, 51), address(NIL)]) * count
    words[1::6] = array("Q", (FIRST + 8 * (6 * i + 4) for i in range(count)))
    words[2::6] = array("Q", (FIRST + 8 * 6 * (i + 1) for i in range(count)))
    words[6 * (count - 1) + 2] = address(NIL)
    write_image(path, words, FIRST)


def collect_garbage(program, folder, runs):
    """Loads images, and loads them and collects what is dead. Half of the objects of the first are garbage, and every other one moves."""
    image = os.path.join(folder, "some.image")
    with open(os.path.join(folder, "gc.script"), "w") as file:
        file.write("gc\nstat\n")
    for label, write, count, of, saved in [
        ("3-slot objects, half garbage", write_list, 8_000_000, 2, "16777216"),
        ("a list of 3-slot objects", write_list, 1_000_000, 1, "4096"),
        ("a list, half garbage", write_list, 200_000, 2, "4096"),
        ("ephemerons, a round each", write_ephemerons, 10_000, None, "4096"),
        ("ephemerons, a round each", write_ephemerons, 100_000, None, "4096"),
    ]:
        writer = multiprocessing.Process(target=write, args=(image, count) if of is None else (image, count, of))
        writer.start()
        writer.join()
        size = os.path.getsize(image) / MIB
        for what, script in [("load", "no.script"), ("load, gc", "gc.script")]:
            words = [program, "replay", "some.image", script, "--room", "0", "--saved", saved]
            measure(f"{what} {count:,} {label}", words, ["cat", "some.image"], size, "MiB", folder, runs)
        os.remove(image)


def main():
    parser = argparse.ArgumentParser(description=__doc__.splitlines()[0])
    parser.add_argument("--runs", type=int, default=5)
    parser.add_argument("--only", default="", help="load, save, lines, making, becoming, gc")
    parser.add_argument("--program", default=os.path.join(TOP, "spur"))
    given = parser.parse_args()
    program = os.path.abspath(given.program)
    only = set(filter(None, given.only.split(",")))
    with tempfile.TemporaryDirectory() as folder:
        write_image(os.path.join(folder, "base.image"), array("Q"))
        open(os.path.join(folder, "no.script"), "wb").close()
        spend([program, "replay", "base.image", "no.script"], folder)  # builds the program where it is not built
        if not only or "load" in only:
            load_images(program, folder, given.runs)
        if not only or "save" in only:
            save_images(program, folder, given.runs)
        if not only or "lines" in only:
            run_lines(program, folder, given.runs)
        if not only or "making" in only:
            make_objects(program, folder, given.runs)
        if not only or "becoming" in only:
            exchange_objects(program, folder, given.runs)
        if not only or "gc" in only:
            collect_garbage(program, folder, given.runs)


if __name__ == "__main__":
    main()
