"""The bytes that parts of crates/bare take. compare/footprint makes its table of them, and check_bare compares the
library with that table. Parts are linked into a program without the C library, with unused sections collected. The
linker's map has the sizes of what came from the library: code with its constants, and data."""
import os, re, subprocess

FILES = os.path.dirname(os.path.abspath(__file__))
TOP = os.path.dirname(os.path.dirname(FILES))
TABLE = f"{TOP}/compare/RESULTS.md"
NAMES = {
    "REPORT": "a report by `write!`",
    "LOG": "a log through a port",
    "MESSAGES": "messages from a port",
    "FRAMES": "frames both ways, and events",
    "COPY": "a copy through two buffers",
}
ALL = "all five"
PARTS = {**{name: [part] for part, name in NAMES.items()}, ALL: [*NAMES]}
PC, ARM = ("cc", "-mno-red-zone"), ("aarch64-linux-gnu-gcc",)

def make(folder, *words):
    """Runs a command that has to succeed, in a folder, and gives what it writes."""
    done = subprocess.run(words, check=True, cwd=folder, stdout=subprocess.PIPE, encoding="utf-8")
    return done.stdout

def mapped(text):
    """The bytes of code and of data that a linker's map has from a static library."""
    found = {"text": 0, "rodata": 0, "data": 0, "bss": 0}
    for kind, size in re.findall(r"^ \.(text|rodata|data|bss)\S*\s+0x[0-9a-f]+\s+0x([0-9a-f]+) \S+\.a\(", text, re.M):
        found[kind] += int(size, 16)
    return found["text"] + found["rodata"], found["data"] + found["bss"]

def linked(compiler, library, parts, folder):
    """The bytes of code and of data of some parts, which are linked in a folder, as the program `stack`."""
    free = [*compiler, "-O2", "-ffreestanding", "-fno-stack-protector", "-fno-pic"]
    calls = [f"-I{TOP}/crates/bare", *[f"-D{it}" for it in parts], "-c", f"{TOP}/compare/bare/stack.c", "-o", "stack.o"]
    make(folder, *free, *calls)
    make(folder, *free, "-c", f"{FILES}/memory.c", "-o", "memory.o")
    flags = ["-nostdlib", "-static", "-no-pie", "-Wl,--gc-sections,-Map=map"]
    make(folder, compiler[0], *flags, "-o", "stack", "stack.o", "memory.o", library)
    with open(f"{folder}/map", encoding="utf-8") as text:
        return mapped(text.read().split("Linker script and memory map")[1])

def in_table(column):
    """The bytes of code of all parts in a column of the table: 0 is x86-64, and 1 is Arm."""
    with open(TABLE, encoding="utf-8") as page:
        row = re.search(rf"^\| {ALL} .*", page.read(), re.M)[0]
    return int(re.findall(r"([\d,]+) / ", row)[2 * column].replace(",", ""))
