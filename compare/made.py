"""The crates of compare/, and those of Rust beside which they are measured. The first are none of the repository,
because the gate would take minutes more."""
import glob
import os
import re
import shutil
import subprocess
import sys

COMPARE = os.path.dirname(os.path.abspath(__file__))
TOP = os.path.dirname(COMPARE)
sys.path.insert(0, f"{TOP}/scripts/bare")
sys.dont_write_bytecode = True
import kit  # noqa: E402

# Of each crate the folder of its files and what it uses. Those of calls_kit are `calls` in the toolchain's dialect.
CRATES = {
    "calls": ("calls", "base64_stream framing log_sink line_log numbers tar no_std_io2 base64 log".split()),
    "calls_kit": (None, []),
    "programs": ("programs", "base64_stream framing line_log system_streams no_std_io2 base64".split()),
    "here": ("found", "base64_stream examples numbers tar io_bench no_std_io2 base64".split()),
}
# Of each crate of Debian's packages its edition, a feature and what it uses. Clients are measured beside MEASURED.
PEERS = {"byteorder": ("2018", "std"), "base64": ("2018", "std"), "libc": ("2015", "std"), "cfg_if": ("2018", ""),
         "filetime": ("2018", "", "libc", "cfg_if"), "tar": ("2018", "", "libc", "filetime"),
         "log": ("2015", "std", "cfg_if"), "memchr": ("2018", "std"), "ar": ("2018", ""), "paste": ("2018", ""),
         "num_traits": ("2015", "std"), "rmp": ("2018", "std", "byteorder", "num_traits", "paste"),
         "unsigned_varint": ("2018", "std")}
MEASURED = ("byteorder", "base64", "tar", "log")
# Both sides are compiled for the processor that rt's libraries are for.
OPTIMIZED = ["-C", "opt-level=3", "-C", "target-cpu=x86-64-v2"]


def sources(name):
    """The files of a crate."""
    folder, _ = CRATES[name]
    return glob.glob(f"{COMPARE}/{folder}/*.rt.txt") if folder else []


def put(name, to):
    """Puts the files of a crate below a folder, without their second ending."""
    os.makedirs(f"{to}/src")
    for file in sources(name):
        shutil.copy(file, f"{to}/src/{os.path.basename(file).removesuffix('.txt')}")
    if name == "calls_kit":
        subprocess.run([f"{COMPARE}/dialect", f"{COMPARE}/calls", f"{to}/src", "kit"], check=True)


def sides(to):
    """Puts the sides in Rust of `calls` into a folder, which the driver finds by the variable SIDES."""
    for side in ("std", "original"):
        subprocess.run([f"{COMPARE}/dialect", f"{COMPARE}/calls", to, side], check=True)


def repository(folder, *names, left=("must-fail",)):
    """Makes a repository of these crates, which are of compare/ or of crates/, with those below them, and all that is
    proved of these if `out` is not left."""
    uses = kit.uses() | {name: CRATES[name][1] for name in names if name in CRATES}
    copied = kit.below([it for name in names for it in (name, *uses[name])])
    os.makedirs(f"{folder}/crates", exist_ok=True)
    shutil.copy(f"{TOP}/HANDLES", folder)
    for it in copied:
        ignored = shutil.ignore_patterns(*left)
        shutil.copytree(f"{TOP}/crates/{it}", f"{folder}/crates/{it}", symlinks=True, ignore=ignored)
    for it in CRATES.keys() & {*names}:
        put(it, f"{folder}/crates/{it}")
    with open(f"{folder}/crates.txt", "w", encoding="utf-8") as file:
        for it in (*copied, *sorted(CRATES.keys() & {*names})):
            kind = " staticlib" if it.startswith("calls") else ""
            file.write(f"{it}{kind}: {' '.join(uses[it])}\n")


def peer(name, to, *words):
    """Compiles a crate of Debian's packages and those that it uses into a folder, and says whether its text is there. A
    package that is missing is installed if that can be."""
    edition, feature, *uses = PEERS[name]
    text = f"/usr/share/cargo/registry/{name.replace('_', '-')}-[0-9]*/src/lib.rs"
    if not glob.glob(text):
        package = f"librust-{name.replace('_', '-')}-dev"
        subprocess.run(["apt-get", "install", "-y", "--no-install-recommends", package], stdin=subprocess.DEVNULL,
                       stdout=subprocess.DEVNULL, stderr=subprocess.DEVNULL, check=False)
    if not glob.glob(text) or not all([peer(it, to, *words) for it in uses]):
        return False
    flags = [word for it in uses for word in ("--extern", f"{it}={to}/lib{it}.{'so' if it == 'paste' else 'rlib'}")]
    flags += ["--cfg", f'feature="{feature}"'] if feature else []
    kind = "proc-macro" if name == "paste" else "rlib"
    rlib("--crate-name", name, "--edition", edition, "-L", to, *words, *flags, glob.glob(text)[0], to=to, kind=kind)
    return True


def peers(to):
    """Compiles the crates beside which clients are measured into a folder, and gives the flags by which rustc finds
    them. If the text of one is missing, its cfg is not set."""
    flags = ["-L", to, "--check-cfg", f"cfg({', '.join(MEASURED)})"]
    for name in MEASURED:
        if peer(name, to, *OPTIMIZED):
            flags += ["--cfg", name, "--extern", f"{name}={to}/lib{name}.rlib"]
    return flags


def rlib(*words, to, kind="rlib"):
    """Compiles a crate of Rust into a folder."""
    subprocess.run(["rustc", "--crate-type", kind, "--out-dir", to, "--cap-lints", "allow", *words], check=True)


def original(folder, to):
    """Where the root file of the original crate is. FOLDER has its src/, or its files as src--src--NAME.rs.txt."""
    for path in glob.glob(f"{folder}/src--src--*.rs.txt"):
        name = re.match(r"src--(.*)\.txt$", os.path.basename(path))[1]
        os.makedirs(os.path.dirname(f"{to}/{name.replace('--', '/')}"), exist_ok=True)
        shutil.copy(path, f"{to}/{name.replace('--', '/')}")
    return f"{to if os.path.isdir(f'{to}/src') else folder}/src/lib.rs"


def put_table(mark, lines):
    """Puts a table into RESULTS.md, in place of the one above this mark."""
    with open(f"{COMPARE}/RESULTS.md", encoding="utf-8") as page:
        text = page.read()
    text = re.sub(rf"(?:\|.*\n)*<!-- {mark} -->\n", lambda it: f"{lines}<!-- {mark} -->\n", text)
    with open(f"{COMPARE}/RESULTS.md", "w", encoding="utf-8") as page:
        page.write(text)
