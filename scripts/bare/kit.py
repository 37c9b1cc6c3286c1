"""Runs the toolchain's compiler over the libraries that `rt ci` left: `rt` itself would prove each of them once more,
which takes minutes."""
import os, subprocess

TOP = os.path.dirname(os.path.dirname(os.path.dirname(os.path.abspath(__file__))))

def uses():
    """The libraries that each crate of the repository uses."""
    with open(f"{TOP}/crates.txt", encoding="utf-8") as crates:
        return {line.split(":")[0].split()[0]: line.split(":")[1].split() for line in crates if ":" in line}

def below(names):
    """These libraries and those below them, if they are of the repository, each behind those that it uses."""
    found, used = [], uses()
    for it in names:
        found += [other for other in [*below(used[it]), it] if other not in found] if it in used else []
    return found

def rlib(name):
    """Where the built library of a crate is."""
    return f"{TOP}/crates/{name}/out/rlib/{name}.rlib"

def is_built(name):
    """Whether the library of a crate is there, and newer than its sources."""
    files = [f"{at}/{it}" for part in ("src", "specs", "proofs")
             for at, _, names in os.walk(f"{TOP}/crates/{name}/{part}") for it in names]
    return os.path.isfile(f"{rlib(name)}/format") and max(map(os.path.getmtime, files)) <= os.path.getmtime(rlib(name))

def folder():
    """The folder of the toolchain."""
    page = subprocess.run(["rt", "doc"], stdout=subprocess.PIPE, encoding="utf-8", check=True).stdout
    return os.path.dirname(page.strip())

def words(verb, name, root, used):
    """The command that does this with the crate of this name, whose root file is below the folder that it is run in,
    and which uses these libraries."""
    kit, here = folder(), below(used)
    made = [f"{kit}/bin/rattle", verb, "--crate-name", name, root, "--jobs", "1"]
    made += ["-L", f"dependency={kit}/rlibs"]
    for it in ["std", *(it for it in used if it not in here)]:
        made += ["--extern", f"{it}={kit}/rlibs/{it}.rlib"]
    for it in here:
        made += ["--extern", f"{it}={rlib(it)}", "-L", f"dependency={os.path.dirname(rlib(it))}"]
    return [*made, "--antt-project", f"{kit}/rattle/logic/antt-project.json", "--logic-built", f"{kit}/logic_built"]

def crate_words(name):
    """The command that checks a crate of crates.txt as `rt` does; it runs in a folder with its sources."""
    with open(f"{TOP}/crates.txt", encoding="utf-8") as crates:
        kind = ["--crate-type", "staticlib"] if f"\n{name} staticlib:" in crates.read() else []
    root = "main" if os.path.exists(f"{TOP}/crates/{name}/src/main.rt") else "lib"
    return [*words("check", name, f"src/{root}.rt", uses()[name]), *kind]
