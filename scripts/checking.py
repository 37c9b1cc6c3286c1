"""What the scripts that test from outside share: programs are run, each check is counted, and the last line is
'N passed, M failed'."""
import subprocess
import tempfile

counts = {True: 0, False: 0}


def told(good, what):
    """Counts a check, and prints it if it failed."""
    counts[bool(good)] += 1
    if not good:
        print(f"FAILED: {what}")


def ended():
    """Prints the last line, and returns the status."""
    print(f"{counts[True]} passed, {counts[False]} failed")
    return 1 if counts[False] or not counts[True] else 0


def ran(words, text=b"", **more):
    """Runs a program whose input is a file with this text, so that each read gives all that it asks for. Gives its
    status, its standard output and its standard error."""
    with tempfile.TemporaryFile() as source:
        source.write(text)
        source.seek(0)
        streams = {"stdin": source, "stdout": subprocess.PIPE, "stderr": subprocess.PIPE, **more}
        done = subprocess.run(words, timeout=600, check=False, **streams)
    return done.returncode, done.stdout, done.stderr
