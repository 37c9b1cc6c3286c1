"""What `iotower play` has to print, worked out from the rules of docs/MODEL.md by other means than the program's."""
import re

ROOM = 8

# The kinds of errors, and what the error of a kind alone prints.
TEXTS = dict(it.split(" ", 1) for it in (
    "NotFound entity not found|PermissionDenied permission denied|ConnectionRefused connection refused|"
    "ConnectionReset connection reset|ConnectionAborted connection aborted|NotConnected not connected|"
    "AddrInUse address in use|AddrNotAvailable address not available|BrokenPipe broken pipe|"
    "AlreadyExists entity already exists|WouldBlock operation would block|InvalidInput invalid input parameter|"
    "InvalidData invalid data|TimedOut timed out|WriteZero write zero|Interrupted operation interrupted|"
    "Other other os error|UnexpectedEof unexpected end of file|Unsupported unsupported I/O error|"
    "OutOfMemory out of memory|Uncategorized uncategorized"
).split("|"))

class Failed(Exception):
    """A call that answers an error, with what that prints."""

def write_whole(writer, data, complaint):
    """Writes all of the data, passing over interruptions; where that fails, the second result is the error."""
    while data:
        try:
            taken = writer.write(data)
        except Failed as why:
            if str(why) == TEXTS["Interrupted"]:
                continue
            return data, why
        if taken == 0:
            return data, Failed(complaint)
        data = data[taken:]
    return data, None

class Device:
    """A vector behind a list of acts: a number is the most that a write takes, a text the kind of a fault."""

    def __init__(self, acts):
        self.acts, self.out = acts[::-1], bytearray()

    def flush(self):
        act = self.acts.pop() if self.acts else None
        if isinstance(act, str):
            raise Failed(TEXTS[act])
        return act

    def write(self, data):
        taken = data[:self.flush()]
        self.out += taken
        return len(taken)

    def write_all(self, data):
        _, fault = write_whole(self, data, "failed to write whole buffer")
        if fault:
            raise fault

class Buffered:
    """A `BufWriter` of eight bytes."""

    def __init__(self, inner):
        self.inner, self.held = inner, b""

    def send(self):
        self.held, fault = write_whole(self.inner, self.held, "failed to write the buffered data")
        if fault:
            raise fault

    def take(self, data, hand_on):
        if len(self.held) + len(data) > ROOM:
            self.send()
        if len(data) >= ROOM:
            return hand_on(data)
        self.held += data
        return len(data)

    def write(self, data):
        return self.take(data, self.inner.write)

    def write_all(self, data):
        self.take(data, self.inner.write_all)

    def flush(self):
        self.send()
        self.inner.flush()

class Lined(Buffered):
    """A `LineWriter` of eight bytes."""

    def write(self, data):
        lines = data[:data.rfind(b"\n") + 1]
        if lines or self.held.endswith(b"\n"):
            self.send()
        if not lines:
            return super().write(data)
        taken = self.inner.write(lines)
        if taken == 0:
            return 0
        tail = data[taken:] if taken == len(lines) else lines[taken:]
        if taken < len(lines) and len(tail) > ROOM:
            tail = tail[:ROOM]
            tail = tail[:tail.rfind(b"\n") + 1] or tail
        self.held = tail[:ROOM]
        return taken + len(self.held)

    def write_all(self, data):
        lines = data[:data.rfind(b"\n") + 1]
        if lines and not self.held:
            self.inner.write_all(lines)
        elif lines:
            super().write_all(lines)
            self.send()
        elif self.held.endswith(b"\n"):
            self.send()
        super().write_all(data[len(lines):])

def text_of(line):
    """Gives the bytes of a `w` or `a` line, or nothing where it is bad."""
    if line[1:2] not in (b"", b" ") or b"\\" in re.sub(rb"\\[n\\]", b"", line[2:]):
        return None
    return re.sub(rb"\\([n\\])", lambda it: b"\n" if it[1] == b"n" else b"\\", line[2:])

def act_of(line):
    """Gives the act of a line, or nothing where it is none."""
    if re.fullmatch(rb"z|t [0-9]{1,5}", line) and int(line[2:] or b"0") <= 65535:
        return int(line[2:] or b"0")
    return line[2:].decode("latin-1") if line[:2] == b"e " and line[2:].decode("latin-1") in TEXTS else None

def parsed(script):
    """Gives the acts and the calls of a script, or the number of its first bad line."""
    acts, calls = [], []
    for number, line in enumerate(script.split(b"\n"), 1):
        act, text = act_of(line), text_of(line)
        if act is not None and not calls:
            acts.append(act)
        elif line == b"f" or line[:1] in (b"w", b"a") and text is not None:
            calls.append((line[:1], text))
        elif line:
            return number
    return acts, calls

def reply(outer, call, text):
    """Makes a call, and gives the line that it is told by."""
    try:
        if call == b"w":
            return b"took=%d" % outer.write(text)
        outer.write_all(text) if call == b"a" else outer.flush()
        return b"done"
    except Failed as why:
        return b"failed=" + str(why).encode()

def shown(data):
    """Gives bytes as the report shows them."""
    return bytes(data).replace(b"\\", b"\\\\").replace(b"\n", b"\\n")

def played(shape, script):
    """Gives the exit status, the standard output and the standard error of a play."""
    read = parsed(script)
    if isinstance(read, int):
        return 1, b"", b"iotower: bad line %d\n" % read
    device = Device(read[0])
    levels = [device]
    for word in reversed(shape.split("-")):
        levels.append({"buf": Buffered, "line": Lined}[word](levels[-1]))
    lines = [reply(levels[-1], *it) for it in read[1]]
    lines += [b"out=" + shown(device.out), b"held=" + shown(b"".join(it.held for it in levels[1:]))]
    return 0, b"\n".join(lines) + b"\n", b""
