"""A second reading of one row's steps, from docs/STEPS.md and the form of cases alone.

row_cases.py CASE.. compares each case with this reading. row_cases.py --make CASE prints what the case has before its first
section `fails`, and then such a section for each call of its device, and for one more."""
import re
import sys

PAGE, RESIDENT, TARGET, TMP_MAX, ROW_BYTES = 4096, 32, 8, 4194304, 128
GENERATION = 2


class Stop(Exception):
    def __init__(self, moved):
        self.moved = moved


class Refusal(Exception):
    pass


def text_bytes(text):
    if text == "-":
        return b""
    out, at = b"", 0
    while at < len(text):
        found = re.match(r"\\\{(\d+)\*(.)\}", text[at:])
        if found:
            out += found[2].encode() * int(found[1])
            at += found.end()
        else:
            out += text[at].encode()
            at += 1
    return out


def shown(data):
    parts = []
    for found in re.finditer(rb"(.)\1*", data, re.S):
        byte = found[0][:1]
        text = "\\0" if byte == b"\0" else byte.decode()
        count = len(found[0])
        parts.append("\\{%d*%s}" % (count, text) if count >= 8 else text * count)
    return "".join(parts)


class Device:
    def __init__(self, fails):
        self.fails, self.calls, self.faults = set(fails), 0, 0

    def call(self):
        self.calls += 1
        if self.calls in self.fails:
            self.faults += 1
            raise Stop(0)


class Cell:
    """The pages in memory, most recent first, each [page, dirty, bytes]; the stored pages lie on the device."""

    def __init__(self, pages, fails):
        self.capacity, self.size = pages * PAGE, 0
        self.resident, self.stored, self.device = [], {}, Device(fails)

    def write_page(self, slot):
        self.device.call()
        self.stored[slot[0]] = bytes(slot[2])
        slot[1] = False

    def evict(self):
        if self.resident[-1][1]:
            self.write_page(self.resident[-1])
        self.resident.pop()

    def touch(self, page):
        for slot in self.resident:
            if slot[0] == page:
                self.resident.remove(slot)
                self.resident.insert(0, slot)
                return slot
        if len(self.resident) == RESIDENT:
            self.evict()
        data = bytes(PAGE)
        if page in self.stored:
            self.device.call()
            data = self.stored[page]
        self.resident.insert(0, [page, False, bytearray(data)])
        return self.resident[0]

    def each(self, off, count, act):
        """Goes through the parts of the pages; where a touch stops, the bytes of the pages before it were moved."""
        at = off
        while at < off + count:
            try:
                slot = self.touch(at // PAGE)
            except Stop:
                raise Stop(at - off)
            end = min(off + count, (at // PAGE + 1) * PAGE)
            act(slot, at % PAGE, at - off, end - at)
            at = end

    def read(self, off, count):
        out = bytearray()
        try:
            self.each(off, count, lambda slot, place, done, n: out.extend(slot[2][place:place + n]))
        except Stop as stop:
            return bytes(out), stop.moved
        return bytes(out), None

    def write(self, off, piece):
        def edit(slot, place, done, n):
            slot[2][place:place + n] = piece[done:done + n]
            slot[1] = True
        moved, stopped = len(piece), None
        try:
            self.each(off, len(piece), edit)
        except Stop as stop:
            moved = stopped = stop.moved
        if moved:
            self.size = max(self.size, off + moved)
        return moved, stopped

    def trunc(self, length):
        if length < self.size:
            page = length // PAGE
            if length % PAGE and (page in self.stored or any(slot[0] == page for slot in self.resident)):
                slot = self.touch(page)
                slot[2][length % PAGE:] = bytes(PAGE - length % PAGE)
                slot[1] = True
            keep = (length + PAGE - 1) // PAGE
            self.resident = [slot for slot in self.resident if slot[0] < keep]
            self.stored = {page: data for page, data in self.stored.items() if page < keep}
        self.size = length

    def back(self):
        for slot in sorted((slot for slot in self.resident if slot[1]), key=lambda slot: slot[0]):
            self.write_page(slot)

    def shrink(self):
        while len(self.resident) > TARGET:
            self.evict()


class Memory:
    """Bytes in memory, or a rom's."""
    device = None

    def __init__(self, data, capacity):
        self.data, self.capacity = data, capacity

    @property
    def size(self):
        return len(self.data)

    def read(self, off, count):
        return self.data[off:off + count], None

    def write(self, off, piece):
        if piece:
            old = self.data + bytes(max(0, off - len(self.data)))
            self.data = old[:off] + piece + old[off + len(piece):]
        return len(piece), None

    def trunc(self, length):
        self.data = (self.data + bytes(max(0, length - len(self.data))))[:length]

    def back(self):
        pass

    shrink = back


class Chars:
    def __init__(self, data, fails):
        self.input, self.device = data, Device(fails)


def row_of(word, rest, fails):
    if word == "unbound":
        return None
    if word == "tmp":
        return Memory(b"", TMP_MAX)
    if word == "rom":
        return Memory(text_bytes(rest), len(text_bytes(rest)))
    if word == "cell":
        return Cell(int(rest), fails)
    return Chars(text_bytes(rest), fails)


def refuse(errno, when):
    if when:
        raise Refusal(errno)


def bytes_step(row, kind, asked, args):
    full = "ENOSPC" if kind == "cell" else "EFBIG"
    mark = ""
    if asked == "size":
        return "size %d" % row.size, mark
    if asked in ("read", "load"):
        off, count = int(args[0]), int(args[1])
        if asked == "load":
            refuse("EFAULT", off + count > row.size)
        data, stopped = row.read(off, min(count, max(0, row.size - off)))
        if stopped is not None:
            mark = " !%d" % stopped
            refuse("EIO", stopped == 0)
        return ("got " + shown(data)) if data else "got", mark
    if asked in ("write", "append", "store"):
        refuse("EROFS", kind == "rom")
        piece = text_bytes(args[-1])
        off = row.size if asked == "append" else int(args[0])
        if asked == "store":
            refuse("EFAULT", off + len(piece) > row.size)
        else:
            refuse(full, len(piece) > 0 and off >= row.capacity)
            piece = piece[:max(0, row.capacity - off)]
        moved, stopped = row.write(off, piece)
        if stopped is not None:
            mark = " !%d" % stopped
            refuse("EIO", stopped == 0)
        return "count %d end %d" % (moved, off + moved), mark
    if asked == "trunc":
        refuse("EROFS", kind == "rom")
        refuse(full, int(args[0]) > row.capacity)
        row.trunc(int(args[0]))
    elif asked in ("sync", "flush"):
        row.back()
    elif asked == "reclaim":
        row.shrink()
    return "done", mark


def chars_step(row, asked, args):
    refuse("ESPIPE", asked == "size")
    refuse("EINVAL", asked in ("trunc", "sync", "load", "store"))
    if asked == "read":
        row.device.call()
        count = int(args[1])
        data, row.input = row.input[:count], row.input[count:]
        return ("got " + shown(data)) if data else "got", ""
    if asked in ("write", "append"):
        row.device.call()
        return "count %d end 0" % len(text_bytes(args[-1])), ""
    return "done", ""


def answer(row, kind, words):
    which, asked, args = words[0], words[1], words[2:]
    try:
        if asked in ("flush", "reclaim") and (row is None or which != "worker"):
            pass
        elif asked not in ("flush", "reclaim"):
            refuse("ENOENT", row is None or which in ("earlier", "later"))
        if row is None:
            return "done"
        reply, mark = chars_step(row, asked, args) if kind == "chr" else bytes_step(row, kind, asked, args)
        return reply + mark
    except Refusal as errno:
        return str(errno) + (" !0" if str(errno) == "EIO" else "")
    except Stop:
        return "EIO !0"


def play(word, rest, fails, lines):
    row = row_of(word, rest, fails)
    made = []
    for line in lines:
        asked = line.split(" = ")[0]
        device = row.device if row is not None else None
        before = device.faults if device else None
        text = asked + " = " + answer(row, word, asked.split())
        if device and device.faults != before:
            text += " faults %d" % device.faults
        made.append(text)
    return made, (row.device.calls if row is not None and row.device else 0)


def case_of(text):
    out, script = [], None
    for part in text[3:-1].split("\n== "):
        head, *lines = part.split("\n")
        word, _, rest = head.partition(" ")
        out.append("== " + head)
        if word == "about":
            out += lines
        elif word == "bytes":
            assert int(rest) == ROW_BYTES
        elif word == "fails":
            made, _ = play(script[0], script[1], map(int, rest.split()), script[2])
            out += [line for line, clean in zip(made, script[2]) if line != clean]
        else:
            made, _ = play(word, rest, [], lines)
            out += made
            script = (word, rest, lines)
    return "\n".join(out) + "\n"


def make(text):
    text = text.split("== fails ")[0]
    head, *lines = text[3:-1].split("\n== ")[-1].split("\n")
    word, _, rest = head.partition(" ")
    _, calls = play(word, rest, [], lines)
    return text + "".join("== fails %d\n" % number for number in range(1, calls + 2))


def main(words):
    if words[:1] == ["--make"]:
        # The lines of the script itself are compared as they were written by hand; those of the failing runs are made here.
        sys.stdout.write(case_of(make(open(words[1]).read())))
        return 0
    wrong = 0
    for name in words:
        text = open(name).read()
        for number, (has, reads) in enumerate(zip(text.split("\n"), case_of(text).split("\n")), 1):
            if has != reads:
                print("%s: line %d: the case has `%s`, and it reads `%s`" % (name, number, has[:200], reads[:200]))
                wrong = 1
                break
    return wrong


if __name__ == "__main__":
    sys.exit(main(sys.argv[1:]))
