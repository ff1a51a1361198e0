"""What the page cache of a file on a cell has to do, by the rule of docs/STEPS.md, "The page cache", alone: this takes no answer
from a program. With a script of operations it prints the case in which each of the first 40 calls of the device fails in turn; with
`--cases FILE ..` it says where a case of crates/cache_cases has other calls or another answer. The operations are those of
docs/DEVELOPING.md, "A new case"; their texts are plain letters here."""
import sys

SIZE = 4096


class Fault(Exception):
    pass


class Cell:
    def __init__(self, head):
        words = head.split()
        self.pages, self.fails = int(words[0]), set(map(int, words[2:]))
        self.device, self.stored, self.resident = {}, set(), []  # resident: [page, dirty, bytes], most recent first
        self.made = self.reads = self.writes = self.faults = 0
        self.shown = []

    def call(self, kind, page):
        self.made += 1
        self.reads += kind == "r"
        self.writes += kind == "w"
        failed = self.made in self.fails
        self.faults += failed
        self.shown.append(f"{kind}{page}" + "!" * failed)
        if failed:
            raise Fault

    def write(self, slot):
        self.call("w", slot[0])
        self.device[slot[0]] = bytes(slot[2])
        self.stored.add(slot[0])

    def evict(self):
        if self.resident[-1][1]:
            self.write(self.resident[-1])
        self.resident.pop()

    def touch(self, page):
        slot = next((s for s in self.resident if s[0] == page), None)
        if slot:
            self.resident.remove(slot)
        else:
            if len(self.resident) == 32:
                self.evict()
            if page in self.stored:
                self.call("r", page)
            held = self.device.get(page) if page in self.stored else None
            slot = [page, False, bytearray(held or bytes(SIZE))]
        self.resident.insert(0, slot)
        return slot

    def back(self):
        for slot in sorted(s for s in self.resident if s[1]):
            self.write(slot)
            slot[1] = False

    def shrink(self):
        while len(self.resident) > 8:
            self.evict()

    def part(self, word, page, at, last):
        at = int(at)
        if word == "device":
            self.call("r", page)
            return shown(self.device.get(page, bytes(SIZE))[at:at + int(last)])
        slot = self.touch(page)
        if word == "out":
            return shown(slot[2][at:at + int(last)])
        slot[1], slot[2][at:at + len(last)] = True, last.encode()
        return ""

    def run(self, words):
        word, rest = words[0], words[1:]
        if word in ("touch", "edit", "out", "device"):
            first, _, last = rest[0].partition("-")
            each = range(int(first), int(last or first) + 1)
            return "".join(self.part(word, page, *rest[1:]) if rest[1:] else self.touch(page) and "" for page in each)
        if word == "cut":
            self.resident = [s for s in self.resident if s[0] < int(rest[0])]
            self.stored = {page for page in self.stored if page < int(rest[0])}
        elif word == "anew":
            self.resident = []
        elif word == "stored":
            return " ".join(map(str, sorted(self.stored))) or "none"
        elif word == "counts":
            return f"{self.reads} reads {self.writes} writes {self.faults} faults"
        else:
            {"back": self.back, "shrink": self.shrink}[word]()
        return ""

    def answer(self, asked):
        self.shown = []
        try:
            told = self.run(asked.split()) or "ok"
        except Fault:
            told = "fault"
        calls = [] if asked.startswith("device") else self.shown
        return f"{asked} = " + " ".join(calls + [told])


def shown(part):
    return "".join("\\0" if byte == 0 else chr(byte) for byte in part)


def check(name):
    cell = None
    wrong = 0
    for number, line in enumerate(open(name).read().splitlines(), 1):
        if line.startswith("== cell "):
            cell = Cell(line[len("== cell "):])
        elif not line.startswith("== about "):
            told = cell.answer(line.split(" = ")[0])
            if told != line:
                print(f"{name}: line {number} has `{line}`, and by the rule it is `{told}`")
                wrong += 1
    return wrong


def main(words):
    if words[0] == "--cases":
        return 1 if sum(map(check, words[1:])) else 0
    asked = [line for line in open(words[0]).read().splitlines() if line and not line.startswith("#")]
    print("== about each of the first 40 calls of the device fails in turn; made by ci/page_cache.py of ci/page_cache.script")
    for head in ["48"] + [f"48 fails {number}" for number in range(1, 41)]:
        cell = Cell(head)
        print(f"== cell {head}", *map(cell.answer, asked), sep="\n")
    return 0


sys.exit(main(sys.argv[1:]))
