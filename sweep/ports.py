"""Wrong ports: whole edits of a function, each of which must be refused."""
import hashlib
import os
import time

from changes import Change
from place import Copy
from results import RESULTS
from text import HERE, Crate
from trials import Sweep


class Ports(Sweep):
    """The edits of sweep/ports/CRATE: as a must-fail edit, with a line `in: FUNCTION` in whose text each `old:` is unique. Lines of `old:` that follow each other are one text."""

    def __init__(self, place, name, rows):
        self.copy, self.crate, self.rows = place, Crate(name), rows
        self.by_label, self.twins, self.twinned = self.crate.by_label, {}, set()
        self.below, self.later, self.trials, self.results = self.crate.calls(), {}, 0, self
        self.other = {f.label: 0 for f in self.crate.functions}
        self.keys, self.queue = set(), {f.label: [] for f in self.crate.functions}
        for f in self.crate.functions:
            text = self.crate.files[f.file]
            f.line, f.last = text.count("\n", 0, f.start) + 1, text.count("\n", 0, f.end) + 1
        folder = os.path.join(HERE, "ports", name)
        for file in sorted(os.listdir(folder)):
            self.read(file[:-5], os.path.join(folder, file))

    def read(self, edit, path):
        words, label, pairs, last = [], None, [], ""
        with open(path, encoding="utf-8") as h:
            for line in h.read().splitlines():
                if line.startswith("# "):
                    words.append(line[2:])
                elif line.startswith("in: "):
                    label = line[4:]
                elif line.startswith("old: "):
                    if last != "old":
                        pairs.append(([], []))
                    pairs[-1][0].append(line[5:])
                elif line.startswith("new: "):
                    pairs[-1][1].append(line[5:])
                last = line[:3]
        text = self.crate.by_label[label].text if label in self.crate.by_label else None
        for old, new in (("\n".join(o), "\n".join(n)) for o, n in pairs):
            if text is None or text.count(old) != 1:
                self.rows[(self.crate.name, edit)] = [label, "", "does not apply: not once in that function: " + old.strip(), " ".join(words), ""]
                return
            text = text.replace(old, new)
        f = self.crate.by_label[label]
        c = Change("port", 0, f.text, text, f.line)
        c.name, c.words = edit, " ".join(words)
        c.mark = hashlib.sha256((f.text + text).encode()).hexdigest()[:12]
        done = self.rows.get((self.crate.name, edit))
        if done and done[4] == c.mark:
            self.rows[(self.crate.name, edit)] = [label, f.file, done[2], c.words, c.mark]
        else:
            self.queue[label].append(c)

    def put(self, label, c, verdict):
        label = label.split("#")[0]
        self.rows[(self.crate.name, c.name)] = [label, self.by_label[label].file, verdict, c.words, c.mark]

    def save(self):
        write_ports(self.rows)

    def go(self):
        began = time.time()
        self.ready = None
        for how in ("all", "apart", "alone"):
            self.try_all(self.queue, how)
            self.queue, self.later = self.later, {}
        self.copy.write(self.crate.name, self.edited({}))
        self.save()
        print("%s: %d trials, %.0f s" % (self.crate.name, self.trials, time.time() - began), flush=True)


PORTS = os.path.join(RESULTS, "ports.tsv")


def read_ports():
    rows = {}
    if os.path.exists(PORTS):
        with open(PORTS, encoding="utf-8") as h:
            for line in h.read().splitlines()[1:]:
                crate, edit, label, file, verdict, words, mark = line.split("\t")
                rows[(crate, edit)] = [label, file, verdict, words, mark]
    return rows


def write_ports(rows):
    os.makedirs(RESULTS, exist_ok=True)
    with open(PORTS, "w", encoding="utf-8") as h:
        h.write("\t".join(["crate", "edit", "function", "file", "verdict", "what it is", "text"]) + "\n")
        for k in sorted(rows):
            h.write("\t".join([*k, *rows[k]]) + "\n")


def try_ports(words):
    rows = read_ports()
    folders = words or sorted(os.listdir(os.path.join(HERE, "ports")))
    there = {(c, e[:-5]) for c in os.listdir(os.path.join(HERE, "ports")) for e in os.listdir(os.path.join(HERE, "ports", c))}
    rows = {k: r for k, r in rows.items() if k in there}
    place = Copy()
    try:
        for name in folders:
            Ports(place, name, rows).go()
    finally:
        place.remove()
    bad = [k for k in sorted(rows) if not rows[k][2].startswith("refused")]
    for k in bad:
        print("%s/%s: %s" % (*k, rows[k][2]))
    print("%d wrong ports, %d refused" % (len(rows), len(rows) - len(bad)))
    return 1 if bad else 0
