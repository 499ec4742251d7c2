"""What was judged, kept between runs."""
import os
import re

from changes import KINDS
from text import HERE

RESULTS = os.path.join(HERE, "results")
COLUMNS = ["function", "place", "kind", "old", "new", "verdict", "text", "at"]


def flat(s):
    return re.sub(r"\s+", " ", s)


class Results:
    def __init__(self, crate):
        self.path = os.path.join(RESULTS, crate + ".tsv")
        self.rows = self.read(self.path)

    @staticmethod
    def read(path):
        rows = {}
        if os.path.exists(path):
            with open(path, encoding="utf-8") as h:
                for line in h.read().splitlines()[1:]:
                    r = dict(zip(COLUMNS, line.split("\t")))
                    rows[(r["text"], r["at"], r["kind"], r["new"])] = r
        return rows

    def known(self):
        """All that was judged, in other crates too: a function may have moved here with its text."""
        rows = {}
        for file in sorted(os.listdir(RESULTS)) if os.path.isdir(RESULTS) else []:
            if file.endswith(".tsv") and file != "ports.tsv":
                rows.update(self.read(os.path.join(RESULTS, file)))
        rows.update(self.rows)
        return rows

    @staticmethod
    def key(text, c):
        return (text, str(c.at), c.kind, flat(c.new))

    def put(self, label, file, text, c, verdict):
        self.rows[self.key(text, c)] = {
            "function": label, "place": "%s:%d" % (file, c.line), "kind": c.kind, "old": flat(c.old), "new": flat(c.new),
            "verdict": verdict, "text": text, "at": str(c.at),
        }

    def keep(self, keys):
        """Forgets what was judged of functions that are no more."""
        self.rows = {k: r for k, r in self.rows.items() if k in keys}

    def save(self):
        os.makedirs(RESULTS, exist_ok=True)

        def order(r):
            file, line = r["place"].split(":")
            return (file, int(line), r["function"], int(r["at"]), KINDS.index(r["kind"]), r["new"])

        with open(self.path + ".new", "w", encoding="utf-8") as h:
            h.write("\t".join(COLUMNS) + "\n")
            for r in sorted(self.rows.values(), key=order):
                h.write("\t".join(r[c] for c in COLUMNS) + "\n")
        os.replace(self.path + ".new", self.path)
