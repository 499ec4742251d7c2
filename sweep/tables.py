"""The tables of docs/SWEEP.md, and whether wrong-ports.md names edits that are there."""
import os
import re

from changes import KINDS, Body
from ports import read_ports
from results import Results
from text import HERE, ROOT, Crate, libraries, names_known, results_of_calls

CLASSES = ["refused", "accepted", "could not tell", "not a program"]


def class_of(verdict):
    for c in CLASSES:
        if c in verdict:
            return c
    return None


def reasons():
    """Why an accepted change is none: (crate, function, old, new) to the words."""
    out = {}
    path = os.path.join(HERE, "equivalent.tsv")
    if os.path.exists(path):
        with open(path, encoding="utf-8") as h:
            for line in h.read().splitlines()[1:]:
                *key, why = line.split("\t")
                out[tuple(key)] = why
    return out


def count_table(groups):
    lines = ["| | tried | refused | accepted | could not tell | no program |", "|---|---|---|---|---|---|"]
    total = {}
    for name, verdicts in list(groups.items()) + [("all", None)]:
        n = total if verdicts is None else {}
        for v in verdicts or []:
            n[class_of(v)] = n.get(class_of(v), 0) + 1
            total[class_of(v)] = total.get(class_of(v), 0) + 1
        tried = sum(n.get(c, 0) for c in CLASSES if c != "not a program")
        lines.append("| %s | %d | %d | %d | %d | %d |" % (name, tried, n.get("refused", 0), n.get("accepted", 0), n.get("could not tell", 0), n.get("not a program", 0)))
    return lines


def unknown_edits(text):
    """The names of the table of wrong ports that are no edit: in `code` a must-fail edit, else one of sweep/ports."""
    there = {True: set(), False: set()}
    for top, folder in ((os.path.join(ROOT, "crates"), "must-fail"), (os.path.join(HERE, "ports"), "")):
        for crate in os.listdir(top):
            at = os.path.join(top, crate, folder)
            if os.path.isdir(at):
                there[folder == "must-fail"] |= {e[:-5] for e in os.listdir(at) if e.endswith(".edit")}
    out = []
    for line in text.splitlines():
        if line.startswith("| `"):
            for cell in line.split("|")[2:-1]:
                for name in (n.strip() for n in cell.split(",")):
                    if name != "-" and name.strip("`") not in there[name.startswith("`")]:
                        out.append(name)
    return out


def left_over():
    """How many changes of the present text are not judged yet, by kind."""
    left, gives = {}, results_of_calls()
    for name in libraries():
        crate, rows = Crate(name), Results(name).rows
        known = names_known(crate)
        for f in crate.functions:
            for c in Body(f, crate.files[f.file], known[f.file], gives).all():
                other = c.kind in ("variable", "argument")
                if Results.key(f.print, c) not in rows and not (other and (f.print, "0", "other types", "") in rows):
                    left[c.kind] = left.get(c.kind, 0) + 1
    if not left:
        return ["Every change of the present text is tried."]
    words = ["%d %s" % (left[k], k) for k in KINDS if k in left]
    return ["Not tried yet: %s (of variables and arguments many are of another type, and no candidates)." % ", ".join(words)]


def report():
    why, by_crate, by_kind, accepted, untold = reasons(), {}, {}, [], []
    for crate in libraries():
        for r in Results(crate).rows.values():
            if class_of(r["verdict"]) is None:
                continue
            by_crate.setdefault(crate, []).append(r["verdict"])
            by_kind.setdefault(r["kind"], []).append(r["verdict"])
            if class_of(r["verdict"]) == "accepted":
                key = (crate, r["function"], r["old"], r["new"])
                accepted.append((crate, r, why.get(key)))
                if key not in why:
                    untold.append("\t".join(key))
    accepted.sort(key=lambda a: (a[0], a[1]["place"].split(":")[0], int(a[1]["place"].split(":")[1]), a[1]["old"], a[1]["new"]))
    equal = ["| function | place | change | why no answer differs |", "|---|---|---|---|"]
    for crate, r, w in accepted:
        equal.append("| `%s::%s` | %s | `%s` to `%s` | %s |" % (crate, r["function"], r["place"], r["old"].replace("|", "\\|"), r["new"].replace("|", "\\|"), w or "**not explained**"))
    rows = read_ports()
    top = os.path.join(HERE, "ports")
    there = [(c, e[:-5]) for c in os.listdir(top) for e in os.listdir(os.path.join(top, c)) if e.endswith(".edit")]
    judged = [rows[k][2] for k in there if k in rows]
    refused = sum(1 for v in judged if v.startswith("refused"))
    facts = sum(1 for v in judged if v == "refused: a fact fails")
    ports = ["%d wrong ports; %d have a verdict: %d refused, %d of them because a fact fails. %d have none yet." % (len(there), len(judged), refused, facts, len(there) - len(judged))]
    tables = {"left": left_over(), "crates": count_table(by_crate), "kinds": count_table({k: by_kind[k] for k in KINDS if k in by_kind}), "accepted": equal, "ports": ports}
    path = os.path.join(ROOT, "docs", "SWEEP.md")
    with open(path, encoding="utf-8") as h:
        text = h.read()
    for name, lines in tables.items():
        text = re.sub(r"(<!-- %s -->\n).*?(<!-- end -->)" % name, lambda m: m.group(1) + "\n".join(lines) + "\n" + m.group(2), text, flags=re.S)
    with open(path, "w", encoding="utf-8") as h:
        h.write(text)
    for line in tables["crates"] + tables["left"]:
        print(line)
    with open(os.path.join(HERE, "results", "wrong-ports.md"), encoding="utf-8") as h:
        lost = unknown_edits(h.read())
    for line in untold:
        print("not explained: " + line)
    for name in lost:
        print("wrong-ports.md names no edit: " + name)
    return 1 if untold or lost else 0
