"""The sweep of one crate: many changes in one check, each function judged by its own proof."""
import copy
import hashlib
import os
import re
import sys
import time

from changes import KINDS, Body, Change
from place import LIMIT, TWIN, Said, refusal
from results import Results, flat
from text import Crate, names_known, results_of_calls

TOGETHER = int(os.environ.get("SWEEP_TOGETHER", "20"))  # changes that one check tries, or one for each function


class Sweep:
    def __init__(self, place, name, kinds):
        self.copy, self.crate, self.results, self.kinds = place, Crate(name), Results(name), kinds
        self.by_label, self.twins, self.twinned = self.crate.by_label, {}, set()
        self.below = self.crate.calls()
        self.known, self.gives = names_known(self.crate), results_of_calls()
        self.judged = self.results.known()
        self.queue, self.keys = {}, set()
        for f in self.crate.functions:
            text = self.crate.files[f.file]
            f.line, f.last = text.count("\n", 0, f.start) + 1, text.count("\n", 0, f.end) + 1
            self.queue[f.label] = self.waiting(f)
        self.later = {}
        self.other = {f.label: 0 for f in self.crate.functions}
        self.trials = 0

    def waiting(self, f):
        """The changes of a function that were not judged yet."""
        out, uses = [], set()
        for c in self.changes(f):
            k = Results.key(f.print, c)
            self.keys.add(k)
            if k in self.judged:
                self.results.put(f.label, f.file, f.print, c, self.judged[k]["verdict"])
                if c.kind == "variable":
                    uses.add(c.at)
            else:
                out.append(c)
        k = Results.key(f.print, self.passed(f, ""))
        self.keys.add(k)
        if k in self.judged:
            # an earlier run found that the others are of another type
            self.results.put(f.label, f.file, f.print, self.passed(f, self.judged[k]["old"]), self.judged[k]["verdict"])
            out = [c for c in out if c.kind not in ("variable", "argument")]
        return [c for c in out if c.kind in self.kinds and not (c.kind == "variable" and c.at in uses)]

    def changes(self, f):
        return Body(f, self.crate.files[f.file], self.known[f.file], self.gives).all()

    @staticmethod
    def passed(f, count):
        return Change("other types", 0, str(count), "", f.line)

    def function(self, slot):
        """What stands for a slot: a function in its place, or its twin, a second function with the same contract."""
        return self.twins.get(slot) or self.by_label[slot]

    def edited(self, chosen):
        """The files with the change of each slot. Twins stand at the end of a file, so that no line above them moves."""
        files, self.twins = dict(self.crate.files), {}
        for file in files:
            here = [(self.by_label[s], c) for s, c in chosen.items() if "#" not in s and self.by_label[s].file == file]
            for f, c in sorted(here, key=lambda p: -p[0].start):
                at = f.start + c.at
                files[file] = files[file][:at] + c.new + files[file][at + len(c.old) :]
        for f in self.crate.functions:
            mine = {s: c for s, c in chosen.items() if s.startswith(f.label + "#")}
            for slot, c in sorted(mine.items()):
                twin = copy.copy(f)
                twin.name = f.name + TWIN + slot.split("#")[1]
                twin.label = f.label + TWIN + slot.split("#")[1]
                became = f.text if c is None else f.text[: c.at] + c.new + f.text[c.at + len(c.old) :]
                whole = f.before + re.sub(r"^fn %s\b" % f.name, "fn " + twin.name, became)
                whole = "\n%s {\n%s\n}\n" % (f.head, whole) if f.owner else "\n" + whole + "\n"
                twin.line = files[f.file].count("\n") + 1
                files[f.file] += whole
                twin.last = files[f.file].count("\n") + 1
                self.twins[slot] = twin
            self.copy.stand_in(f, {self.twins[slot].name for slot in mine})
        return files

    def check(self, files):
        self.trials += 1
        self.copy.write(self.crate.name, files)
        return Said(self.crate.name, self.copy.check(self.crate.name))

    def blamed(self, chosen, said):
        """The chosen functions at whose text the front end found an error. No change moves a line."""
        out = {}
        for file, line, code, words in said.front:
            for label in chosen:
                f = self.function(label)
                if f.file == file and f.line <= line <= f.last:
                    out.setdefault(label, code or words)
        return out

    def put(self, slot, c, verdict):
        f = self.by_label[slot.split("#")[0]]
        self.results.put(f.label, f.file, f.print, c, verdict)

    def pass_over(self, label, c):
        """A variable of another type, or one more for a use that has been changed already: no candidate."""
        self.other[label] += 1
        self.keys.discard(Results.key(self.by_label[label].print, c))

    def programs(self, chosen, queue):
        """Runs a check. A change that the front end refuses is put aside, and the next of its function takes its place."""
        while chosen:
            said = self.check(self.edited(chosen))
            blamed = {} if said.ended or said.log is None else self.blamed(chosen, said)
            if not blamed:
                break
            for slot, code in blamed.items():
                c, label = chosen.pop(slot), slot.split("#")[0]
                if c.kind in ("variable", "argument"):
                    self.pass_over(label, c)
                else:
                    self.put(label, c, "not a program: " + code)
                if queue.get(label):
                    chosen[slot] = queue[label].pop(0)
        for slot, c in chosen.items():
            label = slot.split("#")[0]
            if c.kind == "variable" and label in queue:
                for o in queue[label]:
                    if o.kind == "variable" and o.at == c.at:
                        self.pass_over(label, o)
                queue[label] = [o for o in queue[label] if o.kind != "variable" or o.at != c.at]
        return said

    def choose(self, queue, how):
        """One change of each function, and more in twins; or of functions of which none calls another, even through
        others; or one alone."""
        chosen = {}
        for label in sorted(queue, key=lambda l: (-len(queue[l]), l)):
            if not queue[label]:
                continue
            if how == "apart" and any(label in self.below[o] or o in self.below[label] for o in chosen):
                continue
            if how == "alone" and chosen:
                break
            chosen[label] = queue[label].pop(0)
        number = 0
        while how == "all" and len(chosen) < self.width:
            longest = max((l for l in queue if l in self.twinned), key=lambda l: (len(queue[l]), l), default=None)
            if longest is None or not queue[longest]:
                break
            number += 1
            chosen["%s#%d" % (longest, number)] = queue[longest].pop(0)
        return chosen

    def try_twins(self, queue):
        """Which functions may have twins: those of long queues whose unchanged twin is proved."""
        total, functions = sum(len(q) for q in queue.values()), sum(1 for q in queue.values() if q)
        self.width = max(TOGETHER, min(functions, 3 * TOGETHER))
        long_ = [l for l in queue if 2 * len(queue[l]) * self.width > 3 * total and len(queue[l]) > 3]
        long_ = [l for l in long_ if self.by_label[l].head or not self.by_label[l].owner]  # no twin in a trait's impl
        self.twinned = set()
        if long_:
            said = self.check(self.edited({l + "#1": None for l in long_}))
            self.twinned = {l for l in long_ if said.ended and said.of(self.twins[l + "#1"]) == "proved"}
            if set(long_) != self.twinned:
                print("  no twins of " + ", ".join(sorted(set(long_) - self.twinned)), flush=True)

    def judge(self, chosen, said):
        """The verdict of each chosen function, by its own line and the errors of its own proof. A proof rests on what is
        called by its contract alone; where it has no error of its own but something below it is changed too, it waits."""
        for label, c in chosen.items():
            f = self.function(label)
            told = said.of(f) if said and said.ended else None
            errors = said.errors(f) if told else []
            if told and told.startswith("no proof"):
                # a function that the search proves by itself: now it does not
                errors, told = [told], "not proved"
            if told == "proved":
                self.put(label, c, "accepted")
            elif told and told.startswith("not proved") and (errors or "which is not proved" not in told):
                self.put(label, c, refusal(errors))
                with open(os.path.join(self.copy.at, "errors"), "a", encoding="utf-8") as h:
                    h.write("\t".join([self.crate.name, label, c.kind, flat(c.old), flat(c.new), refusal(errors), told, *(e[:200] for e in errors)]) + "\n")
            elif len(chosen) == 1:
                if said is None or said.log is None:
                    self.put(label, c, "could not tell: no answer in %d s" % LIMIT)
                else:
                    first = re.search(r"^.*error.*$", said.log, re.M)
                    self.put(label, c, "could not tell: " + (told or (first and flat(first.group())[-120:]) or "nothing said"))
            else:
                self.later.setdefault(label.split("#")[0], []).append(c)
        # what rests on no changed function must still be proved: else the trial says nothing
        if said and said.ended:
            touched = set(chosen)
            for f in self.crate.functions:
                if f.label not in touched and not (self.below[f.label] & touched):
                    told = said.of(f)
                    if told is not None and told != "proved":
                        print("  note: %s reads `%s` though nothing below it was changed" % (f.label, told[:100]))

    def stands(self):
        """The crate as it is must be proved, and the check must name each function."""
        self.ready = self.check(self.edited({}))
        if not self.ready.proved:
            sys.exit("sweep: %s is not proved as it stands:\n%s" % (self.crate.name, "\n".join((self.ready.log or "").splitlines()[-5:])))
        lost = [f.label for f in self.crate.functions if self.ready.of(f) is None]
        if lost:
            sys.exit("sweep: no line of the check names " + ", ".join(lost))

    def try_all(self, queue, how):
        if self.ready is None and any(queue.values()):
            self.stands()
        if how == "all" and any(queue.values()):
            self.try_twins(queue)
        while any(queue.values()):
            began = time.time()
            chosen = self.choose(queue, how)
            said = self.programs(chosen, queue if how == "all" else {})
            self.judge(chosen, said)
            self.results.save()
            print("  %d tried together, %.0f s; %d left" % (len(chosen), time.time() - began, sum(len(q) for q in queue.values())), flush=True)

    def definitions(self):
        """The constants of the crate by one, each alone: some function must be refused."""
        for file, name, value, at, old, line in list(self.crate.definitions()):
            text = self.crate.files[file]
            for new in (value - 1, value + 1):
                if new < 0:
                    continue
                c = Change("definition", at, old, str(new), line)
                users = [f for f in self.crate.functions if re.search(r"\b%s\b" % name, f.text[f.body - f.start :])]
                mark = hashlib.sha256((name + "".join(f.text for f in users)).encode()).hexdigest()[:12]
                c.at = 0
                k = Results.key(mark, c)
                self.keys.add(k)
                done = self.judged.get(k)
                if done:
                    self.results.put(name, file, mark, c, done["verdict"])
                    continue
                if not users:
                    self.results.put(name, file, mark, c, "used in other crates alone")
                    continue
                files = self.edited({})
                files[file] = text[:at] + str(new) + text[at + len(old) :]
                said = self.check(files)
                if said.proved:
                    verdict = "accepted"
                elif said.ended:
                    told = sorted(refusal(e) for e in (said.errors(f) for f in users) if e)
                    verdict = told[0] if told else refusal([])
                elif said.front:
                    verdict = "not a program: " + (said.front[0][2] or said.front[0][3])
                else:
                    verdict = "could not tell"
                self.results.put(name, file, mark, c, verdict)
                self.results.save()

    def confirm(self):
        """What the trials accepted, once more from nothing: one change in each of many functions, the whole crate proved."""
        open_ = {}
        for f in self.crate.functions:
            for c in self.changes(f):
                r = self.results.rows.get(Results.key(f.print, c))
                if r and r["verdict"] == "accepted":
                    open_.setdefault(f.label, []).append(c)
        while open_:
            group = {l: cs.pop() for l, cs in open_.items()}
            open_ = {l: cs for l, cs in open_.items() if cs}
            self.copy.forget(self.crate.name)
            said = self.check(self.edited(group))
            if said.proved:
                for l, c in group.items():
                    self.put(l, c, "accepted, from nothing too")
            else:
                for l, c in group.items():
                    self.copy.forget(self.crate.name)
                    said = self.check(self.edited({l: c}))
                    self.put(l, c, "accepted, from nothing too" if said.proved else "could not tell: accepted, but not from nothing")
            self.results.save()

    def go(self):
        began = time.time()
        name = self.crate.name
        left = sum(len(q) for q in self.queue.values())
        print("%s: %d functions, %d changes, %d to try" % (name, len(self.crate.functions), len(self.keys), left), flush=True)
        self.ready = None
        for how in ("all", "apart", "alone"):
            self.try_all(self.queue, how)
            self.queue, self.later = self.later, {}
        for f in self.crate.functions:
            if self.kinds == KINDS and Results.key(f.print, self.passed(f, "")) not in self.results.rows:
                self.results.put(f.label, f.file, f.print, self.passed(f, self.other[f.label]), "not candidates")
        if "definition" in self.kinds:
            self.definitions()
        self.results.save()
        self.confirm()
        self.copy.write(name, self.edited({}))
        self.results.keep(self.keys)
        self.results.save()
        print("%s: %d trials, %.0f s" % (name, self.trials, time.time() - began), flush=True)
