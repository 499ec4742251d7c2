"""A copy of the repository to try changes on, and what a check there says."""
import os
import re
import shutil
import signal
import subprocess
import tempfile

from text import ROOT

LIMIT = int(os.environ.get("SWEEP_LIMIT", "900"))  # seconds that one check may take
TWIN = "_twin"


class Copy:
    def __init__(self):
        kept = os.environ.get("SWEEP_AT")
        self.at = kept or tempfile.mkdtemp(prefix="sweep.")
        self.temporary = not kept
        os.makedirs(self.at, exist_ok=True)
        for part in ("crates", "crates.txt"):
            here, there = os.path.join(ROOT, part), os.path.join(self.at, part)
            if os.path.isdir(there):
                shutil.rmtree(there)
            shutil.copytree(here, there) if os.path.isdir(here) else shutil.copy2(here, there)

    def remove(self):
        if self.temporary:
            shutil.rmtree(self.at, ignore_errors=True)

    def write(self, crate, files):
        for file, text in files.items():
            path = os.path.join(self.at, "crates", crate, "src", file)
            with open(path, encoding="utf-8") as h:
                if h.read() == text:
                    continue
            with open(path, "w", encoding="utf-8") as h:
                h.write(text)

    def check(self, crate):
        """What `rt check` says of a crate, or None where it takes too long; nothing of it is left running."""
        words = ["nice", "-n", "19", "rt", "check", "--jobs", os.environ.get("RT_JOBS", "1")]
        with subprocess.Popen(words, cwd=os.path.join(self.at, "crates", crate), stdout=subprocess.PIPE, stderr=subprocess.STDOUT, process_group=0) as p:
            try:
                return p.communicate(timeout=LIMIT)[0].decode("utf-8", "replace")
            except subprocess.TimeoutExpired:
                return None
            finally:
                if p.returncode is None:
                    os.killpg(p.pid, signal.SIGTERM)

    def proof_of(self, f):
        """The folder of a function's proof, or None where the search proves it."""
        proofs = os.path.join(self.at, "crates", f.crate, "proofs")
        module = [] if f.file in ("lib.rt", "main.rt") else [f.file[:-3]]
        if not f.owner:
            folder = os.path.join(proofs, *module, f.name)
            return folder if os.path.isdir(folder) else None
        for at, _, _ in os.walk(proofs):
            if at.endswith(os.path.join("", f.owner, f.name)):
                return at
        return None

    def stand_in(self, f, twins):
        """Gives each twin of a function its proof, and takes away what earlier twins left."""
        folder = self.proof_of(f)
        if folder is None:
            return
        above, name = os.path.split(folder)
        for old in os.listdir(above):
            if re.fullmatch(name + TWIN + r"\d+", old) and old not in twins:
                shutil.rmtree(os.path.join(above, old))
        for twin in twins:
            if not os.path.isdir(os.path.join(above, twin)):
                shutil.copytree(folder, os.path.join(above, twin))
                for file in os.listdir(os.path.join(above, twin)):
                    path = os.path.join(above, twin, file)
                    with open(path, encoding="utf-8") as h:
                        text = h.read()
                    text = re.sub(r"\.%s\.(?=[A-Z])" % name, "." + twin + ".", text)
                    spec = name.replace("_", "-") + "-spec"
                    text = re.sub(r"(?<![\w-])%s(?![\w-])" % re.escape(spec), twin.replace("_", "-") + "-spec", text)
                    with open(path, "w", encoding="utf-8") as h:
                        h.write(text)

    def forget(self, crate):
        """Removes what earlier checks of a crate left, so that the next one starts from nothing."""
        shutil.rmtree(os.path.join(self.at, "crates", crate, "out"), ignore_errors=True)


VERDICT = re.compile(r"^fn (\S+): (.*)$", re.M)


class Said:
    """What one check of a crate said."""

    def __init__(self, crate, log):
        self.crate, self.log = crate, log
        self.told = dict(VERDICT.findall(log or ""))
        self.proved = bool(re.search(r"^logic=proved", log or "", re.M))
        self.ended = bool(re.search(r"^logic=", log or "", re.M))
        self.front = []
        if not self.ended:
            for m in re.finditer(r"(?:^|/)src/(\w+\.rt):(\d+):\d+: error\[?([\w-]*)\]?:? ?(.*)$", log or "", re.M):
                self.front.append((m.group(1), int(m.group(2)), m.group(3), m.group(4)))

    def of(self, f):
        # a method goes by the module of its type, which may not be the one of its text
        names = [n for n in self.told if (n.endswith("::" + f.label) if f.owner else n == self.crate + "::" + f.label)]
        return self.told[names[0]] if len(names) == 1 else None

    def errors(self, f):
        """The errors of the function's own proof, or what is said of a place of its text."""
        module = r"(?:\w+/)?" + f.owner + "/" if f.owner else ("" if f.file == "lib.rt" else f.file[:-3] + "/")
        # a long message goes on in indented lines
        own = re.compile(r"/proofs/" + module + r"\+?" + f.name + r"/\w+\.antt:\d+:\d+: error: (.*(?:\n  .*)*)$", re.M)
        out = [" ".join(m.group(1).split()) for m in own.finditer(self.log) if "was not admitted" not in m.group(1)]
        text = re.compile(r"(?:note: )?\S*src/" + f.file + r":(\d+):\d+: (?!error|warning)(.*)$", re.M)
        if not out:
            out = [m.group(2) for m in text.finditer(self.log) if f.line <= int(m.group(1)) <= f.last]
        return out


UNFIT = re.compile(r"has no (?:field )?`|`rw`: |`tie\.Need-[\w-]+`, but this has type")


def refusal(errors):
    """A fact fails, or the proof does not fit the changed code: it names a need or a value that is not there, lacks a need,
    or rewrites by an equation that does not apply."""
    if not errors:
        return "refused: no error of its own"
    if any(UNFIT.search(e) for e in errors):
        return "refused: proof unfit"
    return "refused: a fact fails"
