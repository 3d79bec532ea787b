#!/usr/bin/env python3
"""Tries the wrong bodies of wrong/ and must-fail/ in batches: the prover must refuse each, by a clause of its function.

    tests/wrong_bodies.py [--named] [CRATE | CRATE/NAME ..]

Of these crates, or of all that have some, the edits of wrong/CRATE.edits are tried, or the one of a name; with --named those of
crates/CRATE/must-fail/ too, which `rt ci` tries one by one. An edit is in the form of must-fail's, behind a line `== NAME`. Since
an edit of a body leaves the contracts as they are, many functions are wrong in one check: a batch has one edit a function.
The check is `rt check` in the crate's folder of a copy of the repository, over what earlier checks kept in out/ of that crate
and of those that it stands on: run `rt check` in crates/CRATE first.

Of each edit one of these is told:

    by a clause     the search left a goal of a clause of the edited function open
    by its proof    only what was written by hand no longer fits: an answer, or the invariant of a loop. Then a line
                    '# CLAUSE: WORDS' of the edit says which words of a clause exclude the body; without it, it has failed
    still proved    a clause is to be strengthened, or the edit means the same: it has failed
    not tried       it can't be applied, or doesn't compile: it has failed

The last line is 'wrong bodies: N passed, M failed'.
"""

import glob
import os
import re
import shutil
import subprocess
import sys
import tempfile
import time

from lib.tally import count, finish

TOP = os.path.dirname(os.path.dirname(os.path.abspath(__file__)))
PARTS = ["src", "specs", "proofs"]
FUNCTION = re.compile(r"^( *)(?:pub(?:\([a-z]+\))? )?(?:final )?(?:const )?fn (\w+)")
IMPL = re.compile(r"^ *impl\b(?:<.*?>(?= ))? (?:(?:\w+::)*(\w+)(?:<([\w:]*).*>)? for )?&?(?:'\w+ )?(\w+)")
TRAIT = re.compile(r"^ *(?:pub )?trait (\w+)")
ONE_TYPE = re.compile(r"^ *impl (\w+)<(\w+)> \{")
PLACE = re.compile(r"^(?:note: )?(?:\./)?((?:src|specs|proofs)/\S+?):(\d+):\d+: (.*)")
GOAL = re.compile(r"\(`([^`]+)`\)")
OPEN = re.compile(r"^fn (\S+): (.*)")


class Edit:
    """A wrong body: its crate, its name, the changes of one file each, and what it says of its clause."""

    def __init__(self, crate, name):
        self.crate, self.name = crate, name
        self.changes, self.said, self.file, self.old = [], [], None, None

    def take(self, line):
        """Takes one of its lines."""
        if line.startswith("file: "):
            self.file = line[len("file: ") :].strip()
        elif line.startswith("old: "):
            self.old = line[len("old: ") :]
        elif line.startswith("new:"):
            self.changes.append((self.file, self.old, line[len("new: ") :]))
        elif line.startswith("# "):
            self.said.append(line[2:])

    def apply(self, texts):
        """The texts with the edit made, or None where it can't be."""
        texts = dict(texts)
        for file, old, new in self.changes:
            if texts.get(file, "").count(old) != 1:
                return None
            texts[file] = texts[file].replace(old, new)
        return texts

    def functions(self, texts):
        """The functions that the edit changes: file, name, and the line at which each begins."""
        found = set()
        after = self.apply(texts)
        for file in {file for file, _, _ in self.changes}:
            before, then = texts[file].split("\n"), after[file].split("\n")
            for number, (one, other) in enumerate(zip(before, then)):
                if one != other:
                    found.add((file, *function_at(before, number)))
        return found


def function_at(lines, number):
    """The name of the function round a line, and the line where it begins; None where there is none."""
    for at in range(number, -1, -1):
        match = FUNCTION.match(lines[at])
        if match and not lines[at].rstrip().endswith(";"):
            return match[2], at
    return None, number


def place_of(lines, name, near):
    """The line at which the function of a name begins that stood near a line before the text was formatted."""
    found = [at for at, line in enumerate(lines) if FUNCTION.match(line) and FUNCTION.match(line)[2] == name]
    return min(found, key=lambda at: abs(at - near))


def module_of(file):
    """The words of a module's path, by the file that it stands in."""
    words = file[len("src/") : -len(".rt")].split("/")
    return words[:-1] if words[-1] in ("lib", "main") else words


def trait_of(name, given):
    """What the prover puts behind a type's name for an impl of a trait: FromIoError of From<io::Error>, and nothing for Drop."""
    if name in (None, "Drop"):
        return ""
    return name + "".join(it[:1].upper() + it[1:] for it in (given or "").split("::"))


def home_of(texts, file, name):
    """The file that declares a type; where none does, the one that speaks of it."""
    declared = re.compile(rf"^(?:pub(?:\([a-z]+\))? )?(?:struct|enum) {name}\b", re.M)
    return next((it for it in [file, *sorted(texts)] if declared.search(texts[it])), file)


def path_of(crate, file, texts, name, begin):
    """The path by which the prover names a function, as am_merge::held::Held::take: a method by the module of its type."""
    lines, words = texts[file].split("\n"), []
    indent = len(FUNCTION.match(lines[begin])[1])
    for at in range(begin, -1, -1) if indent else ():
        line = lines[at]
        if len(line) - len(line.lstrip(" ")) < indent:
            match, trait = IMPL.match(line), TRAIT.match(line)
            if match:
                words = [match[3] + trait_of(match[1], match[2])]
                if only := ONE_TYPE.match(line):
                    words = [f"{only[1]}+{only[2]}"]
                # (an impl of a trait stands where it is written)
                file = file if match[1] else home_of(texts, file, match[3])
                break
            if trait:
                words = [trait[1]]
                break
    return "::".join([crate, *module_of(file), *words, name])


def sources(crate, root=TOP):
    """The texts of a crate's sources."""
    texts, top = {}, f"{root}/crates/{crate}"
    for at, _, names in os.walk(f"{top}/src"):
        for name in names:
            path = os.path.relpath(f"{at}/{name}", top)
            with open(f"{top}/{path}", encoding="utf-8") as file:
                texts[path] = file.read()
    return texts


def batches(edits, texts):
    """The edits in batches of one a function, and those that can't be applied."""
    left, made, bad = list(edits), [], []
    while left:
        batch, used, after, later = [], set(), texts, []
        for edit in left:
            alone = edit.apply(texts)
            if alone is None:
                bad.append(edit)
                continue
            functions = edit.functions(texts)
            is_whole = any(name is None for _, name, _ in functions)
            fits = edit.apply(after)
            if fits is None or functions & used or is_whole and batch:
                later.append(edit)
                continue
            batch.append(edit)
            used |= functions
            after = fits
            if is_whole:
                later += left[left.index(edit) + 1 :]
                break
        if batch:
            made.append(batch)
        left = [it for it in later if it not in bad]
    return made, bad


def copy_repository(room):
    """The sources, and a .git, since rt takes the nearest folder that has one for the top of a repository."""
    for name in ("crates.txt", "HANDLES"):
        shutil.copy(f"{TOP}/{name}", room)
    for crate in sorted(os.listdir(f"{TOP}/crates")):
        for part in PARTS:
            if os.path.isdir(f"{TOP}/crates/{crate}/{part}"):
                shutil.copytree(f"{TOP}/crates/{crate}/{part}", f"{room}/crates/{crate}/{part}")
    os.mkdir(f"{room}/.git")


def below(crate):
    """The crates of the repository that a crate stands on, and those that they stand on."""
    with open(f"{TOP}/crates.txt", encoding="utf-8") as file:
        lines = dict(line.split(":", 1) for line in file if ":" in line and not line.startswith("#"))
    found, left = set(), [crate]
    while left:
        new = {it for it in lines[left.pop()].split() if it in lines} - found
        found |= new
        left += new
    return found


def copy_kept(room, crate):
    """What checks kept of a crate, and the libraries below it."""
    for kept in [f"{crate}/out", *(f"{it}/out/rlib" for it in below(crate))]:
        found, to = f"{TOP}/crates/{kept}", f"{room}/crates/{kept}"
        if os.path.isdir(found) and not os.path.isdir(to):
            shutil.copytree(found, to)


def write_sources(room, crate, texts):
    for path, text in texts.items():
        with open(f"{room}/crates/{crate}/{path}", "w", encoding="utf-8") as file:
            file.write(text)


def check(room, crate):
    """What a check says of a crate of the copy, which is formatted first."""
    subprocess.run(["rt", "fmt"], cwd=f"{room}/crates/{crate}", stdin=subprocess.DEVNULL, capture_output=True, check=False)
    ran = subprocess.run(
        ["rt", "check"],
        cwd=f"{room}/crates/{crate}",
        stdin=subprocess.DEVNULL,
        stdout=subprocess.PIPE,
        stderr=subprocess.STDOUT,
        encoding="utf-8",
        errors="replace",
    )
    return ran.stdout.split("\n")


def end_of(lines, begin):
    """The line with which the function ends that begins at a line."""
    indent = FUNCTION.match(lines[begin])[1]
    for at in range(begin + 1, len(lines)):
        if lines[at].startswith(indent + "}"):
            return at
    return len(lines)


def goals_told(line):
    """The goals that the line of a function names as left open by the search."""
    told = OPEN.match(line)
    opened = re.search(r"`search` did not prove (.*?)(?:; it calls|$)", told[2]) if told else None
    return re.findall(r"`([^`]+)`", opened[1]) if opened else []


def clause_goals(goals):
    """Those of the goals that are clauses of what a function ensures."""
    return sorted({it for it in goals if it.split("-")[0] == "returns"})


class Verdict:
    """What a check says of one function."""

    def __init__(self, said, path, file, span):
        self.is_told, self.is_proved, self.goals, self.proofs = False, False, [], []
        folder = "proofs/" + "/".join(path.split("::")[1:])
        for line in said:
            told, place = OPEN.match(line), PLACE.match(line)
            # (what a loop's body or a closure does is told of functions of its own)
            if told and (told[1] == path or told[1].startswith(path + "::")):
                self.is_told = True
                self.is_proved = told[2].startswith("proved")
                self.goals += goals_told(line)
            elif place and place[1] == file and span[0] < int(place[2]) <= span[1] + 1:
                self.goals += GOAL.findall(place[3])
            elif place and (place[1] + "/").startswith(folder + "/") and "error" in place[3]:
                self.proofs.append(f"{place[1]}:{place[2]}")

    def clauses(self):
        return clause_goals(self.goals)

    def others(self):
        return sorted(set(self.goals) - set(self.clauses()))


def tell(edit, holds, what):
    said = f"; it says: {edit.said[0]}" if edit.said else ""
    print(f"{'' if holds else 'FAILED '}{edit.crate}/{edit.name}: {what}{said}", flush=True)
    count(holds)


def judge(edit, said, texts, after):
    """Tells what came of an edit of a batch; answers whether it was compiled at all."""
    functions = sorted(it for it in edit.functions(texts) if it[1])
    clauses, proofs, others, open_paths = [], [], [], []
    if not functions:
        # (a constant, say: what its users no longer keep)
        clauses = clause_goals([goal for line in said for goal in goals_told(line)])
        open_paths = [OPEN.match(it)[1] for it in said if OPEN.match(it) and "no" in OPEN.match(it)[2].split()]
    for file, name, begin in functions:
        lines = after[file].split("\n")
        begin = place_of(lines, name, begin)
        path = path_of(edit.crate, file, after, name, begin)
        verdict = Verdict(said, path, file, (begin, end_of(lines, begin)))
        if verdict.is_told and not verdict.is_proved:
            open_paths.append(path)
        clauses += verdict.clauses()
        proofs += verdict.proofs
        others += verdict.others()
    if clauses:
        tell(edit, True, f"by a clause: {', '.join(clauses)}")
    elif proofs or others:
        tell(edit, bool(edit.said), f"by its proof: {', '.join([*proofs[:2], *others[:3]])}")
    elif open_paths:
        tell(edit, bool(edit.said), f"by its proof: {', '.join(open_paths)} is not proved")
    else:
        tell(edit, False, "still proved")


def is_compiled(said):
    return any(it.startswith("logic=") for it in said)


def try_batch(room, crate, batch, texts):
    after = texts
    for edit in batch:
        after = edit.apply(after)
    write_sources(room, crate, after)
    said = check(room, crate)
    after = sources(crate, room)
    write_sources(room, crate, texts)
    if is_compiled(said):
        for edit in batch:
            judge(edit, said, texts, after)
    elif len(batch) > 1:
        middle = len(batch) // 2
        try_batch(room, crate, batch[:middle], texts)
        try_batch(room, crate, batch[middle:], texts)
    else:
        first = next((it for it in said if "error" in it), said[-1])
        tell(batch[0], False, f"not tried: {first[:200]}")


def read_edits(crate, path, name=None):
    """The edits of a file: the one of a name, or those behind lines with their names."""
    found = [] if name is None else [Edit(crate, name)]
    with open(path, encoding="utf-8") as lines:
        for line in lines:
            if line.startswith("== "):
                found.append(Edit(crate, line[3:].strip()))
            else:
                found[-1].take(line.rstrip("\n"))
    return found


def edits_of(word, is_named):
    """The edits of a crate, or the one that a word `CRATE/NAME` names."""
    crate, _, name = word.partition("/")
    found, path = [], f"{TOP}/wrong/{crate}.edits"
    if os.path.exists(path):
        found += read_edits(crate, path)
    for it in sorted(glob.glob(f"{TOP}/crates/{crate}/must-fail/*.edit")) if is_named else []:
        found += read_edits(crate, it, os.path.basename(it)[: -len(".edit")])
    return [it for it in found if name in ("", it.name)]


def try_crate(room, crate, edits):
    texts = sources(crate)
    made, bad = batches(edits, texts)
    copy_kept(room, crate)
    for edit in bad:
        tell(edit, False, "not tried: an 'old:' text doesn't stand once in its file")
    for batch in made:
        begun = time.time()
        try_batch(room, crate, batch, texts)
        print(f"{crate}: {len(batch)} in {time.time() - begun:.0f} s", flush=True)


def main():
    words = sys.argv[1:]
    is_named = "--named" in words
    crates = [it for it in words if not it.startswith("-")] or [
        it for it in sorted(os.listdir(f"{TOP}/crates")) if edits_of(it, is_named)
    ]
    if any(it.startswith("-") and it != "--named" for it in words) or any(not edits_of(it, True) for it in crates):
        print(__doc__, file=sys.stderr)
        return 2
    with tempfile.TemporaryDirectory(prefix="wrong-bodies-") as room:
        copy_repository(room)
        for crate in crates:
            try_crate(room, crate.partition("/")[0], edits_of(crate, is_named or "/" in crate))
    return finish("wrong bodies")


if __name__ == "__main__":
    sys.exit(main())
