"""What tests/wrong/CRATE.txt says, and where the public functions stand in the sources."""
import os
import re

HERE = os.path.dirname(os.path.abspath(__file__))
ROOT = os.path.dirname(os.path.dirname(HERE))
CRATES = ["ebpf", "layers", "tree", "filter", "refusals", "savefile", "checks", "meaning", "nots", "patches", "pieces", "codegen", "generator", "gateway", "capture", "bromaveluth", "bromaveluth_c", "report"]


class Function:
    """A public function: its name, its file, its text from `fn` to the closing brace, and what a `From` says of its result."""

    def __init__(self, name, path, start, end, text, gives):
        self.name, self.path, self.start, self.end, self.text, self.gives = name, path, start, end, text, gives


def homes(folder):
    """The module of each type of a crate: a method stands under its type, wherever its impl does."""
    found = {}
    for file in sorted(os.listdir(folder)):
        module = "" if file == "lib.rt" else file[: -len(".rt")]
        with open(os.path.join(folder, file), encoding="utf-8") as source:
            found |= {name: module for name in re.findall(r"^(?:pub(?:\([a-z ]+\))? )?(?:struct|enum) (\w+)", source.read(), re.M)}
    return found


def functions_in(path, module, types):
    source = open(path, encoding="utf-8").read()
    owner, gives, at = "", "", 0
    for line in source.splitlines(keepends=True):
        m = re.match(r"impl(?:<[^>]*>)? (?:From<.*?> for )?(\w+)", line)
        owner, gives = (m.group(1), "") if m else ("", "") if line.startswith("}") else (owner, gives)
        m = re.match(r" *ghost from_gives = \{ (.*) \};", line)
        gives = m.group(1) if m and (owner not in types or re.search(rf"^pub (?:struct|enum) {owner}\b", source, re.M)) else gives
        m = re.match(r'( *)pub (?:extern "C" )?fn (\w+)', line) or (gives and re.match(r"( *)fn (from)\b", line))
        if m:
            end = source.index("\n" + m.group(1) + "}\n", at) + len(m.group(1)) + 2
            name = "::".join(x for x in (types.get(owner, module), owner, m.group(2)) if x)
            yield Function(name, path, at, end, source[at:end], gives)
        at += len(line)


def public(crate, root=ROOT):
    """The public functions of a crate, in the order of their files."""
    folder = os.path.join(root, "crates", crate, "src")
    found, types = [], homes(folder)
    for file in sorted(os.listdir(folder)):
        module = "" if file == "lib.rt" else file[: -len(".rt")]
        found += functions_in(os.path.join(folder, file), module, types)
    return found


def answers(crate):
    """The entries of CRATE.txt by function: promise, theorem if its name is another, must-fail edits, wrong answers."""
    found, entry = {}, None
    for line in open(os.path.join(HERE, crate + ".txt"), encoding="utf-8"):
        line = line.rstrip("\n")
        word, _, rest = line.partition(" ")
        if word == "fn":
            entry = found[rest] = {"promise": "", "theorem": "", "edits": [], "wrong": []}
        elif word in ("promise:", "theorem:"):
            entry[word[:-1]] = rest
        elif word == "edit:":
            entry["edits"] = rest.split(", ")
        elif word == "says:":
            entry["wrong"].append({"says": rest})
        elif word in ("old:", "new:", "fact:"):
            entry["wrong"][-1][word[:-1]] = rest
        elif line and word not in ("#", "laws:"):
            raise SystemExit(f"{crate}.txt: what is this? {line}")
    return found


def is_about(goal, fact):
    """Whether a goal that was refused, by its name, is the one or of the kind that `fact:` says."""
    kinds = {"loop-holds": r".+-init", "loop-again": r".+-preserved"}
    return bool(re.fullmatch(kinds.get(fact, re.escape(fact) + "(-.*)?"), goal))


def law_edits(crate):
    """The must-fail edits that are about laws of the crate's definitions and about no function."""
    with open(os.path.join(HERE, crate + ".txt"), encoding="utf-8") as file:
        return {e for line in file if line.startswith("laws: ") for e in line.split()[1:]}


def faults(crate):
    """What is amiss in CRATE.txt: each public function has two edits, whose old text stands in it once; each must-fail edit is named."""
    entries, named = answers(crate), {f.name: f for f in public(crate)}
    told = [f"{n} has no entry" for n in named if n not in entries]
    told += [f"{n} is no public function" for n in entries if n not in named]
    for name, entry in entries.items():
        if len(entry["wrong"]) != 2:
            told.append(f"{name} has {len(entry['wrong'])} wrong answers")
        for w in entry["wrong"]:
            if name in named and named[name].text.count(w["old"]) != 1:
                told.append(f"{name}: `{w['old']}` stands there {named[name].text.count(w['old'])} times")
            if w["old"] == w["new"]:
                told.append(f"{name}: `{w['old']}` is not changed")
    folder = os.path.join(ROOT, "crates", crate, "must-fail")
    edits = {e[: -len(".edit")] for e in os.listdir(folder)} if os.path.isdir(folder) else set()
    named_edits = {e for entry in entries.values() for e in entry["edits"]} | law_edits(crate)
    told += [f"must-fail/{e}.edit is named under no function" for e in edits - named_edits]
    told += [f"there is no must-fail/{e}.edit" for e in named_edits - edits]
    return [f"{crate}: {t}" for t in told]
