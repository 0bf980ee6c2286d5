#!/usr/bin/env python3
"""Writes docs/HEADLINE.md: the definitions that the clauses of run_plain and run_mine reach, each with the sentence above it.

    python3 docs/headline.py            writes the page
    python3 docs/headline.py --private  lists the files of specs/ that those clauses do not reach

A definition is reached where its name stands in the text of one that is reached. Imports say which file a name is from.
"""
import glob
import os
import re
import sys

ROOT = os.path.dirname(os.path.dirname(os.path.abspath(__file__)))
RUN = "crates/loda_mine/src/run.rt"
STATEMENT = "Rattle.loda_mine.specs.Run"
WORDS = "Rattle.command_words.specs.Words"

# The order of reading: what a part tells, and its files.
PARTS = [
    ("What is said", ["loda_mine/Run", "loda_mine/Answer", "mine_workers/Histories"]),
    ("The desk, its journal, and the report", ["publish_desk/Desk", "publish_desk/History", "evidence/Findings", "publish_desk/Report"]),
    ("Judging", ["judge/Judged", "judge/Passed", "judge/Sound", "judge/Kept", "seq_calls/Demand", "program_store/Graph"]),
    ("Stores", ["program_store/Store"]),
    ("Runs of programs", ["seq_calls/Values", "seq_calls/Frames", "loda_semantics/Exec", "loda_semantics/Memory", "loda_semantics/Faults", "loda_syntax/Programs", "loda_syntax/Trees"]),
    ("Numbers and operations", ["checked_numbers/Ops", "checked_numbers/Numbers"]),
    ("The terms file", ["oeis_terms/Stripped", "oeis_terms/Line", "oeis_terms/Items", "oeis_terms/Numbers", "oeis_terms/Cut", "oeis_terms/Table"]),
    ("The store file and the candidates file", ["program_store/Files", "program_store/Headers", "program_store/Sections", "program_store/StoreText"]),
    ("Program text", ["loda_syntax/Reading", "loda_syntax/Grammar", "loda_syntax/Lines", "loda_syntax/Words", "loda_syntax/Canon"]),
    ("Parts of lines", ["text_parts/Blanks", "text_parts/Digits", "text_parts/Names", "text_parts/Results"]),
    ("What a seeded job proposes", ["proposer/Proposed", "proposer/Short", "word_stream/Jobs", "word_stream/Words", "generator/Generating", "generator/Arithmetic", "mutator/Mutating", "term_index/Matching", "term_index/Lines", "matchers/Composing", "compositions/Composed", "compositions/Cells", "minimiser/Minimum", "minimiser/Cuts"]),
    ("The words of the command line", ["command_words/Words"]),
    ("Files and outputs", ["loda_io/Shelf", "loda_io/Sink"]),
    ("The other outputs", ["loda_mine/Outputs", "made_input/Texts", "made_input/Values", "made_input/Programs"]),
]

HEAD = """# What has to be read to believe the headline

The headline is the clause `headline` of `run_plain` and of `run_mine` (crates/loda_mine/src/run.rt). The prover shows that the code meets it;
that it says what it should is for a reader to see, and these are all the definitions that it reaches, in the order in which they are
best read. Each has the sentence that stands above it in its file. Besides them one has to know the words of the toolchain's library (lists,
finite maps, integers). Every other file of specs/ serves clauses inside a crate, and no doubt about it is a doubt about the headline.

This page is written by docs/headline.py. Run it after a definition has changed.

| Part of the sentence | Where it stands |
|---|---|
| what the files say is read and parsed whole, first | `opens` of `Headline` and `MineHeadline`; `contents_of` of loda_mine, `stripped` of oeis_terms, `store_read` and `candidates_read` of program_store |
| the added bytes are the report of a journal and a store | `added` of both; `report` of publish_desk |
| whenever the lock is free: the value behind it is a desk, whose type keeps the rows below, for the opening store, terms, limit, seed and jobs that it was made with | `Held` and `IsSeatOf` of mine_workers; `charter` and `kept` of `SharedStore::close` |
| `mine`: every job from 0 to `jobs` - 1 once, by any number of workers | `whole` of `IsMined`, and `legal` of `IsKept`, by which jobs differ |
| `publish`, and `mine` with one worker: the jobs in order, each with the version at its place as its base | `in_order` and `whole` of `IsDecided`, `in_order` of `IsMined` |
| the journal replays from the opening store to the printed one | `store` and `version` of `IsKept` of publish_desk |
| each job is answered as one thread would, in the store at its own place, on what the candidates file, or the seed for the store at its base, proposes | `legal` of `IsKept`; `finding` of `gather`; `proposed` of `JobSource::dossier` |
| each published program, run afresh, gives its checked terms; no cycle of calls | `sound` of `IsKept` |
| no replacement checked fewer terms, took a value from an argument that others rely on, or made one dearer | `no_loss` of `IsKept`; the law behind `kept` of `judge` |
| so the output is one function of the words and the files, for `publish` and for `mine` with one worker | `one` of `run_plain` and of `run_mine`; `one_journal` of publish_desk |

Others rely on an argument of a program where it was checked there, or where the run of a published program at a checked argument calls it
there, at any depth; the calls of iterations that are undone count too.
"""

DEFINES = re.compile(r"^(?:(?:abbrev|unfoldable|pub|opaque|record|data) )+(\S+)|^([^\s:]+)\s*:(?!:)")
IMPORTS = re.compile(r"^\s*(?:pub |ghost )?use (\S+?)\.\{(.*)\};?$")
ALIAS = re.compile(r"^(?:pub )?use (\S+) as (\S+)$")


def imports_of(line, into):
    found = IMPORTS.match(line)
    if found:
        for item in found.group(2).split(", "):
            name, _, other = item.partition(" as ")
            into[(other or name).strip()] = (found.group(1), name.strip())
    return found


class File:
    """A file of specs/: the text and the sentence of each definition, and where other names are from."""

    def __init__(self, path):
        self.path, self.texts, self.sentences, self.names, self.aliases = path, {}, {}, {}, {}
        said, now, within = [], None, ""
        for line in open(path, encoding="utf-8").read().split("\n"):
            alias = ALIAS.match(line)
            if alias:
                self.aliases[alias.group(2)] = alias.group(1)
            if alias or imports_of(line, self.names):
                continue
            if line.startswith("module "):
                within, said, now = line, [], None
                continue
            if within and line.startswith("  "):
                line = line[2:]
            if line.startswith("--"):
                said, now = said + [line[2:].strip()], None
            elif not line.strip():
                said, now = [], None
            elif line.startswith(("infix", "unfolding ")):
                pass
            else:
                new = DEFINES.match(line) if line[0] != " " else None
                name = new and (new.group(1) or new.group(2))
                if name and name not in self.texts:
                    now = name
                    self.sentences[now] = " ".join(it for it in said if not it.startswith("--"))
                    self.texts[now] = within
                    said = []
                if now:
                    self.texts[now] += "\n" + line

    def reached_from(self, name):
        """The names that stand in a definition, with the modules that they are from."""
        text = "\n".join(line.split(" -- ")[0] for line in self.texts[name].split("\n"))
        signs = {part: it for it in [*self.texts, *self.names] if "◌" in it for part in it.split("◌") if part}
        for word in sorted(set(re.findall(r"[^\s(){}\[\],;:]+", text))):
            for it in {word, word.split(".")[0], ".".join(word.split(".")[:2]), signs.get(word, "")}:
                if it in self.names:
                    yield self.names[it]
                elif it in self.texts:
                    yield (None, it)
                elif it.split(".")[0] in self.aliases and "." in it:
                    yield (self.aliases[it.split(".")[0]], it.split(".", 1)[1])


def load():
    files = {}
    for path in sorted(glob.glob(f"{ROOT}/crates/*/specs/**/*.antt", recursive=True)):
        crate, inside = re.match(r".*/crates/([^/]+)/specs/(.*)\.antt$", path).groups()
        if inside != "Lib":
            files[f"Rattle.{crate}.specs." + inside.replace("/", ".")] = File(path)
    return files


def closure(files, roots):
    reached, todo = set(), list(roots)
    while todo:
        module, name = todo.pop()
        if module not in files or (module, name) in reached:
            continue
        if name not in files[module].texts:
            todo += [files[module].names[name]] if name in files[module].names else []
            continue
        reached.add((module, name))
        todo += [(other or module, it) for other, it in files[module].reached_from(name)]
    return reached


def roots(headline_alone):
    names, found, clause, within = {}, [], "", False
    for line in open(f"{ROOT}/{RUN}", encoding="utf-8"):
        imports_of(line.rstrip(), names)
        if line.startswith(("pub fn ", "fn ", "{")):
            within = line.startswith(("pub fn run_plain", "pub fn run_mine"))
        clause = line.split()[1] if line.strip().startswith("ensures ") else clause
        if within and ("ensures" in line or line.strip().startswith("→")) and (clause == "headline" or not headline_alone):
            found += [names[it] for it in re.findall(r"[\w]+", line) if it in names]
    return found


def listed(files, module, names):
    lines = []
    for name in files[module].texts:
        if name in names:
            sentence = files[module].sentences[name].rstrip(".")
            # A definition without a sentence is short enough to be read here.
            lines.append(f"- `{name}`: {sentence}." if sentence else f"- `{files[module].texts[name].split(chr(10))[-1]}`")
    return lines


def sections(files, reached, level):
    by_module = {}
    for module, name in reached:
        by_module.setdefault(module, set()).add(name)
    parts = [(title, [f"Rattle.{it.replace('/', '.specs.')}" for it in inside]) for title, inside in PARTS]
    known = {it for _, inside in parts for it in inside}
    parts.append(("Others", sorted(set(by_module) - known)))
    lines = []
    for title, modules in parts:
        if any(it in by_module for it in modules):
            lines += ["", f"{level} {title}"]
        for module in modules:
            if module in by_module:
                lines += ["", os.path.relpath(files[module].path, ROOT), "", *listed(files, module, by_module[module])]
    return lines


def main():
    files = load()
    headline, whole = closure(files, roots(True)), closure(files, roots(False))
    if sys.argv[1:] == ["--private"]:
        used = {module for module, _ in whole}
        print("\n".join(os.path.relpath(files[it].path, ROOT) for it in files if it not in used))
        return
    lines = [HEAD.rstrip(), "", f"## The {len(headline)} definitions of the headline"]
    lines += sections(files, headline, "###")
    lines += ["", f"## The {len(whole - headline)} further definitions of the other clauses"]
    lines += ["", "They say how a run ends otherwise, and what `check`, `eval` and `made` write."]
    lines += sections(files, whole - headline, "###")
    with open(f"{ROOT}/docs/HEADLINE.md", "w", encoding="utf-8") as page:
        page.write("\n".join(lines) + "\n")


main()
