#!/usr/bin/env python3
"""Brings the repository's own definitions, lemmas and fields from camelCase and dashes to snake_case, in .antt and .rt files, must-fail edits and pages.

usage: tools/respell.py [--look]     at the top, once, after the kit's port.py; --look says what would fall together and writes nothing

A name that a file imports from outside the repository keeps its spelling, and so does what begins with a capital.
"""
import collections
import os
import re
import sys

# names that would fall together with another one, or with a name of the code, and what they are called instead
OTHER = {
    "bankCommits": "bank_commits_of",
    "bankCurve": "bank_curve_of",
    "meanDraft": "mean_of_drafts",
    "meanCommitted": "mean_of_committed",
    "inOrder": "rows_in_order",
    "table-of": "table_leaves",
    "all-loaded": "all_loaded_lem",
    "cost-rooms": "cost_rooms_lem",
    "loaded-valued": "loaded_valued_lem",
    "curve-valued": "curve_valued_lem",
    "columns-fit": "columns_fit_lem",
    "in-range": "in_range_lem",
    "best-priced": "best_priced_lem",
    "is-time": "is_time_lem",
    "block-widths": "block_widths_lem",
    "ragged-widths": "ragged_widths_lem",
    "is-nan": "is_nan_lem",
    "with-experts": "with_experts_lem",
    "some-planned": "some_planned_lem",
    "bank-of": "bank_of_lem",
    "series-handed": "series_handed_lem",
    "bank-handed": "bank_handed_lem",
    "table-handed": "table_handed_lem",
    "decided-done": "decided_done_lem",
    "record-back": "record_back_lem",
    "worker-back": "worker_back_lem",
    "that-worker": "that_worker_lem",
    "put-head": "put_head_lem",
    "second-place": "second_place_lem",
    "mean-of": "mean_of_lem",
    "worker-place": "worker_place_lem",
    "row-at": "row_at_lem",
    "and-used": "and_used_lem",
    "host-counts": "host_counts_lem",
    "bank-values": "bank_values_lem",
    "drawn-by": "drawn_by_lem",
    "costs-valued": "costs_valued_lem",
    "prices-valued": "prices_valued_lem",
    "policy-valued": "policy_valued_lem",
    "price-rooms": "price_rooms_lem",
    "signal-rooms": "signal_rooms_lem",
    "bank-rooms": "bank_rooms_lem",
    "record-in": "record_in_lem",
    "change-judged": "change_judged_lem",
    "lines-from": "lines_from_lem",
    "fields-from": "fields_from_lem",
    "in-force": "in_force_lem",
    "time-refusal": "time_refusal_lem",
}
# the same of names that were in snake case already, by file
THERE = {
    "crates/ledger_laws/proofs/Shown.antt": {"second_at": "second_at_lem"},
    "crates/ledger_laws/proofs/Forth.antt": {"plain_done": "plain_done_lem"},
    "crates/ledger_acts/proofs/Ways.antt": {"plain_done": "plain_done_lem"},
    "crates/ledger_acts/proofs/inner/act_plain/Proof.antt": {"plain_done": "plain_done_lem"},
    "crates/ledger_changes/proofs/Ways.antt": {"step_back": "step_back_lem"},
}
TOKEN = re.compile(r"(?<![\w'′₀-₉\-])[a-z][\w'₀-₉]*(?:-[\w'₀-₉]+)*", re.U)
USE = re.compile(r"^(?:pub )?(?:ghost )?(?:pub )?use ([^\s{]+?)\.\{([^}]*)\}", re.M)
WORDS = {"getD": "get_or"}


def snake(name):
    if name in OTHER:
        return OTHER[name]
    for old, new in WORDS.items():
        name = re.sub(rf"(?<![a-z]){old}(?![a-z])", new, name)
    name = re.sub(r"(?<=[a-z0-9'₀-₉])([A-Z])", lambda m: "_" + m.group(1).lower(), name)
    return name.replace("-", "_").lower() if name[0].islower() else name


def is_turned(name):
    return bool(re.search(r"[A-Z]|-", name)) and name[0].islower()


def own_crates():
    return {c for c in os.listdir("crates") if os.path.isdir(f"crates/{c}/src")}


def files(ending):
    for folder, dirs, names in os.walk("crates"):
        dirs[:] = sorted(d for d in dirs if d not in ("out", "data"))
        for name in sorted(names):
            if name.endswith(ending):
                yield os.path.join(folder, name)


def read(path):
    with open(path, encoding="utf-8") as f:
        return f.read()


def outside(text, own):
    """The names that a file brings in from outside the repository."""
    found = set()
    for where, names in USE.findall(text):
        m = re.match(r"Rattle\.(\w+)\.", where)
        if not (m and m.group(1) in own):
            for it in names.split(","):
                found.update(it.split())
    return found


def plain(text):
    return re.sub(r"--.*", "", text)


def names_of(own):
    """Every name of the proofs and specs that is turned: of whole files, so that local names are turned with the others."""
    found = set()
    for path in files(".antt"):
        text = read(path)
        out = outside(text, own)
        found.update(t for t in TOKEN.findall(plain(text)) if is_turned(t) and t not in out)
    return found


def turned(text, keep, names, there=None, walk=False):
    def one(m):
        name = m.group()
        if there and name in there:
            return there[name]
        # a step or a field in a proof that walks the code: what the kit made has its own spelling
        made = walk and m.start() and text[m.start() - 1] == "." and "-" in name
        return snake(name) if name in names and name not in keep and not made else name

    return TOKEN.sub(one, text)


def together(path, text, keep, names):
    """What would fall together in a file."""
    by = collections.defaultdict(set)
    for t in TOKEN.findall(plain(text)):
        by[snake(t) if t in names and t not in keep else t].add(t)
    return [f"{path}: {' '.join(sorted(v))} -> {k}" for k, v in by.items() if len(v) > 1]


def code_strings(text):
    """The parts of a .rt file: (is a string, text)."""
    at = 0
    for m in re.finditer(r'b?"(?:[^"\\]|\\.)*"|b?\'(?:[^\'\\]|\\.)\'|//[^\n]*', text):
        yield False, text[at : m.start()]
        yield not m.group().startswith("//"), m.group()
        at = m.end()
    yield False, text[at:]


def in_code(text, keep, names):
    return "".join(part if is_string else turned(part, keep, names) for is_string, part in code_strings(text))


def main(look):
    own = own_crates()
    names = names_of(own)
    said = []
    made = {}
    for path in files(".antt"):
        text = read(path)
        keep = outside(text, own)
        said += together(path, text, keep, names)
        made[path] = turned(text, keep, names, THERE.get(path), path.endswith("/Proof.antt"))
    for path in list(files(".rt")) + list(files(".edit")):
        text = read(path)
        keep = outside(text, own)
        body = "".join(" " if s else re.sub(r"//.*", "", p) for s, p in code_strings(text))
        said += together(path, body, keep, names)
        made[path] = in_code(text, keep, names)
    for folder, _, fs in os.walk("docs"):
        for name in fs:
            if name.endswith(".md"):
                path = os.path.join(folder, name)
                made[path] = re.sub(r"`[^`\n]*`", lambda m: turned(m.group(), set(), names), read(path))
    print("\n".join(said))
    print(f"{len(names)} names, {len(said)} places that fall together")
    if not look:
        for path, text in made.items():
            if text != read(path):
                with open(path, "w", encoding="utf-8") as f:
                    f.write(text)


if __name__ == "__main__":
    main("--look" in sys.argv[1:])
