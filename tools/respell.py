#!/usr/bin/env python3
"""Brings the repository's own definitions and lemmas to snake case, after port.py: isImage becomes is_image.

usage: tools/respell.py      at the top of a checkout in which port.py has run; a second run changes nothing

Functions of src/, types, modules, exported names, strings and outputs keep their names. An operator of words keeps its dash.
Where a lemma or a law's field would then have a name that is taken, it gets _lem or _law behind its name (LEMMAS, TAKEN).
"""

import os
import re
import sys

# Lemmas whose names port.py brought to what a definition is called below, with the file that declares each.
LEMMAS = {
    "as_many": ["master_reading/proofs/Turns", "master_runs/proofs/Runs"],
    "head_at": ["master_plan/proofs/At"],
    "in_order": ["base_types/proofs/Tests"],
    "is_digit": ["program_text/proofs/numeral/digits/Proof"],
    "is_free": ["master_plan_laws/proofs/Starts"],
    "part_in": ["master_page_laws/proofs/Plays", "master_page_laws/proofs/Ranges"],
    "send_at": ["master_plan/proofs/At"],
    "target_at": ["plug_chip_packing/proofs/Chip"],
    "write_byte": ["chip_session_laws/proofs/Sessions"],
}
# Names with dashes whose words are taken without them.
TAKEN = {
    "after-redirection": "after_redirection_law",
    "answer-judged": "answer_judged_lem",
    "bit-at": "bit_at_lem",
    "bits-at": "bits_at_lem",
    "byte-at": "byte_at_lem",
    "byte-in": "byte_in_lem",
    "bytes-at": "bytes_at_lem",
    "chip-judged": "chip_judged_lem",
    "crc-at": "crc_at_lem",
    "crc-bits": "crc_bits_law",
    "crc-ones": "crc_ones_lem",
    "crc-slots": "crc_slots_lem",
    "data-bits": "data_bits_law",
    "data-crc": "data_crc_lem",
    "extended-pages": "extended_pages_lem",
    "handed-on": "handed_on_lem",
    "image-size": "image_size_lem",
    "in-range": "in_range_lem",
    "is-image": "is_image_lem",
    "is-page": "is_page_lem",
    "number-bits": "number_bits_law",
    "number-judged": "number_judged_lem",
    "on-page": "on_page_lem",
    "page-buffer": "page_buffer_law",
    "page-held": "page_held_lem",
    "page-judged": "page_judged_lem",
    "page-number": "page_number_law",
    "part-own": "part_own_lem",
    "power-loss": "power_loss_law",
    "power-up": "power_up_law",
    "publisher-judged": "publisher_judged_lem",
    "ran-chip": "ran_chip_lem",
    "read-bytes": "read_bytes_lem",
    "read-crc": "read_crc_lem",
    "read-from": "read_from_lem",
    "reads-crc": "reads_crc_lem",
    "row-page": "row_page_lem",
    "status-pages": "status_pages_lem",
    "value-of": "value_of_lem",
    "whole-image": "whole_image_lem",
    "write-at": "write_at_lem",
}
PAGES = ["CONTRIBUTING.md", "README.md", "docs/DECISIONS.md", "docs/PROMISES.md", "docs/RANGES.md", "docs/THEOREMS.md", "docs/WRONG-PROGRAMS.md", "docs/C-INTERFACE.md"]
TOKEN = re.compile(r"[\w'][\w'-]*")
CAMEL = re.compile(r"^[a-z][\w']*[A-Z]")


def snake(word):
    """The word in snake case; each part between dashes on its own, and a part with a capital first stays."""
    if "-" in word:
        return "-".join(snake(part) for part in word.split("-"))
    if not CAMEL.match(word):
        return word
    return re.sub(r"([a-z0-9'])([A-Z])", r"\1_\2", word).lower()


SIGNATURE = re.compile(r"^\s*(?:(?:pattern|unfoldable|abbrev|pub)\s+)*([a-z0-9'][^\s(){}\[\],;.:=\"`◌]*)(?:\s*\{[^}]*\})?\s*:\s(.*)$")
IMPORT = re.compile(r"(?m)^\s*(?:pub )?use ([^\s;{]+?)\.\{([^}]*)\}")
# The names that Rattle makes for what a proof file answers.
MADE = re.compile(r"(goal|tie)\.|.*\bstatement M")


def dashed(top):
    """The names with dashes that the repository's own specs/ and proofs/ declare, each with its name in snake case."""
    names = set()
    for path in files(top):
        if path.endswith(".antt"):
            with open(path, encoding="utf-8") as f:
                for line in f:
                    m = SIGNATURE.match(re.sub(r"--.*", "", line))
                    if m and "-" in m[1] and not MADE.match(m[2]):
                        names.add(m[1])
    return {name: TAKEN.get(name, name.replace("-", "_")) for name in names}


def from_outside(top, text):
    """The names that a file imports from outside the repository."""
    own = os.listdir(os.path.join(top, "crates"))
    found = set()
    for module, names in IMPORT.findall(text):
        parts = module.split(".")
        if parts[0] != "Rattle" or parts[1] not in own:
            found |= {name.strip() for name in names.split(",")}
    return found


def without_dashes(top, path, text, names):
    """The text with these names in snake case: in code, and in comments and pages where they stand between backticks."""
    keep = from_outside(top, text) if path.endswith(".antt") else set()
    one = lambda m: m[0] if m[0] in keep else names.get(m[0], m[0])
    quoted = lambda t: re.sub(r"`[^`\n]*`", lambda m: TOKEN.sub(one, m[0]), t)
    if path.endswith(".md"):
        return quoted(text)
    lines = []
    for line in text.split("\n"):
        if path.endswith(".rt") and not re.match(r"\s*(ghost|requires|ensures|#!?\[tactic)", line):
            lines.append(line)
            continue
        code, mark, comment = line.partition("--") if path.endswith(".antt") else (line, "", "")
        lines.append(TOKEN.sub(one, code) + mark + quoted(comment))
    return "\n".join(lines)


def files(top):
    for folder, folders, names in os.walk(os.path.join(top, "crates")):
        folders[:] = sorted(x for x in folders if x != "out")
        for name in sorted(names):
            if name.endswith((".rt", ".antt", ".edit")):
                yield os.path.join(folder, name)


def lemma_here(text, path, lemma, homes):
    """Whether this file declares the lemma or imports it from a file that does."""
    for home in homes:
        crate, _, inner = home.partition("/")
        if path.endswith("/" + home + ".antt"):
            return True
        module = "Rattle." + crate + "." + inner.replace("/", ".")
        if re.search(rf"(?m)^use {re.escape(module)}\.\{{[^}}]*\b{lemma}\b(?!-)", text):
            return True
    return False


def respelled(path, text):
    if path.endswith(".antt"):
        for lemma, homes in LEMMAS.items():
            if lemma + "_lem" not in text and lemma_here(text, path, lemma, homes):
                text = re.sub(rf"(?<![\w.'-]){lemma}(?![\w.'-])", lemma + "_lem", text)
    return TOKEN.sub(lambda m: snake(m.group()), text)


def main():
    top = os.getcwd()
    if not os.path.isdir(os.path.join(top, "crates")):
        print("respell: run it at the top of the checkout", file=sys.stderr)
        return 2
    changed = 0
    names = dashed(top)
    for path in [*files(top), *(os.path.join(top, page) for page in PAGES if os.path.exists(os.path.join(top, page)))]:
        with open(path, encoding="utf-8") as f:
            text = f.read()
        new = respelled(path, without_dashes(top, path, text, names))
        if new != text:
            with open(path, "w", encoding="utf-8") as f:
                f.write(new)
            changed += 1
    print(f"respell: {changed} files")
    return 0


if __name__ == "__main__":
    raise SystemExit(main())
