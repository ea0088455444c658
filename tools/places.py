#!/usr/bin/env python3
"""Lists the places in crates/*/src that docs/DESIGN-PASS.md counts, by point: file, line, text.

    tools/places.py [POINT] [--count] [--at COMMIT]

POINT is 1 to 7; without it all are listed. --count gives the numbers alone, and those of each crate. --at looks at a commit in place of the working tree.
"""
import argparse
import re
import subprocess
import sys
from collections import Counter
from pathlib import Path

TOP = Path(__file__).resolve().parent.parent

# Point: what is looked for in one line of code (comments and clauses are left out).
LINES = {
    "1": [
        # a variant that is a refusal or nothing at all, in an enum of the repository's own
        r"^\s+(Refused|Stop)\((Refusal|PublisherStop)\),$",
        r"^\s+(Nothing|Faulty),$",
        # a flag with a value beside it
        r"^\s+(pub )?judged: ",
        # a number for a refusal, in the functions that the C interface calls
        r"return (1|3|10);",
    ],
    "3": [r"^\s*while .*[<>]", r"^\s*for \w+ in 0\.\.\w+(\.\w+)*\.len\(\)"],
    "4": [
        # the number inside a type of its own compared, in place of the value
        r"(?<![=!<>])\b\w+(\([^()]*\))?\.0 (==|!=|<|<=|>|>=) \w+(\.\w+)*\.0\b",
        # conversions and printing by hand
        r"^\s*(pub )?fn (byte|agree|line|both|code_of|event_of|refusal_for|refusal_of|number_of_\w+|command_of|step_of|mode_of|low|high|low_byte|join|word_of|address_low|address_high|print_number|print_tenths|print_words|print_outside|print_refusal|print_line)\(",
        r"^fn address\(low: u8",
    ],
    "5": [],
    "6": [r"\btext: &mut \[u8\], at: usize", r"\bbuffer: &mut \[u8\], at: usize", r"-> usize$"],
    "7": [r"\btally: Tally", r"\bfn\(\w", r"\bdyn "],
}

# Point: what is looked for in the head of a function, from `fn` to its body.
HEADS = {
    "5": [
        r"image: &(mut )?\[u8\],\s*last: Page|last: Page,[^)]*image: &(mut )?\[u8\]",
        r"requires \{ length b\.now ≡ (24|48) \}",
        r"requires \{ at \+ [^}]*≤ length",
        r"requires \{ length events\.old ≡ length replies\.now \}",
    ],
}


def files(commit):
    if commit is None:
        for path in sorted(TOP.glob("crates/*/src/**/*.rt")):
            yield str(path.relative_to(TOP)), path.read_text()
        return
    names = subprocess.run(["git", "-C", TOP, "ls-tree", "-r", "--name-only", commit], check=True, capture_output=True, text=True).stdout
    for name in names.splitlines():
        if re.fullmatch(r"crates/[^/]+/src/.*\.rt", name):
            yield name, subprocess.run(["git", "-C", TOP, "show", f"{commit}:{name}"], check=True, capture_output=True, text=True).stdout


def heads(text):
    """Each function's head, with the line on which it begins."""
    for match in re.finditer(r"^ *(?:pub )?(?:extern \"C\" )?fn .*?^ *\{$|^ *(?:pub )?(?:extern \"C\" )?fn [^\n]*\{$", text, re.M | re.S):
        yield text.count("\n", 0, match.start()) + 1, match.group(0)


def bodies(text):
    """Each function's name, line and body, with names of its own and numbers taken out, so that twins look the same."""
    for match in re.finditer(r"^( *)(?:pub )?fn (\w+)(.*?)\n\1\{\n(.*?)\n\1\}$", text, re.M | re.S):
        body = re.sub(r"//.*", "", match.group(4))
        body = re.sub(r"\b(0x)?[0-9][0-9A-Fa-f_]*\b", "0", body)
        body = re.sub(r"\b[a-z_]+(?=\()", "f", body)
        body = re.sub(r"\b[A-Za-z_]\w*(::\w+)*\b", lambda m: m.group(0) if m.group(0) in KEPT else "x", body)
        body = re.sub(r"\s+", " ", body).strip()
        kinds = re.sub(r"\b\w+:", ":", re.sub(r"\s+", " ", match.group(3).split("ensures")[0].split("requires")[0]))
        kinds = re.sub(r"\b[A-Z]\w*(<[^>]*>)?|\bu(8|16|32|64)\b|\[u8; \d+\]", "T", kinds)
        yield match.group(2), text.count("\n", 0, match.start()) + 1, kinds + " " + body


KEPT = {"if", "else", "match", "return", "let", "mut", "while", "for", "in", "true", "false"}


def twins(all_files):
    """Functions of the same shape, of more than one step: pairs are for a reader to judge."""
    groups = {}
    for name, text in all_files:
        for function, line, shape in bodies(text):
            if len(shape) > 90:
                groups.setdefault(shape, []).append(f"{name}:{line}: {function}")
    return [group for group in groups.values() if len(group) > 1]


def places(point, all_files):
    found = []
    if point == "2":
        return [" | ".join(group) for group in twins(all_files)]
    for name, text in all_files:
        for number, line in enumerate(text.splitlines(), 1):
            code = line.split("//")[0].rstrip()
            if re.search(r"^\s*(ensures|requires|ghost) ", code):
                continue
            if any(re.search(pattern, code) for pattern in LINES.get(point, [])):
                found.append(f"{name}:{number}: {code.strip()}")
        for number, head in heads(text):
            for pattern in HEADS.get(point, []):
                if re.search(pattern, head):
                    found.append(f"{name}:{number}: {head.splitlines()[0].strip()}")
    return found


def main():
    parser = argparse.ArgumentParser(description=__doc__, formatter_class=argparse.RawDescriptionHelpFormatter)
    parser.add_argument("point", nargs="?", choices=[*"1234567"])
    parser.add_argument("--count", action="store_true")
    parser.add_argument("--at", metavar="COMMIT")
    options = parser.parse_args()
    try:
        all_files = list(files(options.at))
    except subprocess.CalledProcessError as error:
        sys.exit(f"places: {error.stderr.strip()}")
    for point in [options.point] if options.point else "1234567":
        found = places(point, all_files)
        print(f"point {point}: {len(found)}")
        if options.count:
            crates = Counter(place.split("/")[1] for place in found)
            print(*(f"    {crate} {count}" for crate, count in sorted(crates.items())), sep="\n")
        else:
            print(*(f"    {place}" for place in found), sep="\n")


main()
