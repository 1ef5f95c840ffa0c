#!/usr/bin/env python3
"""Lists the places of the design pass in the source, by form: docs/DESIGN-PASS.md has the points and the counts.

    tools/places.py [--count] [FOLDER]

FOLDER is the top of a checkout; the one that this file stands in where none is given."""
import pathlib
import re
import sys

# By line: the point, what is counted, and the form.
LINES = [
    (1, "variants of enums like Option or Result", r"^ +(Nothing|Missing|Refused|Beyond|NoRoom|Full)(,| \{)"),
    (1, "numbers for refusals and kinds: constants", r"\bconst (?!(MOST|LOW|HIGH|DEFINED|TURN|[A-Z]+_ROW|ARM_SIZE))[A-Z_0-9]+: u(8|16|32) ="),
    (1, "numbers for refusals and kinds: fields and parameters",
     r"\b(number|reason|refusal|part|list|kind|machine|tag|mode|mark|cond): u(8|32)\b"),
    (1, "numbers for refusals: results", r"^\) -> u8$|^pub fn (begin|undefined_register|lowest_missing).*-> u8$|^fn (full_refusal|number_told).*-> u8$"),
    (1, "flags with a value beside", r"^ +pub (full|is_held|moves): bool"),
    (1, "a number that says that there is none", r"(source|pool|number|refusal|known|end|last_pool_address|part) [!=]= 0 \{|^    16$"),
    (3, "loops that count by hand", r"^ +(while|loop)\b"),
    (4, "equality by hand", r"\.is\(|order::is\(|fn is_same\b"),
    (4, "one variant tested by a match on all",
     r"fn (is_lsl|is_lsr|is_ror|is_ia|is_on|is_going|is_refused|is_over|is_function_branch)\b"),
    (4, "order by hand", r"fn (larger|smaller|least|within|past)\b"),
    (4, "conversion by hand", r"fn (little_endian|big_endian|pattern|number|wide|byte|small|number_of|shift_name)\b"),
    (4, "printing by hand", r"fn put_[a-z_]+(<[^>]*>)?\((out|line|output): &"),
    (6, "a buffer with a place beside", r"fn [a-z_]+\(out: &mut \[u8\], at: usize|^    at: usize,$"),
    (6, "a slice with a stride and a count beside", r"stride: usize"),
    (6, "parallel arrays", r"^ +pub (values|sources): \["),
    (7, "a switch on which step to run", r"match machine\b|full: bool\b"),
]

# By a function's parameters: the point, what is counted, and the names that all stand there.
PARAMETERS = [
    (5, "functions over the five lists", ("labels:", "pools:", "jump_tables:", "inline_tables:")),
    (5, "functions over the options, the code and the starts", ("code: &[u8]", "starts: &[u32]")),
    (5, "functions over an instruction with its word", ("word: u32", "ins: Ins")),
]


def files(top):
    return sorted(top.glob("crates/*/src/*.rt"))


def by_line(top):
    for path in files(top):
        for number, line in enumerate(path.read_text().split("\n"), 1):
            for point, what, form in LINES:
                if re.search(form, line):
                    yield point, what, path, number, line.strip()


def by_parameters(top):
    for path in files(top):
        text = path.read_text()
        for found in re.finditer(r"\bfn (\w+)(<[^(]*>)?\(([^{]*?)\)", text):
            for point, what, names in PARAMETERS:
                if all(name in found.group(3) for name in names):
                    yield point, what, path, text.count("\n", 0, found.start()) + 1, found.group(1)


def twins(top):
    seen = {}
    for path in files(top):
        for number, line in enumerate(path.read_text().split("\n"), 1):
            found = re.match(r" *(pub )?fn (\w+)", line)
            if found and found.group(2) not in ("main", "fmt", "from", "try_from"):
                seen.setdefault(found.group(2), []).append((path, number))
    for name, places in sorted(seen.items()):
        if len(places) > 1:
            for path, number in places:
                yield 2, "names of functions that stand twice", path, number, name


def main():
    words = [word for word in sys.argv[1:] if word != "--count"]
    top = pathlib.Path(words[0] if words else pathlib.Path(__file__).resolve().parent.parent)
    places = sorted(list(by_line(top)) + list(twins(top)) + list(by_parameters(top)))
    if "--count" not in sys.argv:
        for point, what, path, number, text in places:
            print(f"{point}\t{what}\t{path.relative_to(top)}:{number}\t{text}")
        return
    counts = {}
    for point, what, *_ in places:
        counts[point, what] = counts.get((point, what), 0) + 1
    for (point, what), count in sorted(counts.items()):
        print(f"{point}\t{count}\t{what}")


main()
