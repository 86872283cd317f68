#!/usr/bin/env python3
"""Lists the places in src/ that docs/DESIGN-PASS.md counts, point by point.

    python3 tools/count_places.py [FOLDER] [--list]

FOLDER is a checkout, by default the one that this script stands in. It goes by the text of the lines alone, so it also finds places that
stay on purpose: the page says of each why.
"""
import pathlib
import re
import sys

POINTS = [
    (
        1,
        "an own enum with the shape of a Result or an Option",
        r"^\s*(Flux\(i32\),|Accepted,)",
    ),
    (1, "a refusal told as an Option", r"-> Option<Refusal>"),
    (1, "a number in place of a stop or a cause", r"\(usize, u32\)|struct Cause\(u32\)"),
    (1, "a Result taken apart where `?` would do", r"Err\(_\) => |\.is_err\(\)|let Ok\(|if let Some\(refusal\)"),
    (1, "a tag with values beside it that count only at some tags", r"^\s*stage: Stage,"),
    (1, "a sentinel for none", r"pub fn critical_temperature.*-> u32|self\.0 < 20"),
    (1, "a table from a refusal or a stop to its number", r"^\s*(Refusal|Stop)::\w+( \{ \.\. \})? => \d+,$"),
    (2, "the strength factor and the stiffness factor as twins", r"fn (strength_at|stiffness_at)\(|ghost (strength|stiffness)(_law)?( =|:) \{"),
    (2, "a line of numbers and a line of answers as twins", r"fn (numbers|answers)\(letter"),
    (2, "the same member made in two programs", r"^fn (strut|member)\("),
    (2, "a public call and an inner function with the same clauses", r"^\s*fn (cold|take_back|replace_load|heated|respond)\("),
    (3, "a loop over indices", r"for \w+ in 0\.\."),
    (3, "a count kept by hand", r"saturating_add\(|while high - low"),
    (3, "a search by a loop over items", r"for \(\w+, \w+\) in \w+\.iter\(\)\.enumerate\(\)"),
    (4, "a widening by `as`", r"\bas (u64|i64|i32)\b"),
    (4, "a range tested by hand", r"\w+ < 21 \|\| |\d+ <= \w+ && \w+ <= \d+|low <= x && x <= high|count < 1 \|\| "),
    (4, "degrees with three decimals, put together by hand", r"% 1000;"),
    (4, "a test of a variant, or an Option's method, by hand", r"=> true,$|_ => Some\(value\),$"),
    (5, "several facts in one clause", r"(requires|ensures)( \w+)? \{.*×.*\}"),
    (5, "both factors of a steel side by side in a clause", r"S\.Steel\.(strength|factor) \w+(\.\w+)+( Strength)?\) \(S\.Steel\.(stiffness|factor)"),
    (5, "a sheet's view written out in a clause", r"view_of S\.Steel F\.Fire"),
    (6, "a buffer with a length beside it", r"^\s*\w+: \[(u8|u32|Point); \w+\],"),
    (7, "a choice of what to run", r"match (column|reduction|call|question|letter|stage|self\.stage|self\.state|&mut self\.state) \{|=> match letter \{"),
]


def places(folder):
    for path in sorted(folder.glob("crates/*/src/**/*.rt")):
        for number, line in enumerate(path.read_text().splitlines(), 1):
            if not line.lstrip().startswith("//"):
                yield f"{path.relative_to(folder)}:{number}", line


def main():
    words = [word for word in sys.argv[1:] if word != "--list"]
    folder = pathlib.Path(words[0]) if words else pathlib.Path(__file__).resolve().parent.parent
    lines = list(places(folder))
    for point, what, pattern in POINTS:
        found = [(place, line.strip()) for place, line in lines if re.search(pattern, line)]
        print(f"{point}  {len(found):3}  {what}")
        if "--list" in sys.argv:
            for place, line in found:
                print(f"        {place}: {line}")


if __name__ == "__main__":
    main()
