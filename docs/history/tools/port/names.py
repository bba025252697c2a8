#!/usr/bin/env python3
"""names.py: what respell.py left half turned, gave a lemma's ending to a field, or did not look at (the words that a source file imports under another
name). Run it at the top of the repository, after sources.py; a second run changes nothing. It brings tools/spelling.tsv up to date too. A name is a word between blanks, brackets, dots and the like, so that a longer word with the same letters stays."""
import glob, re

EDGE = r'\s(){}\[\].;,@"«»`'
# by crate, or in all of them: old, new
NAMES = [
    ("", "mAt", "m_at"),
    ("", "sigma_inv_mAt", "sigma_inv_m_at"),
    ("", "mHead", "m_head"),
    ("", "mBlocks", "m_blocks"),
    ("", "row_room_lem", "row_room_is"),
    ("", "of_width_lem", "of_width_is"),
    ("ivector_info", "gmm_in_lem", "gmm_in_is"),
    ("ivector_info", "extractor_in_lem", "extractor_in_is"),
    # the largest log-likelihood, as a variable
    ("definition", "max-like", "largest"),
    ("posteriors", "max-like", "largest"),
]
# a field of Tables, which has the plain name in Rust
FIELD = ("sigma_inv_m_is", "sigma_inv_m")
# words that a source file imports under another name, as `dot as dotOf`
ALIAS = re.compile(r"\b(?:[a-z]+Of|isAhead)\b")
# of tools/spelling.tsv: a row's old name, and its new one (of `gmm-in`, `extractor-in` and `row_in` the row has the lemma's; the field ends in `_is`)
TABLE = {
    "m-at": "m_at_lem",
    "mAt": "m_at",
    "sigmaInvMAt": "sigma_inv_m_at",
    "mHead": "m_head",
    "mBlocks": "m_blocks",
    "sigma-inv-m": "sigma_inv_m",
    "max-like": "largest",
    "row_room": "row_room_is",
    "of_width": "of_width_is",
}


def word(text, old, new):
    return re.sub(rf"(?<![^{EDGE}]){re.escape(old)}(?=[{EDGE}]|$)", new, text)


# a lemma that would fall together with a definition
half_turned = "mAt" in open("crates/ivector_tables/specs/Steps.antt", encoding="utf-8").read()


def turned(name, text):
    crate = name.split("/")[1]
    if half_turned and name.startswith("crates/ivector_tables/proofs/"):
        text = word(text, "m_at", "m_at_lem")
    for where, old, new in NAMES:
        if where in ("", crate):
            text = word(text, old, new)
    text = word(text, *FIELD)
    if "/src/" in name or name.endswith(".edit"):
        text = ALIAS.sub(lambda m: re.sub("([A-Z])", lambda c: "_" + c.group(1).lower(), m.group(0)), text)
    if crate == "ivector_info":
        # the field, not the lemma of check_files
        text = re.sub(r"((?:\.|pub )|^ +(?=row_in_lem = ))row_in_lem\b", r"\1row_in_is", text, flags=re.M)
    return text


for name in sorted(
    n
    for ending in ("src/**/*.rt", "specs/**/*.antt", "proofs/**/*.antt", "must-fail/*.edit", "more-must-fail/*.edit")
    for n in glob.glob("crates/*/" + ending, recursive=True)
):
    text = open(name, encoding="utf-8").read()
    new = turned(name, text)
    if new != text:
        open(name, "w", encoding="utf-8").write(new)
        print(name)

table = dict(line.rstrip("\n").split("\t") for line in open("tools/spelling.tsv", encoding="utf-8"))
table.update(TABLE)
with open("tools/spelling.tsv", "w", encoding="utf-8") as out:
    for old, new in sorted(table.items()):
        out.write(f"{old}\t{new}\n")
