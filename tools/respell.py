#!/usr/bin/env python3
"""Brings this repository's own definitions and lemmas to the spelling of today's Rattle: words in snake case, types and modules in camel
case, a dash only between two names.

usage: python3 tools/respell.py      at the top of the repository, once, right after the kit's port.py (docs/PORT.md)

It goes by whole names, in the .antt files and in the clauses of the .rt files of each crate; what a name of an older Rattle stood for,
its new name stands for. In specs/ the library's tests and reads of a run get today's words too. Functions of src/, exported C names, constants, variants and strings keep their names. It also puts `# ` before
the line of a must-fail edit that says what the edit does, which today's `rt` reads as a comment. It stops, and writes nothing, where a
new name stands in a file already for something else.
"""
import glob
import re
import sys

# crate, or '' for each: old name, new name
NAMES = {
    "": {
        # node
        "OFFSET-MASK": "offset_mask",
        "INVALID-IDX": "invalid_idx",
        "INVALID-CODE": "invalid_code",
        "MAX-VALUE": "max_value",
        "END-CODE": "end_code",
        "END-MARKER": "end_marker",
        "TOP-BIT": "top_bit",
        "vacantPair": "vacant_pair",
        "isCharacter": "is_character",
        "characterRefusal": "character_refusal",
        "maxRecords": "max_records",
        "maxKey": "max_key",
        "maxKeys": "max_keys",
        "maxQuery": "max_query",
        "maxElems": "max_elems",
        "maxTable": "max_table",
        "maxTails": "max_tails",
        "maxSteps": "max_steps",
        "arraysOver": "arrays_over",
        "queryOver": "query_over",
        "buildOver": "build_over",
        "keyOver": "key_over",
        # utils
        "packSize": "pack_size",
        "widthOk": "width_ok",
        "packAnswer": "pack_answer",
        "packedInto": "packed_into",
        "unpackAnswer": "unpack_answer",
        # laws
        "get_d_any": "get_or-any",
        "some-width": "some_width",
        "least-power-one": "LeastPower_one",
        "least-by-half": "LeastPower_by_half",
        "rest-is": "rest_is",
        "part-is": "part_is",
        "differ-twice": "differ_twice",
        "xor-twice": "xor_twice",
        "xor-solve": "xor_solve",
        "xor-block-lt": "xor_block-lt",
    },
    "utils": {
        "packed-length": "length-packed",
        "pow-positive": "pow_positive",
        "unpacked-packed-fits": "unpacked-packed_fits",
        "pack-size-holds": "pack_size_holds",
        "shifted-more": "shifted_more",
        "put-more": "put_more",
        "put-none": "put_none",
        "small-pow": "small_pow",
        "got-none": "got_none",
        "got-all": "got_all",
        "got-fits": "got_fits",
        "got-more": "got_more",
        # (widthOk is width_ok now, so its three laws are named after it)
        "width-none": "width_ok-zero",
        "width-over": "width_ok-over",
        "width-ok": "width_ok-inside",
        "unpack-width": "unpack_width",
        "unpack-short": "unpack_short",
        "unpack-number": "unpack_number",
        "pack-width": "pack_width",
        "pack-short": "pack_short",
        "pack-room": "pack_room",
        "pack-refused": "pack_refused",
        "pack-done": "pack_done",
        "in-a": "in_a",
        "b-ends": "b_ends",
        "a-ends": "a_ends",
    },
    "walk": {
        "offenceIs": "offence_is",
        # (`search` is a tactic)
        "search": "search_result",
        "valuesAfter": "values_after",
        "lengthsAfter": "lengths_after",
        "tailMatch": "tail_match",
        "settleTail": "settle_tail",
        "nextStop": "next_stop",
        "finishStop": "finish_stop",
        "exactMp": "exact_mp",
        "knownMatch": "known_match",
        "tailScan": "tail_scan",
        "tailScanAt": "tail_scan_at",
        "leafScan": "leaf_scan",
        "scanMp": "scan_mp",
        "prefixesMp": "prefixes_mp",
        "settleEnd": "settle_end",
        "nextMatch": "next_match",
    },
    "export": {
        "unpackedAs": "unpacked_as",
        "orderNumber": "order_number",
        "commonParts": "common_parts",
        "nodeParts": "node_parts",
    },
}
# in .antt files alone: in export a constant of src/ has the old name
ANTT_ONLY = {"export": {"NONE": "no_answer"}}


def token(name):
    return re.compile(r"(?<![\w'-])" + re.escape(name) + r"(?![\w'-])")


def uncommented(line, mark):
    """The line without its comment, and the comment, whose words stay."""
    at = line.find(mark)
    return (line, "") if at < 0 else (line[:at], line[at:])


def respelled(path, text, names):
    mark = "--" if path.endswith(".antt") else "//"
    lines = text.split("\n")
    split = [uncommented(l, mark) for l in lines]
    for old, new in names.items():
        there = any(token(old).search(code) for code, _ in split)
        # a function of src/ may have the name that its definition gets: the two stand in different scopes, and so does a folder of proofs/
        alone = re.compile(r"(?<![\w'.-])" + re.escape(new) + r"(?![\w'.-])")
        fall = path.endswith(".antt") and any(alone.search(code) for code, _ in split)
        if there and fall:
            sys.exit(f"{path}: {old} would fall together with {new}")
    out = []
    for code, comment in split:
        for old, new in names.items():
            code = token(old).sub(new, code)
        out.append(code + comment)
    return "\n".join(out)


def argument(text, at):
    """The argument of a call that begins at or behind `at`: its text, and where it ends."""
    while text[at] == " ":
        at += 1
    start = at
    if text[at] == "(":
        depth = 0
        while True:
            depth += {"(": 1, ")": -1}.get(text[at], 0)
            at += 1
            if depth == 0:
                return text[start:at], at
    while at < len(text) and text[at] not in " ()[],;{}":
        at += 1
    return text[start:at], at


def bare(arg):
    """An argument as a side of an operator: a call needs no parentheses there."""
    inner = arg[1:-1]
    return inner if arg.startswith("(") and re.fullmatch(r"[\w' ()-]+", inner) and not re.search(r" - ", inner) else arg


def words(text):
    """The library's words in a file of specs/: `eqb x y` is `x == y`, `ltb` `nat_lt`, `leb` `nat_le`, `get_or xs i 0` `slice_index xs i`."""
    out, used = [], set()
    for line in text.split("\n"):
        code, comment = uncommented(line, "--")
        if not code.startswith("use "):
            while found := token("eqb").search(code):
                left, at = argument(code, found.end())
                right, end = argument(code, at)
                alone = code[found.start() - 1 : found.start()] == "(" and code[end : end + 1] == ")"
                test = f"{bare(left)} == {bare(right)}"
                code = code[: found.start()] + (test if alone else f"({test})") + code[end:]
            while found := token("get_or").search(code):
                xs, at = argument(code, found.end())
                i, at = argument(code, at)
                default, end = argument(code, at)
                word = "slice_index" if default == "0" else "slice_index_or"
                used.add(word)
                code = code[: found.start()] + (f"{word} {xs} {i}" if default == "0" else f"{word} {xs} {i} {default}") + code[end:]
            code = token("ltb").sub("nat_lt", token("leb").sub("nat_le", code))
        out.append(code + comment)
    imports = {"eqb": "◌==◌", "ltb": "nat_lt", "leb": "nat_le", "get_or": ", ".join(sorted(used))}
    for k, line in enumerate(out):
        if line.startswith("use "):
            for old, new in imports.items():
                line = token(old).sub(new, line) if new else re.sub(r"get_or, |, get_or(?=\})", "", line)
            out[k] = line
    return "\n".join(out)


def main():
    writes = {}
    for path in sorted(glob.glob("crates/*/**/*.antt", recursive=True) + glob.glob("crates/*/**/*.rt", recursive=True)):
        crate = path.split("/")[1]
        names = {**NAMES[""], **NAMES.get(crate, {})}
        if path.endswith(".antt"):
            names.update(ANTT_ONLY.get(crate, {}))
        # a proof that walks the code by hand cites `search` as the tactic
        if "/proofs/" in path:
            names.pop("search", None)
        text = open(path, encoding="utf-8").read()
        new = respelled(path, text, names)
        if "/specs/" in path:
            new = words(new)
        if new != text:
            writes[path] = new
    for path in sorted(glob.glob("crates/*/must-fail/*.edit")):
        text = open(path, encoding="utf-8").read()
        first = text.split("\n", 1)[0]
        if not first.startswith(("file: ", "old: ", "new:", "#")):
            writes[path] = "# " + text
    for path, text in writes.items():
        open(path, "w", encoding="utf-8").write(text)
    print(f"{len(writes)} files respelled")


main()
