#!/usr/bin/env python3
"""Brings the repository's own antt names to one style: types and modules in UpperCamelCase, every other name in snake_case.

Run it once, at the top of the repository, behind port.py: python3 tools/respell.py

The own names are those that crates/*/specs and crates/*/proofs declare. The names that Rattle makes (goals, steps of a function's
proof) stay as they are, but for `.._spec` and for a step that is named by a function. Code in src/ is not renamed: there only the
clauses, the `ghost use` lines and what comments say. The must-fail edits follow, and of the documents what stands in backticks.
Files are rewritten in place, and each crate is formatted.
"""

import glob
import re
import subprocess

# A name whose plain respelling is another name's that meets it gets a name of its own. A lemma gets `_lem` behind its definition's name.
EXCEPTIONS = {
    "all-below": "all_below_lem",
    "big-integer": "big_integer_row",
    "by-mark": "by_mark_lem",
    "by-record": "by_record_lem",
    "end-section": "end_section_lem",
    "file-names": "file_names_lem",
    "first_by": "first_by_lem",
    "has-row": "has_row_lem",
    "has-target": "has_target_lem",
    "irep-section": "irep_section_lem",
    "last-of": "last_of_lem",
    "line_before": "line_before_lem",
    "lv-step": "lv_step_lem",
    "lvar-section": "lvar_section_lem",
    "map-entry": "map_entry_lem",
    "names-of": "names_of_lem",
    "no_zero": "no_zero_lem",
    "put-all": "put_all_lem",
    "record-in": "record_in_lem",
    "record-said": "record_said_lem",
    "record-word": "record_word_lem",
    "records-from": "records_from_lem",
    "row-among": "row_among_lem",
    "row-in": "row_in_lem",
    "rows_in": "rows_in_lem",
    "section-run": "section_run_lem",
    "size-behind": "size_behind_lem",
    "text-put": "text_put_lem",
    "text_in": "text_in_lem",
    "up-to": "up_to_lem",
    "used-up": "used_up_lem",
    "zero_row": "zero_row_lem",
}

# Names that change in one file only.
IN_FILE = {
    "crates/records/proofs/fill/Proof.antt": {"row_at": "row_at_fn"},
    "crates/steps_text/proofs/Laws.antt": {"row_of": "row_by"},
}

# Names that port.py respelled itself, in their old spelling: edits and documents still have them.
PORTED = """
above-zero add-at all-plain all-same allBelow allowed-all andThen answerOf args-fit as-before
at-most at-most-one at-new at-next at-row at-zero below-of bind-ok bits-above bodyAt bodyOf both-is
by-all by-bytes by-code by-end by-first by-form by-itself by-jump by-kind by-leave by-lines by-names
by-number by-place by-row by-rows by-size by-tests by-zero byKind bytes-inside bytes-low bytesOf
choiceOf clear-spec code-is codeAt codeIn codeOf comes-back constantOf counted-ran counted-spec
cut-load digits-more each-more each-none endOf enter-spec entryOf ext-cut falls-at fetch-spec
fieldsAt filesOf fill-meets fill-spec fill-walks finish-spec first-alone first-back first-below
first-by first-byte first-else first-of first-small first-some firstAt firstOf flag-is flag-small
flat-append flowOf frameAt from-end from-first from-nothing further-same goes-load going-end
going-next going-start hasRow head-bytes headOf held-by held-none held-to if-none in-order inTurn
inWord isReg isSome joined-snoc kindAt kindOf known-behind laid-end lastOf layout-of least-above
least-iff left-end len-spec lends-again lentOf line-before lineAt lineOf lines-end lines-fit linesOf
listOf load-is load-same load-spec map-is map-same map-snoc markOf more-room more-within moveOf
moved-as moved-in moved-nothing moved-then name-back nameOf namesOf new-meets new-spec new-walks
next-fits next-here no-bytes no-lead no-more no-record no-rows no-second no-size no-zero nodeOf
none-here none-left none-named none-of none-read none-runs none-within not-known number-is
number-read number-small of-row ofBytes ok-same one-fewer one-more oneOf only-one operand-short
operand-small operands-same operands-short or-case orElse outOf own-behind packed-dropped
packed-more packed-none part-length partAt partOf passed-here passed-start place-here place-is
plain-here prefix-here put-as put-full put-is put-one put-then put-three put-two putAll putOf
range-same reaches-end read-above read-is read-spec record-is record-same rest-at role-same roleAt
roleNumber rolesOf room-back row-at row-first row-fits row-from row-has row-inside row-more
row-moved row-same row-shows row-told row-words rowIn rows-back rows-end rows-in rows-next rows-same
rows-snoc rows-split rows-start rowsFrom rowsOf run-is run-of runFrom saidOf same-bytes same-length
same-rows second-is shape-is size-above size-is size-small sizeAt sizeOf some-left some-size spanOf
stack-is startOf step-is step-same stepOf structOf sub-at sum-is sumOf symbol-low symbolOf table-at
table-is tableOf tablesOf tests-same text-in text-same textOf the-others third-of to-fill turn-at
u32At upTo value-low value-spec valueOf viewOf walkOf walked-all walking-start whole-is whole-row
whole-same wide-fits wide-is width-spec with-first with-none word-at words-are wordsOf writing-start
zero-row
""".split()

TOKEN = re.compile(r"""(\.?)([^\s(){}\[\],;."`«»]+)""")
SIGNATURE = re.compile(r"""^\s*(?:(?:abbrev|unfoldable|pub|field|let) )*([^(){}\[\],;.":=→λ]+?) :(?= |$)""")
HEAD = re.compile(r"^\s*(?:(?:abbrev|unfoldable|pub) )*(?:data|record|ruleset|module) ([^\s(){}]+)")
BINDING = re.compile(r"\blet ([^\s(){}=:]+) =|[({]([^(){}:=;]+) : ")
ALIAS = re.compile(r" as ([^\s,}]+)")
GOALS = re.compile(r"/proofs/.+/(?:Proof|Answers|Invariants)\.antt$")
MADE = re.compile(r"^\+?[\w'-]+-spec$")
BACKTICKS = re.compile(r"`[^`\n]+`")
CLAUSE = re.compile(r"\b(?:requires|ensures|invariant|decreases|ghost)\b[^{};()\n]*\{")
GHOST_USE = re.compile(r"\bghost use\b[^;]*;")
PART_OF_CODE = re.compile(r"""(?P<said>//[^\n]*)|(?P<text>"(?:\\.|[^"\\])*"|'(?:\\.|[^'\\\n])')""")


def read(path):
    with open(path, encoding="utf-8") as f:
        return f.read()


def snake(name):
    """A name in snake_case; a name that begins with an upper case letter stays."""
    if name[0].isupper():
        return name
    return re.sub(r"(?<=[^\W_A-Z])(?=[A-Z])", "_", name.replace("-", "_")).lower()


def declared(text):
    """The names that an antt file declares."""
    for line in text.split("\n"):
        line = re.sub(r"-- .*", "", line)
        if m := SIGNATURE.match(line):
            yield from m[1].split()
        if m := HEAD.match(line):
            yield m[1]
        for m in BINDING.finditer(line):
            yield from (m[1] or m[2]).split()
        for m in ALIAS.finditer(line):
            yield m[1]


def is_old(name):
    return "◌" not in name and re.match(r"\w", name) and snake(name) != name


class Names:
    def __init__(self, antt, code):
        self.own = {}
        for path in antt:
            for name in declared(read(path)):
                if MADE.match(name) or is_old(name) and not GOALS.search(path):
                    self.own[name] = snake(name)
        self.own.update(EXCEPTIONS)
        self.functions = {f.replace("_", "-"): f for path in code for f in re.findall(r"\bfn (\w+)", read(path)) if "_" in f}
        self.functions.update({f + "_lem": f for f in self.functions.values()})  # so port.py spelled some steps
        self.said = {n: EXCEPTIONS.get(snake(n), snake(n)) for n in PORTED}
        self.said.update((n, new) for n, new in self.own.items() if n != snake(n))

    def in_antt(self, text, path):
        here = IN_FILE.get(path, {})

        def new(m):
            dot, name = m.groups()
            if dot and GOALS.search(path) and name in self.functions:
                return dot + self.functions[name]
            if dot and snake(name) == name:
                return m[0]
            return dot + (here.get(name) or self.own.get(name, name))

        return TOKEN.sub(new, text)

    def in_speech(self, text):
        """Of a comment: names with an inner upper case letter, and what stands in backticks."""
        text = BACKTICKS.sub(lambda m: self.in_edit(m[0]), text)
        return TOKEN.sub(lambda m: m[1] + (self.said.get(m[2], m[2]) if "-" not in m[2] else m[2]), text)

    def in_edit(self, text):
        return TOKEN.sub(lambda m: m[1] + self.said.get(m[2], m[2]), text)


def clauses(text):
    """Where antt text begins and ends in a source."""
    for m in GHOST_USE.finditer(text):
        yield m.span()
    for m in CLAUSE.finditer(text):
        depth, end = 1, m.end()
        while depth and end < len(text):
            depth += {"{": 1, "}": -1}.get(text[end], 0)
            end += 1
        yield m.start(), end


def antt_file(names, path, text):
    lines = []
    for line in text.split("\n"):
        m = re.search(r"(?:^|(?<= ))-- ", line)
        cut = m.start() if m else len(line)
        lines.append(names.in_antt(line[:cut], path) + names.in_speech(line[cut:]))
    return "\n".join(lines)


def source_file(names, _, text):
    spans, out, at = list(clauses(text)), [], 0

    def code(start, end):
        def new(m):
            name = m[2]
            inside = any(a <= start + m.start() < b for a, b in spans)
            return m[1] + (names.own.get(name, name) if snake(name) != name and (inside or "-" not in name) else name)

        return TOKEN.sub(new, text[start:end])

    for m in PART_OF_CODE.finditer(text):
        out += [code(at, m.start()), names.in_speech(m[0]) if m["said"] else m[0]]
        at = m.end()
    return "".join(out) + code(at, len(text))


def edit_file(names, _, text):
    def line(it):
        if it.startswith("file:"):
            return it
        return names.in_speech(it) if it.startswith("#") else names.in_edit(it)

    return "\n".join(map(line, text.split("\n")))


def document(names, _, text):
    return BACKTICKS.sub(lambda m: names.in_edit(m[0]), text)


def main():
    antt = sorted(p for part in ("specs", "proofs") for p in glob.glob(f"crates/*/{part}/**/*.antt", recursive=True))
    code = sorted(glob.glob("crates/*/src/**/*.rt", recursive=True))
    edits = sorted(glob.glob("crates/*/must-fail/*.edit"))
    documents = ["README.md", *sorted(glob.glob("docs/*.md")), *sorted(glob.glob("include/*.h"))]
    names = Names(antt, code)
    changed = 0
    for turn, paths in ((antt_file, antt), (source_file, code), (edit_file, edits), (document, documents)):
        for path in paths:
            old = read(path)
            new = turn(names, path, old)
            if new != old:
                with open(path, "w", encoding="utf-8") as f:
                    f.write(new)
                changed += 1
    print(f"respell: {len(names.own)} names, {changed} files changed")
    for folder in sorted(glob.glob("crates/*/")):
        subprocess.run(["rt", "fmt"], cwd=folder, check=False, stdout=subprocess.DEVNULL)


if __name__ == "__main__":
    main()
