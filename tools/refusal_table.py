"""The table of refusals and of the other answers, docs/refusals.tsv: its rows, and what is written of them. A row's columns:

- number: what a refusal prints, and what a call of C answers.
- name: as crates/phase_modes/src/refusal.rt and the Rust crate have it. PALDWOSK_NOT_YET of C is the NotYet of the table.
- of: of what alone it is, if its part of the header doesn't say so; else `-`.
- meaning, do: what it means and what to do, in plain words that are right in each language, without a point at the end. A mode
  stands in backticks, by its name in C: Rust's `SigWait` is made of `SIG_WAIT`.

The rows in the Rust crate's own file say which answers it has, the header's comments say of what its groups are. A test that
expects a text has it written out.
"""
import collections
import itertools
import re
from pathlib import Path

TOP = Path(__file__).resolve().parent.parent
TABLE = TOP / "docs/refusals.tsv"
REFUSALS, NUMBERS = TOP / "crates/phase_modes/src/refusal.rt", TOP / "crates/phase_modes/specs/RefusalNumbers.antt"
HEADER, RUST, RULES, WORLD = (TOP / it for it in ("include/paldwosk.h", "wrappers/rust/src/answers.rs", "docs/rules.md", "tools/text_faults/world.py"))
Answer = collections.namedtuple("Answer", "number name of meaning todo")
NONE, WIDTH, FIRST_OTHER = "-", 120, 32


def answers():
    """The rows, in their order."""
    rows = [line.split("\t") for line in TABLE.read_text().splitlines()[1:]]
    return [Answer(int(number), *rest) for number, *rest in rows]


def refusals():
    """The answers that are refusals of the proved code."""
    return [it for it in answers() if 0 < it.number < FIRST_OTHER]


# ---- words


def in_c(text):
    return text.replace("`", "")


def in_rust(text):
    return re.sub(r"`([A-Z_]+)`", lambda mode: "`%s`" % mode[1].title().replace("_", ""), text)


def sentence(text):
    return in_rust(text[0].upper() + text[1:]) + "."


def constant(it):
    """The name in C: PALDWOSK_NOT_YET of NotYet."""
    return "PALDWOSK" + re.sub(r"([A-Z])", r"_\1", it.name).upper()


def meaning(it):
    return it.meaning if it.of == NONE else "of %s alone: %s" % (it.of, it.meaning)


def text_of(it):
    """What paldwosk_answer_text says."""
    return in_c("%s (%d): %s; %s" % (it.name, it.number, it.meaning, it.todo))


# ---- what is written of the rows: each a part of a file, by the part that stands there


def members(there):
    """The enum of the header: its members, those that stand together with their comments in one column."""
    known, lines = {constant(it): it for it in answers()}, []
    for are_members, group in itertools.groupby(there.splitlines(), lambda line: line.startswith("  PALDWOSK_")):
        declared = [(line, line.partition("/*")[0].rstrip()) for line in group]
        widest = max(len(member) for _, member in declared)
        for line, member in declared:
            it = known.get(member.split()[0]) if are_members else None
            lines.append("%s /* %s */" % (member.ljust(widest), in_c(meaning(it))) if it else line)
    return "\n".join(lines) + "\n"


def cases(_):
    """The cases of paldwosk_answer_text."""
    lines = []
    for it in answers():
        case, text = "    case %s:" % constant(it), text_of(it)
        first = text[:-len(in_c(it.todo))]
        forms = ['%s return "%s";' % (case, text), '%s\n      return "%s";' % (case, text),
                 '%s\n      return "%s"\n             "%s";' % (case, first, in_c(it.todo))]
        lines.append(next((form for form in forms if fits(form)), forms[-1]))
    return "\n".join(lines) + "\n"


def variants(there):
    """The rows of the Rust crate's refusals, of the numbers that it has."""
    known = {(it.name, it.number): it for it in answers()}

    def renew(row):
        it = known.get((row[1], int(row[2])))
        if not it:
            return row[0]
        head, told = "    %s = %d, " % (it.name, it.number), (sentence(it.meaning), sentence(it.todo))
        line = '%s"%s %s";\n' % (head, *told)
        return line if fits(line) else '%s"%s \\\n        %s";\n' % (head, *told)

    return re.sub(r"^    (\w+) = (\d+),.*\n(?:        .*\n)*", renew, there, flags=re.M)


def rows(_):
    """The table of docs/rules.md."""
    placed = re.findall(r"^    (\w+)\(u64\),", REFUSALS.read_text(), flags=re.M)
    lines = ["| No | Name | Meaning | What to do |", "|---|---|---|---|"]
    for it in refusals():
        name = "`%s`%s" % (it.name, " at a place" if it.name in placed else "")
        todo = re.sub(r"docs/(\w+\.md)", r"[\1](\1)", it.todo)
        lines.append("| %d | %s | %s | %s |" % (it.number, name, meaning(it), todo))
    return "\n".join(lines) + "\n"


def names(_):
    """The names of the refusals by their numbers, as ./program_check has them."""
    line, lines = "   ", []
    for name in ["", *(it.name for it in refusals())]:
        item = ' "%s",' % name
        if len(line + item) > WIDTH:
            lines, line = [*lines, line], "   "
        line += item
    return "\n".join([*lines, line]) + "\n"


# Each part: its file, and what stands before it, in it and after it.
PARTS = [
    (members, HEADER, r"(typedef enum paldwosk_answer \{\n)((?:.*\n)*?)(\} paldwosk_answer;\n)"),
    (cases, HEADER, r"(paldwosk_answer_text\(paldwosk_answer answer\) \{\n  switch \(answer\) \{\n)((?:.*\n)*?)(  \}\n)"),
    (variants, RUST, r"(^refusals! \{\n)((?:.*\n)*?)(\}\n)"),
    (rows, RULES, r"(^## Refusals\n(?:(?!\|).*\n)*)((?:\|.*\n)+)()"),
    (names, WORLD, r"(^REFUSALS = \(\n)((?:.*\n)*?)(\)\n)"),
]


def standing(file, pattern):
    """The part of a file; none if it isn't found."""
    found = re.search(pattern, file.read_text(), flags=re.M)
    return found and found[2]


def write():
    for part, file, pattern in PARTS:
        file.write_text(re.sub(pattern, lambda found: found[1] + part(found[2]) + found[3], file.read_text(), flags=re.M))


# ---- what isn't as in the table


def fits(text):
    return all(len(line) <= WIDTH for line in text.split("\n"))


def faults_of_rows():
    """Rows that aren't of the form."""
    numbers = [it.number for it in answers()]
    if numbers != sorted(set(numbers)):
        yield "docs/refusals.tsv: the numbers don't rise"
    for it in answers():
        for words in (it.meaning, it.todo):
            if not words or words.endswith(".") or re.search(r'[;|"\\]', words) or words != words.strip():
                yield "docs/refusals.tsv: %d %s: has a point at its end, or a sign that can't be written: %s" % (it.number, it.name, words)


def faults_of_part(part, name, there):
    """Where a part of a file differs from what is written of the table."""
    lines, wanted = there.splitlines(), part(there).splitlines()
    yield from ("%s: docs/refusals.tsv has, and --write writes: %s" % (name, line) for line in wanted if line not in lines)
    yield from ("%s: docs/refusals.tsv hasn't: %s" % (name, line) for line in lines if line not in wanted)
    if lines != wanted and sorted(set(lines)) == sorted(set(wanted)):
        yield "%s: has the lines of docs/refusals.tsv in another order, or twice" % name
    if part is not rows:
        yield from ("%s: wider than %d columns: %s" % (name, WIDTH, line) for line in wanted if not fits(line))


def faults_of_numbers():
    """Where the proved code, the enum of the header and the Rust crate have other numbers and names."""
    code, listed = REFUSALS.read_text(), NUMBERS.read_text().partition("\nrefusals =\n")[2].partition("[]")[0]
    of = {part: standing(file, pattern) for part, file, pattern in PARTS}
    refused, every = [(it.number, it.name) for it in refusals()], [(it.number, it.name) for it in answers()]
    in_rust_crate = pairs(r"^    (\w+) = (\d+),", of[variants])
    yield from differing(REFUSALS, pairs(r"Refusal::(\w+)(?:\(_\))? => (\d+),", code), refused)
    yield from differing(REFUSALS, [it for it in refused if re.search(r'Refusal::%s(?:\(_\))? => "%s",' % (it[1], it[1]), code)], refused)
    yield from differing(NUMBERS, list(enumerate(re.findall(r"[A-Z]\w+", listed), 1)), refused)
    yield from differing(HEADER, pairs(r"^  (PALDWOSK_\w+) = (\d+)", of[members]), [(it.number, constant(it)) for it in answers()])
    yield from differing(RUST, in_rust_crate, [it for it in every if it in in_rust_crate])


def pairs(pattern, text):
    return [(int(number), name) for name, number in re.findall(pattern, text, flags=re.M)]


def differing(file, there, wanted):
    if there != wanted:
        others = sorted({*there} ^ {*wanted})
        told = ", ".join("%d %s" % it for it in others) if others else "the order"
        yield "%s: differs from docs/refusals.tsv in numbers and names: %s" % (file.relative_to(TOP), told)


def faults_of_comments():
    """The texts that comments of the header quote, and that the table hasn't."""
    texts = [text_of(it) for it in answers()]
    for comment in re.findall(r"^/\*(?:(?!\*/).)*\*/", HEADER.read_text(), flags=re.S | re.M):
        for quoted in re.findall(r'"(\w+ \(\d+\): [^"]*)"', re.sub(r"\s*\n \* ?", " ", comment)):
            if quoted not in texts:
                yield "%s: a comment quotes what docs/refusals.tsv hasn't: %s" % (HEADER.relative_to(TOP), quoted)


def faults():
    """What is wrong, and how many lines there are."""
    parts = [(part, file.relative_to(TOP), standing(file, pattern)) for part, file, pattern in PARTS]
    lacking = ["%s: has no place for what docs/refusals.tsv has: %s" % (name, part.__doc__) for part, name, there in parts if not there]
    if lacking:
        return lacking, len(parts)
    found = [*faults_of_rows(), *faults_of_numbers(), *faults_of_comments()]
    found += [line for part, name, there in parts for line in faults_of_part(part, name, there)]
    return found, sum(len(there.splitlines()) for _, _, there in parts)
