"""The pages of docs/reference, which quote definitions and contracts as they stand in their files. What they quote is chosen in
docs/quoted: there a block `quote` names definitions of the files below it, one after the other, and a block `contract` has a
line for each contract, with the clauses that are quoted of it. Each condition on the caller is quoted without a word.

A name of a definition that begins with -- is quoted with the comment before it. A line of a contract begins as the contract does.
"""
import itertools
import pathlib
import re

TOP = pathlib.Path(__file__).resolve().parent.parent
CHOSEN, BUILT = TOP / "docs/quoted", TOP / "docs/reference"
NAMES = ("contracts", "definitions")
PROMISES = TOP / "docs/promises.md"

FILES = r"`(crates/[^`]+\.{})`"
HEAD = re.compile(r"( *)((?:pub )?(?:extern \"C\" )?fn|pub struct|impl)\b")
CLAUSE = re.compile(r"    (requires|ensures|ghost)\b")
BLOCK = re.compile(r"^```(quote|contract)\n((?:.*\n)*?)```\n", re.M)
UNDER = re.compile(r"^Files?: ((?:`[^`]+`,?\s+|`[^`]+`\.?)+)", re.M)
# A definition's name ends at a space, a colon or the end of its line.
DECLARED = r"(?:\A|\n\n|\n(?=pub |abbrev ))((?:abbrev |unfoldable )?pub (?:record |data )?{}(?=[ :\n])(?:.|\n(?!\n|pub |abbrev |unfoldable ))*)"


def without_comments(text):
    return "\n".join(line.rstrip() for line in text.splitlines() if not line.strip().startswith(("--", "//")))


def named_files(rest, ending):
    """The files of this ending that the next line which names files does, of the text below a block."""
    named = UNDER.search(rest)
    return [TOP / file for file in re.findall(FILES.format(ending), named[1] if named else "")]


def text_of(files):
    return "\n".join(file.read_text() for file in files if file.exists())


# ---- definitions


def declaration(name, raw):
    """The definition of this name as the text has it; None if it has none."""
    found = re.search(DECLARED.format(re.escape(name.removeprefix("--"))), without_comments(raw))
    if not found or not name.startswith("--"):
        return found and found[1].rstrip()
    words = re.search(r"((?:^--.*\n)+)" + re.escape(found[1].split("\n")[0]), raw, flags=re.M)
    return words and words[1] + found[1].rstrip()


# ---- contracts


def contract(lines):
    """The head of a function or a type, and its clauses, each with all its lines. The head's margin is left aside."""
    head, clauses, within = [], [], False
    for line in lines:
        begins = CLAUSE.match(line) is not None
        within = begins or within and line.startswith("     ")
        if begins:
            clauses.append([line])
        elif within:
            clauses[-1].append(line)
        elif not head or "fn " in head[0] and not clauses:
            head.append(line)
    return "\n".join(head), ["\n".join(clause) for clause in clauses]


def contracts(text):
    """The contracts of a `.rt` file: of a function what stands before its body, of a type what stands inside."""
    lines = without_comments(text).split("\n")
    for at, line in enumerate(lines):
        start = HEAD.match(line)
        if start:
            shifted = [more[len(start[1]):] for more in lines[at:]]
            last = "{" if start[2].endswith("fn") else "}"
            yield contract(itertools.takewhile(lambda more: not more.startswith(last), shifted))


def clause_name(clause):
    """A clause's name with its kind, unless that is `ensures`; the kind alone if it has no name."""
    kind, name = re.match(r" *(requires|ensures|ghost)(?:\*)?(?: (\w+))?", clause).groups()
    return name if kind == "ensures" and name else " ".join(filter(None, (kind, name)))


def is_asked(clause):
    return clause.startswith("    requires")


def quoted(line, known):
    """The contract that the line names, as one of these files has it; None if none has."""
    begins, _, names = line.partition(" | ")
    wanted = [name for name in names.split(", ") if name]
    for head, clauses in known:
        kept = [it for it in clauses if is_asked(it) or clause_name(it) in wanted]
        if re.match(re.escape(begins) + r"(?!\w)", head) and {clause_name(it) for it in kept if not is_asked(it)} == set(wanted):
            return "\n".join([head, *kept, *(["}"] if head.endswith("{") else [])])
    return None


# ---- pages


def anew(kind, names, rest):
    """The names of a block above this text, each with what it is quoted as; None for one that isn't there."""
    if kind == "contract":
        known = list(contracts(text_of(named_files(rest, "rt"))))
        return [(line, quoted(line, known)) for line in names.splitlines()]
    raw = text_of(named_files(rest, "antt"))
    return [(name, declaration(name, raw)) for name in re.split(r",\s+", names.strip())]


def titles():
    """The titles of the promises by their headings in the page of contracts, where links by number are short."""
    found = re.findall(r"^### (\d+)\. (.*)$", PROMISES.read_text(), flags=re.M)
    return {"### Promise %s\n" % number: title for number, title in found}


def built(name):
    """The page of this name, what it can't quote, and how much it quotes."""
    bad, count, titled = [], 0, titles()

    def block(found):
        nonlocal count
        parts = anew(found[1], found[2], found.string[found.end():])
        count += len(parts)
        bad.extend("docs/quoted/%s.txt: not in its file: %s" % (name, line) for line, part in parts if part is None)
        return "```text\n%s\n```\n" % "\n\n".join(part for _, part in parts if part)

    text = BLOCK.sub(block, (CHOSEN / (name + ".txt")).read_text())
    text = re.sub(r"^### Promise \d+\n", lambda it: "%s\n%s\n" % (it[0], titled[it[0]]) if it[0] in titled else it[0], text, flags=re.M)
    return text, bad, count


def files_of(entry):
    """The files that an entry of a page quotes, each once."""
    return list(dict.fromkeys(re.findall(FILES.format(r"\w+"), entry)))
