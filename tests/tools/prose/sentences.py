"""Splits documents and manuals into sentences."""

import re
import zlib

# Replaces code and names.
CODE = "\ufffc"

# Matches the marks before the first word of a sentence.
OPENING = f"^[^\\w{CODE}]*"

# Macros of manuals whose line is code, or a name, within a sentence.
CODE_MACROS = {
    "Nm", "Fl", "Ar", "Pa", "Ic", "Cm", "Ev", "Xr", "Sx", "Ql", "Li", "Dq", "Pq", "Sq", "Vt", "Fn", "Fa", "Dv", "In",
}

NAME = re.compile(r"https?://\S*\w|\b[A-Za-z_]\w*(?:(?:::|\.|/|-(?=\d))\w+)+|\b\w*_\w+|\b[A-Za-z]+[a-z][A-Z]\w*")
SHORT = re.compile(r"\b(e\.g|i\.e|cf|vs|etc|No|al)\.(?=\s)")
SPAN = re.compile(r"(`+)(?!`)(.+?)(?<!`)\1(?!`)", re.S)
LINK = re.compile(r"!?\[([^\[\]]*)\]\([^()\s]*\)")
END = re.compile(r"(?<!\.)[.?!][)\]\"'”’]*$")
ITEM = re.compile(r"\s*(?:[-*+]|\d+[.)]|>)\s+")
HEADING = re.compile(r"#+\s+")
FENCE = re.compile(r"\s*(?:```|~~~)")


def without_code(_):
    """Returns the text in place of code and of names."""
    return CODE


def numbered_code(text):
    """Returns a text in place of code or a name, with a number that differs for other code."""
    return f"{CODE}{zlib.crc32(' '.join(text.strip('`').split()).encode())}"


def blanked(text, code=without_code):
    """Returns the text without code spans, names, addresses of links and marks of emphasis; its lines stay."""
    text = SPAN.sub(lambda it: code(it[0]) + "\n" * it[0].count("\n"), text)
    text = LINK.sub(r"\1", text).replace("*", "")
    return NAME.sub(lambda it: code(it[0]), SHORT.sub(r"\1", text))


def blocks(lines, code=without_code):
    """Yields the paragraphs, items, headings and cells of a text, each as a list of lines with their numbers."""
    block, fenced, indented, item, blank = [], False, False, False, True
    for number, text in lines:
        if FENCE.match(text) or fenced or not text.strip():
            fenced ^= bool(FENCE.match(text))
            yield block
            block, blank = [], True
        elif text.startswith("    ") and (indented or blank and not (item and not text.startswith(" " * 7))):
            indented = True
        elif text.lstrip().startswith("|") or HEADING.match(text):
            yield block
            block, indented, item, blank = [], False, False, True
            yield from ([(number, cell)] for cell in blanked(HEADING.sub("", text), code).split("|"))
        else:
            starts = ITEM.match(text)
            if starts:
                yield block
                block, text = [], text[starts.end():]
            item, indented, blank = bool(starts) or item and (not blank or text.startswith("  ")), False, False
            block.append((number, text))
    yield block


def sentences(block, code=without_code):
    """Yields the sentences of a block, each as a list of words with the numbers of their lines."""
    sentence = []
    for (number, _), line in zip(block, blanked("\n".join(text for _, text in block), code).split("\n")):
        for word in line.split():
            sentence.append((number, word))
            if END.search(word):
                yield sentence
                sentence = []
    if sentence:
        yield sentence


def length(sentence):
    """Returns the number of words of a sentence."""
    return sum(bool(re.search(r"[\w" + CODE + "]", word)) for _, word in sentence)


def numbered(text, first=1):
    """Returns the lines of a text with their numbers."""
    return list(enumerate(text.split("\n"), first))


def manual(text):
    """Yields the lines of a manual in mdoc, with macros as code spans and an empty line before each paragraph."""
    literal = False
    for number, line in numbered(text):
        macro, _, rest = line.removeprefix(".").partition(" ")
        plain = re.sub(r"\\&|\\\(\w\w|\\(?=-)", "", rest)
        if not line.startswith("."):
            yield number, "" if literal else re.sub(r"\\&|\\\(\w\w|\\(?=-)", "", line)
        elif macro in ("Bd", "Ed"):
            literal = macro == "Bd"
            yield number, ""
        elif macro in ("Sh", "Ss", "It", "Nd"):
            yield number, ""
            yield number, CODE if re.match(r"(?:Fl|Ic|Pa|Ar|Cm|Ev|Xr|Sy)\b", plain) else plain
            yield number, ""
        elif macro in CODE_MACROS:
            marks = "".join(it for it in plain.split()[-1:] if not re.search(r"\w", it))
            shown = " ".join([macro, plain.removesuffix(marks).strip()]).replace("`", "'")
            yield number, f"`{shown.strip()}`{marks}"
        else:
            yield number, ""


def is_manual(kind):
    """Returns true if the suffix of a file name is that of a manual."""
    return kind[1:].isdigit()
