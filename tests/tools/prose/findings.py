"""Finds the forms of sentences that the project's prose should not have."""

import re
from dataclasses import dataclass

from sentences import OPENING, blocks, length, sentences

MOST_WORDS = 25

PHRASES = {
    "behind": re.compile(r"\bbehind\b(?!\s+(?:(?:an?|the|some|its)\s+)?(?:\w+\s+)?(?:HAProxy|prox(?:y|ies))\b)"),
    "told": re.compile(r"\b(?:told|tells)\b"),
    "so many": re.compile(r"\bso many\b|\bas (?:many|much)(?: \S+){0,3} as (?:may|can) be\b"),
    "our": re.compile(r"\b(?:ours?|moments?)\b"),
    "what": re.compile(OPENING + r"(?:what|how|why)\b(?!.*\?\W*$)"),
    "where": re.compile(OPENING + r"where\b(?!.*\?\W*$)"),
}

START = re.compile(OPENING + r"\w")


@dataclass(frozen=True)
class Finding:
    """One finding: its line, its kind, and the words around it."""

    line: int
    kind: str
    text: str


def findings_in(sentence):
    """Yields the findings in one sentence, without those of kind `verb`."""
    text = " ".join(word for _, word in sentence)
    for kind, pattern in PHRASES.items():
        for found in pattern.finditer(START.sub(lambda it: it[0].lower(), text)):
            at = text.count(" ", 0, found.end() - len(found[0].lstrip()))
            around = text[max(0, found.start() - 30):found.end() + 30]
            yield Finding(sentence[at][0], kind, around)
    if length(sentence) > MOST_WORDS:
        yield Finding(sentence[0][0], "long", f"{length(sentence)} words: {text[:60]}")


def findings_of(lines):
    """Returns the findings in lines of prose."""
    return [it for block in blocks(lines) for sentence in sentences(block) for it in findings_in(sentence)]
