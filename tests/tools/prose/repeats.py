"""Finds sentences that documents and manuals repeat, and counts their words."""

import glob
import os
import re

from sentences import blocks, is_manual, length, manual, numbered, numbered_code, sentences
from workspace import ROOT

# Maximum number of sentences of more than LEAST_REPEATED words that are repeated: in documents alone, in manuals
# alone, and in both.
REPEATED = {"documents": 0, "manuals": 0, "documents and manuals": 0}

# Maximum number of words, as `--words` counts them.
MOST_IN_ALL = {"documents": 18_500, "manuals": 12_500}

# Sentences of more words may not be repeated.
LEAST_REPEATED = 12

GENERATED = re.compile(r"^<!-- generated.*?^<!-- end -->$", re.S | re.M)

# Texts, each with the suffix of its file name, and the numbers of the sentences that they repeat, as in REPEATED.
TWELVE = "This sentence has in its lines exactly the number of words: twelve."
THIRTEEN = "This sentence has in `its` lines exactly one word more than [twelve](x.md) words."
REPEATED_SAMPLES = [
    ([(".md", f"{TWELVE}\n\n{TWELVE}\n")], (0, 0, 0)),
    ([(".md", f"{THIRTEEN}\n\n- {THIRTEEN}\n")], (1, 0, 0)),
    ([(".md", f"{THIRTEEN}\n"), (".md", f"A row.\n\n| {THIRTEEN.lower().replace('x', 'y')} |\n")], (0, 0, 0)),
    ([(".md", f"{THIRTEEN}\n"), (".md", f"A row.\n\n| {THIRTEEN.lower().replace('x.', 'y.')} |\n")], (1, 0, 0)),
    ([(".md", f"{THIRTEEN}\n"), (".md", THIRTEEN.replace("`its`", "`her`"))], (0, 0, 0)),
    ([(".md", f"```\n{THIRTEEN}\n```\n"), (".md", THIRTEEN)], (0, 0, 0)),
    ([(".md", f"<!-- generated -->\n{THIRTEEN}\n<!-- end -->\n"), (".md", THIRTEEN)], (0, 0, 0)),
    ([(".md", THIRTEEN), (".1", ".Sh NAME\n" + THIRTEEN.replace("`its`", "\n.Ql its\n"))], (0, 0, 0)),
    ([(".1", ".Sh NAME\n" + TWELVE.replace("exactly", "\n.Fl d\nexactly")),
      (".7", TWELVE.replace("exactly", "\n.Fl e\nexactly"))], (0, 0, 0)),
    ([(".1", ".Sh NAME\n" + TWELVE.replace("exactly", "\n.Fl d\nexactly")),
      (".7", TWELVE.replace("exactly", "\n.Fl d\nexactly"))], (0, 1, 0)),
    ([(".md", f"{THIRTEEN}\n{THIRTEEN}"), (".3", THIRTEEN), (".1", THIRTEEN)], (0, 0, 1)),
]


def long_sentences(kind, text):
    """Yields each sentence of more than LEAST_REPEATED words of a document or manual, as its line and its words."""
    text = GENERATED.sub(lambda it: "\n" * it[0].count("\n"), text)
    for block in blocks(manual(text) if is_manual(kind) else numbered(text), numbered_code):
        for sentence in sentences(block, numbered_code):
            if length(sentence) > LEAST_REPEATED:
                yield sentence[0][0], " ".join(re.sub(r"[^\w\s]+", "", word).lower() for _, word in sentence)


def repeated(files):
    """Returns the sentences that occur more than once in these documents and manuals, each as a list of its places, for
    each limit of REPEATED. A file is its name, its suffix and its text; a place has the name and the line."""
    places = {}
    for name, kind, text in files:
        for line, words in long_sentences(kind, text):
            places.setdefault(words, []).append((name, is_manual(kind), line))
    found = {it: [] for it in REPEATED}
    for several in (it for it in places.values() if len(it) > 1):
        of_manuals = {is_of_manual for _, is_of_manual, _ in several}
        group = "documents and manuals" if len(of_manuals) == 2 else "manuals" if True in of_manuals else "documents"
        found[group].append([(name, line) for name, _, line in several])
    return found


def prose_files():
    """Yields the documents and manuals, each as its name, its suffix and its text."""
    for path in sorted(it for one in ("*.md", "*/*.md", "tests/**/*.md", "man/*.[1-9]")
                       for it in glob.glob(f"{ROOT}/{one}", recursive=True)):
        with open(path, encoding="utf-8") as file:
            yield os.path.relpath(path, ROOT), os.path.splitext(path)[1], file.read()


def words_in(kind, text):
    """Returns the number of words of a manual, or of a document without code and generated parts."""
    if is_manual(kind):
        return len(text.split())
    text = GENERATED.sub("", text)
    return sum(len(it.split()) for block in blocks(numbered(text), lambda it: it.strip("`")) for _, it in block)


def words_of_all():
    """Returns the number of words of each document and manual by name, and of all for each limit of MOST_IN_ALL."""
    counts = {name: words_in(kind, text) for name, kind, text in prose_files()}
    documents = sum(count for name, count in counts.items() if name.endswith(".md") and name != "CHANGELOG.md")
    return counts, {"documents": documents, "manuals": sum(it for name, it in counts.items() if name[-3:] != ".md")}


def list_words():
    """Prints the number of words of each document and manual, of all documents but the changelog, and of all
    manuals."""
    for counts in words_of_all():
        print("".join(f"{count:>6} {name}\n" for name, count in counts.items()), end="")


def check_words():
    """Prints each limit of MOST_IN_ALL that is exceeded, and returns their number."""
    _, counts = words_of_all()
    wrong = [it for it, most in MOST_IN_ALL.items() if counts[it] > most]
    for it in wrong:
        print(f"{it}: {counts[it]:,} words, at most {MOST_IN_ALL[it]:,}; see --words")
    return len(wrong)


def check_repeated_samples():
    """Prints each sample whose repeated sentences are others, and returns the number of these samples."""
    failed = 0
    for texts, wanted in REPEATED_SAMPLES:
        found = tuple(map(len, repeated((str(at), *it) for at, it in enumerate(texts)).values()))
        if found != wanted:
            print(f"sample {texts!r}: {found} repeated sentences, not {wanted}")
        failed += found != wanted
    return failed


def list_repeated():
    """Prints each repeated sentence: its places, and its first words."""
    lines = {name: text.splitlines() for name, _, text in prose_files()}
    for group, found in repeated(prose_files()).items():
        for several in found:
            (name, line), *_ = several
            print(f"{group}: {', '.join(f'{it}:{at}' for it, at in several)}: {lines[name][line - 1].strip()[:60]}")


def check_repeated():
    """Prints each limit of REPEATED that is exceeded, and returns their number."""
    failed = 0
    for group, found in repeated(prose_files()).items():
        if len(found) > REPEATED[group]:
            print(f"{group}: {len(found)} repeated sentences, at most {REPEATED[group]}; see --repeated")
        failed += len(found) > REPEATED[group]
    return failed
