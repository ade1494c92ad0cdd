"""Checks that edits are well typed, many in one copy of a crate."""

import re
from concurrent.futures import ThreadPoolExecutor
from dataclasses import replace

from edit_files import source
from places import BadEdit, place_of
from rounds import PROCESSORS, check_texts
from workspace import is_program


def only_in_place(edit):
    """Returns the functions and constants of an edit that can have no edited copy beside them."""
    try:
        return {it.path() for it in edit.parts if not place_of(source(edit.crate, it.file), it.function).may_have_copy}
    except (BadEdit, ValueError, OSError):
        # The edit cannot be applied, which the check of its types reports.
        return edit.functions()


def typed_rounds(edits):
    """Groups the edits of one crate, so that one copy of the crate can have all edits of a group. Only edits of a
    constant or of a trait's function exclude one another."""
    rounds = []
    for edit in edits:
        fixed = only_in_place(edit)
        one = next((it for it in rounds if not any(other & fixed for _, other in it)), None)
        if one is None:
            rounds.append([(edit, fixed)])
        else:
            one.append((edit, fixed))
    return [[edit for edit, _ in one] for one in rounds]


def with_copy(text, original, function, parts, suffix):
    """Returns the text with an edited copy of a function of the original text after that function. The suffix is added
    to its name."""
    place, now = place_of(original, function), place_of(text, function)
    head, _, rest = original[place.head : original.index("\n", place.end) + 1].partition("\n")
    head = re.sub(r"\bfn (\w+)", rf"fn \1{suffix}", head, count=1)
    after = text.index("\n", now.end) + 1
    text = f"{text[:after]}{head}\n{rest}{text[after:]}"
    for part in parts:
        text = replace(part, function=f"{function}{suffix}").applied(text)
    return text


def typed_texts(edits):
    """Returns the texts of the files of a crate with all these edits. A function that several edits change has an
    edited copy for each after the first one."""
    texts, changed = {}, set()
    for number, edit in enumerate(edits):
        for file, function in dict.fromkeys((it.file, it.function) for it in edit.parts):
            parts = [it for it in edit.parts if (it.file, it.function) == (file, function)]
            text = texts.get(file) or source(edit.crate, file)
            if (file, function) in changed:
                texts[file] = with_copy(text, source(edit.crate, file), function, parts, f"_edit{number}")
                continue
            changed.add((file, function))
            for part in parts:
                text = part.applied(text)
            texts[file] = text
    return texts


def type_errors(name, edits):
    """Returns the compiler's errors in a crate with these edits, without the one that is added so that nothing is
    proved."""
    texts = typed_texts(edits)
    root = "src/main.rt" if is_program(name) else "src/lib.rt"
    texts.setdefault(root, source(name, root))
    own = f"{root}:{texts[root].count(chr(10)) + 3}:"
    texts[root] += "\nfn no_type() -> u8 {\n    true\n}\n"
    lines = check_texts(name, texts, [])
    errors = [it for it in lines if re.match(r"src/\S+: error", it)]
    others = [it for it in errors if not it.startswith(own)]
    return others if others or errors else [f"the compiler does not report the added error: {lines[-1:]}"]


def wrong_types(name, edits):
    """Returns the edits of a round that are not well typed, each with its first error."""
    try:
        errors = type_errors(name, edits)
    except (BadEdit, ValueError, OSError) as why:
        errors = [str(why)]
    if not errors:
        return []
    if len(edits) == 1:
        return [(edits[0], errors[0])]
    half = len(edits) // 2
    return wrong_types(name, edits[:half]) + wrong_types(name, edits[half:])


def tell_wrong_types(edits):
    """Prints each edit that is not well typed, and returns their number."""
    names = dict.fromkeys(it.crate for it in edits)
    with ThreadPoolExecutor(PROCESSORS) as pool:
        found = [pool.submit(wrong_types, name, one) for name in names
                 for one in typed_rounds([it for it in edits if it.crate == name])]
        wrong = [it for one in found for it in one.result()]
    for edit, why in wrong:
        print(f"edit {edit.crate}/{edit.name}: not well typed: {why}", flush=True)
    return len(wrong)
