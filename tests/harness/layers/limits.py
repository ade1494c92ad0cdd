"""Rows for limits of connections, which need no value: `= limits`.

A row has the six limits in the order of `Limits::new`. The expected result has each as its accessor returns it, or the
name, the number and the text of the error. The result of `faults send` has the errors of sending Release. The result of
`faults reasons` has the reasons for which connections stop, with their numbers.
"""

from layers import Step, quoted


def steps(opening, rows):
    yield Step("= limits", "")
    for row in rows:
        event, _, wanted = row.partition(" => ")
        yield Step(event, wanted, quoted)
