"""Rows for servers as in `serve`, with single calls beside the lines of a script:

- `take CONNECTION BYTES` has the result `COUNT nothing`, `COUNT message` or `COUNT stopped`, with the number of bytes
  taken, or `nosuch`. If allocation fails, the result is `memory` and the number of bytes taken before.
- `written CONNECTION COUNT` removes written bytes from the queue, with the result `ok`, `toomany` or `nosuch`.
- `part CONNECTION` has a prefix of the queued bytes as its result, or `nosuch`.
- `announce CONNECTION SIZE` announces a larger Max-Message-Size, with the result `ok` or one word for the error.
"""

from layers import serve

LOOKS = serve.LOOKS

steps = serve.steps


def again(play, events, index, found):
    """Returns the event to repeat after an allocation failure: for a `take`, with the bytes that were not taken."""
    if not events[index].startswith("take "):
        return serve.again(play, events, index, found)
    _, connection, digits = events[index].split(" ")
    return f"take {connection} {digits[2 * int(serve.answer_of(found[index]).split()[1]) :]}"


def struck(step, line, again, line_again):
    """Returns the differences after an allocation failure: both calls of a `take` must together take the bytes of the
    whole event."""
    if not step.event.startswith("take "):
        return serve.struck(step, line, again, line_again)
    (_, before), (count, handled) = serve.answer_of(line).split(), serve.answer_of(line_again).split()
    return [] if f"{int(before) + int(count)} {handled}" == step.wanted else [f"{again}: {line_again}"]


def refused(event, line, again):
    """Returns the call whose allocation failed, and the state that is left."""
    if event.startswith("announce "):
        return "`Server::announce`", serve.AS_BEFORE
    return ("`Server::take`", serve.BUT_THE_LAST) if event.startswith("take ") else serve.refused(event, line, again)
