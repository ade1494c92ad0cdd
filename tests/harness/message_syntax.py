"""Converts the bytes and messages that rows have in words to hex digits.

Bytes in a row are hex digits. In the same word, these forms can be used too:

    -                         no bytes, alone in its word
    ff+3*7879+00              parts with `+` between them; a count and `*` before a part repeat it
    'coap+tcp'                the bytes of a text
    (GET /time observe 0)     a message in words, encoded as in RFC 8323 section 3.2 and RFC 8974 section 2.1

A message in words is its code (`GET`, `CSM`, `2.05`), `token HEX`, its options, and its payload after ` | `. A path
`/a/b` is two options Uri-Path, and `/` is none. An option is a name, followed by its value unless the option is always
empty. A value is a number, a text between two `'`, hex digits, or `-` for an empty value. `option 9 ff` is an option
with any number. The options are encoded in the order of their numbers.
"""

import re

CODES = {
    "Empty": 0x00, "GET": 0x01, "POST": 0x02, "PUT": 0x03, "DELETE": 0x04, "FETCH": 0x05, "PATCH": 0x06, "iPATCH": 0x07,
    "CSM": 0xE1, "Ping": 0xE2, "Pong": 0xE3, "Release": 0xE4, "Abort": 0xE5,
}

# Number of each option of requests and responses, and whether its value is a number; None if it is always empty.
OPTIONS = {
    "if-match": (1, False), "uri-host": (3, False), "etag": (4, False), "if-none-match": (5, None),
    "observe": (6, True), "uri-port": (7, True), "location-path": (8, False), "uri-path": (11, False),
    "content-format": (12, True), "max-age": (14, True), "uri-query": (15, False), "accept": (17, True),
    "location-query": (20, False), "proxy-uri": (35, False), "proxy-scheme": (39, False), "size1": (60, True),
    # The options of signalling messages.
    "max-message-size": (2, True), "custody": (2, None), "block-wise-transfer": (4, None),
    "alternative-address": (2, False), "hold-off": (4, True), "bad-csm-option": (2, True),
    "extended-token-length": (6, True),
}


def uint(number):
    """Returns the shortest encoding of a number (RFC 7252 section 3.2)."""
    return number.to_bytes((number.bit_length() + 7) // 8, "big")


def nibble(value):
    """Returns the nibble and the extension bytes of a number (RFC 7252 section 3.1, RFC 8974 section 2.1).

    The number is an option delta, an option length or a token length.
    """
    if value < 13:
        return value, b""
    if value < 269:
        return 13, bytes([value - 13])
    return 14, (value - 269).to_bytes(2, "big")


def encoded(code, token, options, payload):
    """Returns the encoding of a message whose options are in order."""
    body, last = b"", 0
    for number, value in options:
        (delta, more), (length, further) = nibble(number - last), nibble(len(value))
        body += bytes([delta << 4 | length]) + more + further + value
        last = number
    body += b"\xff" + payload if payload else b""
    size = len(body)
    if size < 13:
        head, more = size, b""
    elif size < 269:
        head, more = 13, bytes([size - 13])
    elif size < 65_805:
        head, more = 14, (size - 269).to_bytes(2, "big")
    else:
        head, more = 15, (size - 65_805).to_bytes(4, "big")
    token_head, after_code = nibble(len(token))
    return bytes([head << 4 | token_head]) + more + bytes([code]) + after_code + token + body


def requested(code, token, path, options=(), payload=b""):
    """Returns a message whose options are in any order. The path is a text, or its segments."""
    segments = [it for it in path.split("/") if it] if isinstance(path, str) else path
    named = [(OPTIONS["uri-path"][0], it.encode()) for it in segments]
    return encoded(code, token, sorted([*named, *options], key=lambda it: it[0]), payload)


def code_of(word):
    """Returns the byte of a code in words."""
    if word in CODES:
        return CODES[word]
    class_, detail = word.split(".")
    return int(class_) << 5 | int(detail)


def value_of(word, is_number):
    """Returns the bytes of an option value."""
    return uint(int(word)) if is_number and word.isdigit() else bytes_of(word)


def parts_of(words):
    """Returns the token in these words, and the options in the order of their numbers."""
    token, options, words = b"", [], iter(words)
    for word in words:
        if word.startswith("/"):
            options += [(11, segment.encode()) for segment in word[1:].split("/") if word != "/"]
        elif word == "token":
            token = bytes_of(next(words))
        elif word == "option":
            number = int(next(words))
            options.append((number, bytes_of(next(words))))
        else:
            number, is_number = OPTIONS[word]
            options.append((number, b"" if is_number is None else value_of(next(words), is_number)))
    return token, sorted(options, key=lambda option: option[0])


def message_of(text):
    """Returns the encoding of a message in words."""
    head, _, payload = text.partition(" | ")
    words = re.findall(r"(?:'[^']*'|[^\s'])+", head)
    return encoded(code_of(words[0]), *parts_of(words[1:]), bytes_of(payload) if payload else b"")


def bytes_of(word):
    """Returns the bytes that a word names."""
    return bytes.fromhex("" if word == "-" else digits(word))


def digits(word):
    """Returns the hex digits for a word of bytes."""
    word = re.sub(r"\(([^()]*)\)", lambda message: message_of(message[1]).hex(), word)
    word = re.sub(r"'([^']*)'", lambda text: text[1].encode().hex(), word)
    parts = []
    for part in word.split("+"):
        count, star, repeated = part.rpartition("*")
        parts.append(repeated * int(count) if star else part)
    return "".join(parts)


# Matches a word of bytes that is not only hex digits.
WRITTEN = re.compile(r".*[('].*|[0-9a-f+]*\d+\*[0-9a-f+*]+|[0-9a-f]+(\+[0-9a-f]+)+")


def spelled(text):
    """Returns the text with hex digits in place of every word of bytes."""
    words = re.findall(r"(?:\([^()]*\)|'[^']*'|[^\s'(])+", text)
    return " ".join(digits(word) if WRITTEN.fullmatch(word) else word for word in words)
