"""What the programs print of bytes that a stranger chose, by the tables of Python: the second writing of `shown`."""
SHORT = {"\\": "\\\\", "\n": "\\n", "\r": "\\r", "\t": "\\t"}
# The characters that a program may leave out, the property Default_Ignorable_Code_Point.
IGNORABLE = (0xAD, 0x34F, 0x61C, 0x115F, 0x1160, 0x17B4, 0x17B5, *range(0x180B, 0x1810), *range(0x200B, 0x2010),
             *range(0x202A, 0x202F), *range(0x2060, 0x2070), 0x3164, *range(0xFE00, 0xFE10), 0xFEFF, 0xFFA0,
             *range(0xFFF0, 0xFFF9), *range(0x1BCA0, 0x1BCA4), *range(0x1D173, 0x1D17B), *range(0xE0000, 0xE1000))
IGNORED = frozenset(map(chr, IGNORABLE))


def shown(word: bytes) -> str:
    """A word as it is to be printed."""
    return "".join(map(shown_char, word.decode("utf-8", "surrogateescape")))


def shown_char(char: str) -> str:
    if "\udc80" <= char <= "\udcff":
        return f"\\x{ord(char) - 0xDC00:02x}"
    plain = char.isprintable() and char not in IGNORED and char != "\\"
    return char if plain else SHORT.get(char, f"\\u{{{ord(char):x}}}")


def is_of_lines(char: str) -> bool:
    """Whether a text that is printed may have the character: it is printable, or ends a line."""
    return char == "\n" or char == "\\" or shown_char(char) == char
