"""Assembler for rule images.

A constructor of a row gives the bytes of that row; nothing is checked, so that
unlawful images can be built too. An image is a list of pieces (bytes): the
fixed part of the header, the counts, then one piece for each row and for each
entry of the name text. docs/IMAGE.md describes the format.
"""

from itertools import groupby

# In the place of an expression: none. In the place of a block: an empty block.
NONE = 0xFFFF

# A name is a pair of offset and length in the name text.
NO_NAME = (0, 0)

# Flags of a statement row.
CONSTANT = 1
NEGATED = 4
BREAK = 8

# Operator of an assignment that only stores.
PLAIN = 0


def word(number):
    """A 16-bit field."""
    return number.to_bytes(2, "little")


def words(numbers):
    return b"".join(word(number) for number in numbers)


# Block rows


def block_row(first, count):
    return words([first, count])


# Expression rows


def expression_row(kind, *, line=0, column=0, code=0, unread=0):
    return bytes([kind, unread]) + words([line, column, code])


def host(code=0, *, line=0, column=0):
    return expression_row(0, line=line, column=column, code=code)


def unit(**fields):
    return expression_row(1, **fields)


def false(**fields):
    return expression_row(2, **fields)


def true(**fields):
    return expression_row(3, **fields)


# Statement rows: each constructor asks for what its kind reads, and takes any
# other field of the row by its name.


def statement_row(
    kind, *, flags=0, line=0, column=0, e=NONE, p=NONE, q=NONE, name=NO_NAME, r=0, t=0
):
    offset, length = name
    return bytes([kind, flags]) + words([line, column, e, p, q, offset, length, r, t])


def noop(**fields):
    return statement_row(0, **fields)


def expr(*, e, **fields):
    return statement_row(1, e=e, **fields)


def block(*, p, **fields):
    return statement_row(2, p=p, **fields)


def assignment(*, name, e, operator=PLAIN, index=0, **fields):
    return statement_row(3, name=name, e=e, q=operator, r=index, **fields)


def var(*, name, e, index=0, **fields):
    return statement_row(4, name=name, e=e, r=index, **fields)


def if_(*, e, p=NONE, q=NONE, **fields):
    return statement_row(5, e=e, p=p, q=q, **fields)


def while_(*, e, p=NONE, **fields):
    return statement_row(7, e=e, p=p, **fields)


def do(*, e, p=NONE, **fields):
    return statement_row(8, e=e, p=p, **fields)


def for_(*, name, e, p=NONE, counter=NO_NAME, **fields):
    offset, length = counter
    return statement_row(9, name=name, e=e, p=p, r=offset, t=length, **fields)


def break_loop(*, e=NONE, flags=BREAK, **fields):
    return statement_row(10, e=e, flags=flags, **fields)


def try_catch(*, p=NONE, q=NONE, name=NO_NAME, **fields):
    return statement_row(11, p=p, q=q, name=name, **fields)


def return_(*, e=NONE, **fields):
    return statement_row(12, e=e, **fields)


def import_(*, e, name=NO_NAME, **fields):
    return statement_row(13, e=e, name=name, **fields)


# Images


def header(counts, *, mark=b"RHS", version=1, zero=0):
    return [mark + word(version) + bytes([zero]), words(counts)]


def image(*, blocks, statements=(), expressions=(), names=(), counts=None, **fixed):
    """An image from its rows; `names`, one behind the other, are the name text.

    `counts` replaces the true counts, and `fixed` parts of the header.
    """
    text = [name.encode("latin-1") for name in names]
    tables = [*blocks, *statements, *expressions, *text]
    true_counts = (len(blocks), len(statements), len(expressions), sum(map(len, text)))
    return header(counts or true_counts, **fixed) + tables


def rule(*bodies, expressions=(), names=(), **other):
    """An image whose block i has the statements of the i-th body."""
    rows, statements = [], []
    for body in bodies:
        rows.append(block_row(len(statements), len(body)))
        statements.extend(body)
    return image(
        blocks=rows, statements=statements, expressions=expressions, names=names, **other
    )


def to_bytes(pieces):
    return b"".join(pieces)


def cut(pieces, length):
    """The first bytes of an image."""
    return [to_bytes(pieces)[:length]]


def to_segments(pieces):
    """Hexadecimal segments; equal pieces in a row become one with a count."""
    segments = []
    for piece, equal in groupby(piece for piece in pieces if piece):
        count = len(list(equal))
        segments.append(piece.hex() if count == 1 else f"{piece.hex()}*{count}")
    return segments
