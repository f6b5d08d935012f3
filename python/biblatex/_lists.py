"""Lists in the text of a field."""

from __future__ import annotations


from ._values import Chunk

# the white space of Unicode; `str.strip` removes other characters too
_WHITE = "\t\n\v\f\r \x85\xa0\u1680\u2000\u2001\u2002\u2003\u2004\u2005\u2006\u2007\u2008\u2009\u200a\u2028\u2029\u202f\u205f\u3000"


def comma_texts(chunks: list[Chunk]) -> list[str]:
    """Returns the texts between the commas of normal chunks, without the white space around a comma, like the library."""
    texts = [""]
    for chunk in chunks:
        if chunk.kind != "normal":
            texts[-1] += f"${chunk.text}$" if chunk.kind == "math" else chunk.text
            continue
        pieces = chunk.text.split(",")
        for index, piece in enumerate(pieces):
            if index > 0:
                texts.append("")
                piece = piece.lstrip(_WHITE)
            texts[-1] += piece.rstrip(_WHITE) if index < len(pieces) - 1 else piece
    return texts
