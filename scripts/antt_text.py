"""Texts of antt as the checks read them."""
import re


def plain(text):
    """An antt text without its comments: `--` to the end of a line, and `{- .. -}`, which may be nested."""
    out, depth, i = [], 0, 0
    while i < len(text):
        pair = text[i : i + 2]
        if pair == "{-":
            depth, i = depth + 1, i + 2
        elif pair == "-}" and depth:
            depth, i = depth - 1, i + 2
        else:
            out.append(text[i] if depth == 0 or text[i] == "\n" else " ")
            i += 1
    return re.sub(r"(?:(?<=\s)|^)--[^\n]*", "", "".join(out), flags=re.M)
