#!/usr/bin/env python3
"""Breaks lines of the crates that are wider than 120 columns, where that changes no token.

    tools/columns.py            all .rt and .antt files of crates/
    tools/columns.py FILE..     these

Comments are filled again by paragraphs, imports become several, and clauses, definitions and laws go on in the next line,
four columns further in. Lines with long strings, and in strings, stay. Lay the crates out after it (`rt fmt`), and run it once more where
that made lines wider; attributes stay in one line, since the layout puts them together again.
"""
import glob
import os
import re
import sys

TOP = os.path.join(os.path.dirname(os.path.abspath(__file__)), "..")
WIDTH = 120
INSIDE = 4
OPENING, CLOSING = "([{⟦", ")]}⟧"
COMMENT = re.compile(r"(\s*(?:///|//!|//|--) ?)(.*)$")
IMPORT = re.compile(r"^(\s*(?:pub )?(?:ghost )?use [^{]*)\{([^{}]*)\}(;?)$")
ENDS_WELL = (",", "→", "=", "∷", "×", "⊎", "≡", "∙", "in", "++", "&&", "||", "{", ".")
LONG_STRING = re.compile(r'b?"[^"]{60,}')
QUOTE = re.compile(r"""(?<!\\)(?<!')"(?!')""")


def filled(prefix, text):
    """The lines of a paragraph of a comment."""
    lines, line = [], ""
    for word in text.split(" "):
        if line and len(prefix) + len(line) + 1 + len(word) > WIDTH:
            lines.append(prefix + line)
            line = word
        else:
            line = f"{line} {word}" if line else word
    return lines + [prefix + line]


def spaces(line):
    """The spaces outside strings and characters, each with the depth of brackets around it."""
    found, depth, at = [], 0, 0
    while at < len(line):
        sign = line[at]
        if sign == '"':
            at += 1
            while at < len(line) and line[at] != '"':
                at += 2 if line[at] == "\\" else 1
        elif sign == "'" and re.match(r"'(?:\\.|[^\\])'", line[at:]):
            at += 3 if line[at + 1] == "\\" else 2
        elif sign in OPENING:
            depth += 1
        elif sign in CLOSING:
            depth -= 1
        elif sign == " ":
            found.append((at, depth))
        at += 1
    return found


def worth(line, at, depth):
    """How good a place a space is to break a line at: outside of brackets, late, and after a sign that asks for more."""
    before, after = line[:at].rstrip(), line[at + 1:]
    points = at * 0.35 - depth * 40
    points += 18 if before.endswith(ENDS_WELL) else 0
    points += 10 if before.endswith("→") else 6 if before.endswith(",") else 0
    points -= 12 if after.startswith(("→", "=", "≡", "×")) else 0
    points -= 60 if before.endswith(("λ", "let", "if", "then")) else 0
    points -= 200 if not after.strip(CLOSING + ";, ") else 0
    binder = before.rfind("λ")
    points -= 60 if binder >= 0 and "." not in before[binder:] else 0
    return points


def broken(line, margin):
    """The lines that a line becomes; those after the first begin at the margin."""
    if len(line) <= WIDTH:
        return [line]
    least = max(len(line) - len(line.lstrip()) + 20, margin + 8)
    far = [(at, depth) for at, depth in spaces(line) if at > least]
    near = [(at, depth) for at, depth in far if at <= WIDTH] or far[:1]
    if not near:
        return [line]
    at, _ = max(near, key=lambda place: worth(line, *place))
    return [line[:at].rstrip()] + broken(" " * margin + line[at + 1:].lstrip(), margin)


def imports(head, names, end):
    """One import as several, none of them too wide."""
    lines, taken = [], []
    for name in (name.strip() for name in names.split(",") if name.strip()):
        if taken and len(f"{head}{{{', '.join(taken + [name])}}}{end}") > WIDTH:
            lines.append(f"{head}{{{', '.join(taken)}}}{end}")
            taken = []
        taken.append(name)
    return lines + [f"{head}{{{', '.join(taken)}}}{end}"]


def is_plain(text):
    """Whether a line of a comment is text, and no list, table or further in."""
    return bool(text) and not re.match(r"( |[-*|#`]|[0-9]+\.)", text)


def begins(line, is_code):
    """Whether a line begins a clause, a statement or a definition, and doesn't go on with one."""
    if is_code:
        return bool(re.match(r"\s*(#\[|\w)", line))
    return not line.startswith(" ") or bool(re.match(r"\s*(pub |abbrev |unfoldable |record )|\s*[\w«»'-]+ .*[:=]( |$)", line))


def comment(lines, at):
    """The lines of the paragraph that begins at a comment, as they are to be, and the number of the line after it."""
    prefix, text = COMMENT.match(lines[at]).groups()
    end, texts = at + 1, [text]
    while is_plain(text) and end < len(lines):
        more = COMMENT.match(lines[end])
        if not more or more.group(1).rstrip() != prefix.rstrip() or not is_plain(more.group(2)):
            break
        texts.append(more.group(2))
        end += 1
    if all(len(line) <= WIDTH for line in lines[at:end]):
        return lines[at:end], end
    return filled(prefix.rstrip() + " ", " ".join(text.strip() for text in texts)), end


def laid_out(lines, is_code):
    """A file's lines, none of them too wide but those that stay."""
    out, at, in_string = [], 0, False
    while at < len(lines):
        line = lines[at]
        turns = is_code and len(QUOTE.findall(line)) % 2 == 1
        if in_string or (turns and not re.match(r"\s*//", line)):
            in_string ^= turns
            out.append(line)
            at += 1
            continue
        if re.match(r"\s*(//|--)", line):
            paragraph, at = comment(lines, at)
            out += paragraph
            continue
        at += 1
        has_comment = " -- " in line or (is_code and "//" in line and '"' not in line)
        if len(line) <= WIDTH or has_comment or (is_code and LONG_STRING.search(line)):
            out.append(line)
        elif IMPORT.match(line):
            out += imports(*IMPORT.match(line).groups())
        else:
            margin = len(line) - len(line.lstrip())
            out += broken(line, margin + INSIDE if begins(line, is_code) else margin)
    return out


def main():
    files = sys.argv[1:] or [path for form in ("src/*.rt", "specs/**/*.antt", "proofs/**/*.antt")
                             for path in glob.glob(os.path.join(TOP, "crates", "*", form), recursive=True)]
    changed = 0
    for path in files:
        with open(path, encoding="utf-8") as file:
            text = file.read()
        new = "\n".join(laid_out(text.split("\n"), path.endswith(".rt")))
        if new != text:
            changed += 1
            with open(path, "w", encoding="utf-8") as file:
                file.write(new)
    print(f"{changed} files changed")


if __name__ == "__main__":
    main()
