#!/usr/bin/env python3
"""Makes a manual page of a Markdown page of docs/.

    man_page.py NAME SUMMARY PAGE > NAME.1

It knows what those pages have: headings, paragraphs, fenced and indented code, lists, tables, `code`, **strong** and *stressed* words.
A row of a table becomes a paragraph behind its first cell; where a table has more than two columns, the heading of each further one
stands before its cell.
"""

import re
import sys


def escape(text):
    return text.replace("\\", "\\e").replace("-", "\\-")


def inline(text):
    """A line of prose as roff."""
    out = ""
    for k, part in enumerate(re.split(r"`([^`]+)`", text)):
        if k % 2:
            out += "\\fB" + escape(part) + "\\fP"
        else:
            part = re.sub(r"\*\*(.+?)\*\*", r"\\fB\1\\fP", part.replace("\\|", "|").replace("\\", "\\e"))
            out += re.sub(r"\*(.+?)\*", r"\\fI\1\\fP", part)
    return ("\\&" + out) if out[:1] in (".", "'") else out


def code(lines):
    return [".PP", ".RS 4", ".nf", *("\\&" + escape(line) for line in lines), ".fi", ".RE"]


def table(rows):
    """Rows of cells, the first of them the headings."""
    cells = [[c.strip() for c in re.split(r"(?<!\\)\|", row.strip().strip("|"))] for row in rows]
    headings, out = cells[0], []
    for row in cells[2:]:
        further = [f"{inline(h)}: {inline(c)}." for h, c in zip(headings[2:], row[2:])]
        out += [".TP", inline(row[0]), inline(row[1]), *(line for it in further for line in (".br", it))]
    return out


def page(text):
    """The body of the page, behind its title."""
    out, lines, k = [], text.split("\n")[1:], 0

    def take(test, strip=0):
        nonlocal k
        taken = []
        while k < len(lines) and test(lines[k]):
            taken.append(lines[k][strip:])
            k += 1
        return taken

    while k < len(lines):
        line = lines[k]
        if line.startswith("#"):
            k += 1
            out.append(f'.SH "{escape(line.lstrip("# ").replace("`", "")).upper()}"')
        elif line.startswith("```"):
            k += 1
            out += code(take(lambda it: not it.startswith("```")))
            k += 1
        elif line.startswith("    "):
            out += code(take(lambda it: it.startswith("    "), 4))
        elif line.startswith("|"):
            out += table(take(lambda it: it.startswith("|")))
        elif re.match(r"- |\d+\. ", line):
            sign, rest = line.split(" ", 1)
            k += 1
            out += [".IP \\(bu 2" if sign == "-" else f".IP {sign} 4", inline(rest)]
        elif line:
            k += 1
            out += [".PP", inline(line)]
        else:
            k += 1
    return out


def main():
    if len(sys.argv) != 4:
        sys.exit(__doc__)
    name, summary, path = sys.argv[1:]
    with open(path, encoding="utf-8") as file:
        body = page(file.read())
    head = [f".TH {name.upper()} 1", ".SH NAME", f"{escape(name)} \\- {summary}", ".SH DESCRIPTION"]
    print("\n".join(head + body))


if __name__ == "__main__":
    main()
