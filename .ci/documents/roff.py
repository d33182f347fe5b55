"""Makes a manual page of a document in Markdown: headings, paragraphs, lists, tables and blocks of code, as the documents have them."""
import re


def escaped(text):
    """A text for roff, with nothing in it that roff would read as its own."""
    text = text.replace("\\", "\\e").replace("-", "\\-")
    return re.sub(r"^([.'])", r"\\&\1", text, flags=re.M)


def inline(text):
    """The lines of a paragraph in Markdown: code and what is strong become bold, what is stressed italic, a link its text, also over the
    end of a line."""
    text = re.sub(r"\[([^\]]+)\]\([^)]+\)", r"\1", text)
    parts = re.split(r"(`[^`]+`|\*\*[^*]+\*\*|(?<![\w*])\*\w[^*]*\w\*(?![\w*]))", text)
    told = []
    for at, it in enumerate(parts):
        letter = "I" if re.match(r"\*\w", it) else "B"
        told.append(f"\\f{letter}{escaped(it.strip('`*'))}\\fR" if at % 2 else escaped(it))
    return re.sub(r"^([.'])", r"\\&\1", "".join(told).replace("\\&", ""), flags=re.M)


def paragraph(lines, at):
    """The end of the paragraph, or the item of a list, that begins at a line."""
    other = re.compile(r"\s*$|```|\||#|\s*(?:[-*]|\d+\.)\s")
    return next((k for k in range(at + 1, len(lines)) if other.match(lines[k])), len(lines))


def table(rows):
    """A table: its first column is a tag, the others stand below it, each behind its heading."""
    cells = [[cell.strip() for cell in re.split(r"(?<!\\)\|", row.strip().strip("|"))] for row in rows]
    heads, out = cells[0], []
    for row in cells[2:]:
        rest = "; ".join(f"{head}: {cell}" if head and len(row) > 2 else cell for head, cell in list(zip(heads, row))[1:] if cell)
        out.append(f".TP\n{inline(row[0])}\n{inline(rest)}" if row[0] else f".IP\n{inline(rest)}")
    return out


def page_of(text, name, number, version):
    """The manual page of a document."""
    lines, at = text.split("\n"), 1
    title = lines[0].removeprefix("# ")
    out = [f'.\\" Written by .ci/documents/pages.py from a document.\n.TH {name.upper()} {number} "" "abt {version}" "File Formats"']
    out.append(f".SH NAME\n{name} \\- {escaped(title[0].lower() + title[1:])}\n.SH DESCRIPTION")
    while at < len(lines):
        line, end = lines[at], at + 1
        if line.startswith("```"):
            end = lines.index("```", at + 1) + 1
            out += [".PP\n.nf\n.RS 4", *(escaped(it) or "\\&" for it in lines[at + 1 : end - 1]), ".RE\n.fi"]
        elif line.startswith("|"):
            end = next((k for k in range(at, len(lines)) if not lines[k].startswith("|")), len(lines))
            out += table(lines[at:end])
        elif line.startswith("#"):
            depth, heading = re.match(r"(#+)\s+(.*)", line).groups()
            out.append(f"{'.SH' if len(depth) == 2 else '.SS'} {inline(heading)}")
        elif not line.strip():
            out.append(".PP")
        else:
            end = paragraph(lines, at)
            item = re.match(r"\s*(?:[-*]|\d+\.)\s+", line)
            told = "\n".join(it.strip() for it in [line[item.end() if item else 0 :], *lines[at + 1 : end]])
            out.append(f".IP \\(bu 2\n{inline(told)}" if item else inline(told))
        at = end
    return "\n".join(merged(out)) + "\n"


def merged(lines):
    """Lines without a paragraph's beginning where another request begins one anyway, or nothing follows."""
    for at, line in enumerate(lines):
        behind = lines[at + 1] if at + 1 < len(lines) else ".SH"
        if line == ".PP" and behind.startswith((".SH", ".SS", ".TP", ".IP", ".PP")):
            continue
        if line == ".PP" and at and lines[at - 1].startswith((".SH", ".SS")):
            continue
        yield line
