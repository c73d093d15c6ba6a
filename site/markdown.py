"""A page of the repository, written in Markdown, as HTML: what these pages use of it, and no more.

Headings, paragraphs, lists in lists, tables, quotations, listings, and within a line code, bold and
slanted words, links and pictures. A link is handed to `link`, which says where it leads, or None
where it leads nowhere on the site; a picture to `picture`, which gives its element.
"""
import collections, html, re

esc = html.escape
CODE, LINK = r"`+[^`]+`+", r"!?\[(?:[^\[\]`]|`[^`]*`)*\]\([^()\s]+\)"
INLINE = re.compile(rf"({CODE})|({LINK})|\*\*(.+?)\*\*|(?<![\w*])\*([^*\s][^*]*?)\*(?![\w*])")
ITEM = re.compile(r"( *)([-*]|\d+\.) +")


def slugs():
    """What headings are called in links, one after the other: as the pages' own links call them."""
    found = collections.Counter()

    def of(heading):
        words = re.sub(r"\[([^\]]*)\]\([^)]*\)", r"\1", heading).lower()
        slug = re.sub(r"[^\w\- ]", "", words).replace(" ", "-")
        found[slug] += 1
        return slug + (f"-{found[slug] - 1}" if found[slug] > 1 else "")

    return of


class Markdown:
    def __init__(self, link, picture):
        self.link, self.picture, self.slug = link, picture, slugs()

    def words(self, text):
        """The words of a line."""
        shown, at = [], 0
        for m in INLINE.finditer(text):
            shown.append(esc(text[at : m.start()], quote=False))
            code, link, bold, slanted = m.groups()
            if code:
                shown.append(f"<code>{esc(code.strip('`'), quote=False)}</code>")
            elif link:
                shown.append(self.linked(link))
            else:
                name, inner = ("b", bold) if bold else ("em", slanted)
                shown.append(f"<{name}>{self.words(inner)}</{name}>")
            at = m.end()
        return "".join(shown) + esc(text[at:], quote=False).replace("\\.", ".").replace("\\|", "|")

    def linked(self, text):
        label, target = re.fullmatch(r"!?\[(.*)\]\((.*)\)", text, re.S).groups()
        if text.startswith("!"):
            return self.picture(label, target)
        href, inner = self.link(target), self.words(label)
        return f'<a href="{esc(href)}">{inner}</a>' if href else inner

    def page(self, text):
        text = re.sub(r"(?m)^<!--.*?-->\n?", "", text, flags=re.S)
        return self.blocks(text.split("\n"))

    def blocks(self, lines):
        shown, at = [], 0
        while at < len(lines):
            line = lines[at]
            if not line.strip():
                at += 1
            elif line.lstrip().startswith("```"):
                end = at + 1
                while end < len(lines) and not lines[end].lstrip().startswith("```"):
                    end += 1
                shown.append(listing(lines[at + 1 : end]))
                at = end + 1
            elif line.startswith("    "):
                end = at
                while end < len(lines) and (lines[end].startswith("    ") or not lines[end].strip()):
                    end += 1
                shown.append(listing(lines[at:end]))
                at = end
            elif re.match(r"#+ ", line):
                level = len(line) - len(line.lstrip("#"))
                heading = line.lstrip("#").strip()
                shown.append(f'<h{level} id="{esc(self.slug(heading))}">{self.words(heading)}</h{level}>')
                at += 1
            elif line.startswith(">"):
                end = until(lines, at, lambda it: it.startswith(">"))
                inner = [re.sub(r"^> ?", "", it) for it in lines[at:end]]
                shown.append(f"<blockquote>{self.blocks(inner)}</blockquote>")
                at = end
            elif line.startswith("|"):
                end = until(lines, at, lambda it: it.startswith("|"))
                shown.append(self.table(lines[at:end]))
                at = end
            elif ITEM.match(line):
                html, at = self.items(lines, at)
                shown.append(html)
            else:
                end = until(lines, at, is_paragraph)
                shown.append(f"<p>{self.words(' '.join(it.strip() for it in lines[at:end]))}</p>")
                at = end
        return "\n".join(shown)

    def items(self, lines, at):
        """A list; what is set in below an item is part of it."""
        edge, mark = len(ITEM.match(lines[at])[1]), ITEM.match(lines[at])[2]
        kind, shown = "ol" if mark[0].isdigit() else "ul", []
        start = f' start="{int(mark[:-1])}"' if kind == "ol" and mark != "1." else ""
        while at < len(lines):
            m = ITEM.match(lines[at])
            if not m or len(m[1]) != edge or m[2][0].isdigit() != (kind == "ol"):
                break
            inside, end = [lines[at][m.end() :]], at + 1
            while end < len(lines):
                is_in = lines[end].startswith(" " * (edge + 1))
                goes_on = lines[end].strip() and lines[end - 1].strip() and is_paragraph(lines[end])
                after = next((it for it in lines[end:] if it.strip()), "")
                if not (is_in or goes_on or not lines[end].strip() and after.startswith(" " * (edge + 2))):
                    break
                set_in = len(m[0]) if lines[end][: len(m[0])].strip() == "" else len(lines[end]) - len(lines[end].lstrip())
                inside.append(lines[end][set_in:])
                end += 1
            inner = re.sub(r"^<p>(.*?)</p>", r"\1", self.blocks(inside), count=1, flags=re.S)
            shown.append(f"<li>{inner}</li>")
            at = end
            while at < len(lines) and not lines[at].strip() and at + 1 < len(lines) and ITEM.match(lines[at + 1]):
                at += 1
        return f"<{kind}{start}>{''.join(shown)}</{kind}>", at

    def table(self, lines):
        rows = [[it.strip() for it in re.split(r"(?<!\\)\|", line.strip().strip("|"))] for line in lines]
        head, names = rows[0], [re.sub(r"[`*]|\]\([^)]*\)|\[", "", it) for it in rows[0]]
        shown = "".join(f"<th>{self.words(it)}</th>" for it in head)
        body = []
        for row in rows[2:]:
            row += [""] * (len(head) - len(row))
            cells = [f'<td data-of="{esc(name)}">{self.words(it)}</td>' for name, it in zip(names, row)]
            body.append(f"<tr>{''.join(cells)}</tr>")
        return f"<table><thead><tr>{shown}</tr></thead><tbody>{''.join(body)}</tbody></table>"


def is_paragraph(line):
    return bool(line.strip()) and not re.match(r"#+ |[>|]|```", line.lstrip()) and not ITEM.match(line)


def until(lines, at, holds):
    end = at + 1
    while end < len(lines) and holds(lines[end]):
        end += 1
    return end


def listing(lines):
    while lines and not lines[-1].strip():
        lines = lines[:-1]
    edge = min((len(it) - len(it.lstrip()) for it in lines if it.strip()), default=0)
    # The lines of a drawing are not broken: a reader moves it sideways.
    opening = '<pre class="drawing" tabindex="0">' if any(sign in it for it in lines for sign in "│▶▼") else "<pre>"
    return f"{opening}{esc(chr(10).join(it[edge:] for it in lines), quote=False)}</pre>"
