"""Pages in Markdown as manuals in man(7)."""
import re

INLINE = re.compile(r"(?P<code>`+)(?P<coded>.+?)(?P=code)|\*\*(?P<strong>.+?)\*\*|(?<![\w*])\*(?P<soft>[^*\s][^*]*)\*|!\[[^\]]*\]\([^)]*\)|\[(?P<text>(?:`[^`]*`|[^\]`])*)\]\((?P<goal>[^()\s]*(?:\([^()]*\))?[^()\s]*)\)")
FONT = re.compile(r"\\f[BIR]")
ITEM = re.compile(r"( *)(?:[-*]|\d+\.) +")
WIDTH = 78


def escaped(text, minus="-"):
    """Text as man(7) wants it, whatever it has."""
    text = text.replace("\\", "\\e").replace("-", minus).replace("^", "\\(ha").replace("~", "\\(ti").replace("`", "\\(ga")
    text = text.replace('"', "\\(dq") if minus == "\\-" else text
    return "".join(it if ord(it) < 128 else f"\\[u{ord(it):04X}]" for it in text)


def literal(text):
    return escaped(text, "\\-").replace("'", "\\(aq")


def filled(text):
    """Lines of a text of man(7), none longer than the width where it has a blank to break at, and none that is taken for a request."""
    lines = [""]
    for word in text.split():
        if lines[-1] and len(lines[-1]) + 1 + len(word) > WIDTH:
            lines.append("")
        lines[-1] += f"{' ' * bool(lines[-1])}{word}"
    return [f"\\&{it}" if it[:1] in (".", "'", "") else it for it in lines]


class Page:
    """A page that becomes a part of a manual; `goal_of` says where one finds what a link of it leads to, and its headings stand so much deeper."""

    def __init__(self, text, goal_of, depth=0):
        self.lines, self.goal_of, self.depth, self.made = text.splitlines(), goal_of, depth, []

    # ---- within a line
    def inline(self, text):
        """Text with its code, stress and links; what stands in code is bold, as it is typed."""
        made, at = [], 0
        for it in INLINE.finditer(text):
            made += [escaped(text[at : it.start()]), self.marked(it)]
            at = it.end()
        return "".join(made) + escaped(text[at:])

    def marked(self, it):
        if it["coded"] is not None:
            return f"\\fB{literal(it['coded'])}\\fR"
        if it["strong"] is not None or it["soft"] is not None:
            return f"\\fI{FONT.sub('', self.inline(it['strong'] or it['soft']))}\\fR"
        if it["text"] is None:
            return ""
        goal, page = self.goal_of(it["goal"]), re.fullmatch(r"(?:.*/)?([^/]*)\.md(?:#.*)?", it["goal"])
        # a text that is the name of the page says no more than where one finds it
        if page and it["text"].strip("`").removesuffix(".md") == page[1]:
            return escaped(goal or page[1])
        return f"{self.inline(it['text'])} ({escaped(goal)})" if goal else self.inline(it["text"])

    def put(self, text):
        self.made += filled(self.inline(text))

    def request(self, *words):
        self.made.append(" ".join(words))

    def begin_paragraph(self):
        """A heading, and a place that is set in, begin one by themselves."""
        if self.made and not self.made[-1].startswith((".SH", ".SS", ".RS")):
            self.request(".PP")

    # ---- blocks
    def manual(self):
        """The requests that the page becomes, its first heading left out."""
        self.blocks(self.lines)
        return self.made

    def blocks(self, lines):
        while lines:
            first = lines[0]
            if not first.strip():
                lines = lines[1:]
            elif first.startswith("#"):
                self.heading(first)
                lines = lines[1:]
            else:
                take = self.code if first.lstrip().startswith("```") else self.table if first.startswith("|") else self.items if ITEM.match(first) else self.paragraph
                lines = take(lines)

    def heading(self, line):
        depth, text = len(line) - len(line.lstrip("#")) + self.depth, self.inline(line.lstrip("# ")).replace('"', "\\(dq")
        # an escape has small letters of its own
        shown = text.upper() if depth == 2 and "\\" not in text else text
        if depth > 1:
            self.request(".SH" if depth == 2 else ".SS", f'"{shown}"')

    def paragraph(self, lines):
        text = []
        while lines and lines[0].strip() and not lines[0].startswith(("#", "|", "```")) and not (text and ITEM.match(lines[0])):
            text, lines = [*text, lines[0].strip()], lines[1:]
        if self.inline(" ".join(text)).strip():
            self.begin_paragraph()
            self.put(" ".join(text))
        return lines

    def code(self, lines):
        indent = len(lines[0]) - len(lines[0].lstrip())
        end = next((at for at, it in enumerate(lines) if at and it.strip() == "```"), len(lines))
        self.begin_paragraph()
        self.made += [".in +4n", ".nf", ".ft B"]
        for it in lines[1:end]:
            text = literal(it[indent:] if not it[:indent].strip() else it).rstrip()
            self.made.append(f"\\&{text}" if text[:1] in (".", "'", "") else text)
        self.made += [".ft R", ".fi", ".in"]
        return lines[end + 1 :]

    def items(self, lines):
        """A list: each item is what is indented below its mark, which may be text, code or a list."""
        mark = ITEM.match(lines[0])
        depth, width = len(mark[1]), len(mark[0])
        while lines and (it := ITEM.match(lines[0])) and len(it[1]) == depth:
            width, body, lines = len(it[0]), [lines[0][len(it[0]) :]], lines[1:]
            while lines and (lines[0].startswith(" " * (depth + 1)) or not lines[0].strip() and len(lines) > 1 and lines[1].startswith(" " * (depth + 2))):
                body, lines = [*body, lines[0][min(width, len(lines[0]) - len(lines[0].lstrip())) :]], lines[1:]
            number = it[0].strip()
            self.request(".IP", number if number[0].isdigit() else "\\(bu", "4" if number[0].isdigit() else "2")
            self.item(body)
            while lines and not lines[0].strip() and len(lines) > 1 and (it := ITEM.match(lines[1])) and len(it[1]) == depth:
                lines = lines[1:]
        return lines

    def item(self, body):
        """The first text of an item stands beside its mark, what follows is set in."""
        end = next((at for at, it in enumerate(body) if at and (not it.strip() or ITEM.match(it) or it.startswith("```"))), len(body))
        self.put(" ".join(it.strip() for it in body[:end]))
        if any(it.strip() for it in body[end:]):
            self.request(".RS")
            self.blocks(body[end:])
            self.request(".RE")

    def table(self, lines):
        """Of a table each row is an item under its first cell; a cell further on has its heading before it, if there are several."""
        end = next((at for at, it in enumerate(lines) if not it.startswith("|")), len(lines))
        rows = [[it.strip().replace("\\|", "|") for it in re.split(r"(?<!\\)\|", line.strip())[1:-1]] for line in lines[:end]]
        head = rows[0]
        for row in rows[2:]:
            tag, cells = filled(self.inline(row[0])), [(name, it) for name, it in zip(head[1:], row[1:]) if it]
            named = len(head) > 2
            text = filled(self.inline("; ".join(f"{name}: {it}" if named and name else it for name, it in cells)))
            # a tag is one line
            self.made += [".TP", *tag, *text] if len(tag) == 1 else [".PP", *tag, ".RS", *text, ".RE"]
        return lines[end:]


def manual(name, section, title, date, version, parts):
    """A manual of parts, each a list of lines."""
    head = [f'.TH {name.upper()} {section} {date} "dagsched {version}" "{title}"']
    return "\n".join([*head, *(line for part in parts for line in part)]) + "\n"
