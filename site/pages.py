"""The pages beside the reading site: try.html, the library in the browser, and break.html, the
wrong programs. tools/site makes them.

Their texts, styles and scripts are files of their own, in site/. What is filled in here comes of
the sources: the module of tools/wasm, the clauses with their links into the reading site, and each
wrong program with what the prover said of it, as tools/refusals recorded it.
"""
import base64, collections, difflib, html, json, os, re

esc = html.escape
RECORD, STORY, CLAUSES = "site/refusals.json", "site/break/story.json", "site/try/clauses.json"


def text(path):
    with open(path, encoding="utf-8") as it:
        return it.read()


def filled(page, parts):
    """A page with each of its places filled, every one of them once."""
    for place in re.findall(r"<!--([A-Z]+)-->", page):
        if page.count(f"<!--{place}-->") != 1 or place not in parts:
            raise ValueError(f"the place {place} is filled by nothing, or stands twice")
    return re.sub(r"<!--([A-Z]+)-->", lambda m: parts[m[1]], page)


def short(words, most):
    words = " ".join(words.split())
    return words if len(words) <= most else words[:most].rsplit(" ", 1)[0] + " .."


# ---- links into the reading site


class Links:
    """Where the reading site has a name or a sentence; `site` is the one of tools/site, which makes
    a page of each file that is linked."""

    def __init__(self, site, page_of, documents):
        self.site, self.page_of, self.documents = site, page_of, documents
        # The sentences whose answers name what stands at a line of a file.
        self.by_place = {place: list(sentences) for place, sentences in site.cited.items()}

    def file(self, path, line=0):
        self.site.files.add(path)
        return self.page_of(path) + (f"#L{line}" if line else "")

    def place(self, crate, name):
        """The path and the line of a name, or None."""
        return self.site.definitions.place(crate, name)[0]

    def name(self, where, answer):
        """The link of `crate: name`; one that is not there is a problem of the site."""
        crate, name = answer.split(": ")
        place, wrong = self.site.definitions.place(crate, name)
        if wrong:
            self.site.problems.append(f"{where}: {wrong}")
            return "index.html"
        return self.file(*place)

    def sentence(self, where, document, words):
        for it in self.site.sentences:
            if it.document == document and it.row.sentence == words:
                return self.of(it)
        self.site.problems.append(f"{where}: {document} has no such sentence: {words}")
        return "index.html"

    def of(self, sentence):
        return f"{self.documents[sentence.document][1]}#{sentence.id}"

    def called(self, sentence):
        return f"{self.documents[sentence.document][0]}: {sentence.number}"

    def proved(self, where, it):
        """The links of a clause: its sentence, definition and law."""
        shown = [anchor(self.sentence(where, *it["sentence"]), "the sentence")]
        for kind, words in (("definition", "its definition, "), ("law", "a law of it, ")):
            code = tag("code", esc(it[kind].split(": ")[1]))
            shown.append(anchor(self.name(where, it[kind]), words + code))
        return shown


def tag(name, inner, **attributes):
    """An element; `class_` is its class, and `data_words` its data-words."""
    shown = [f' {key.rstrip("_").replace("_", "-")}="{esc(it)}"' for key, it in attributes.items()]
    return f"<{name}{''.join(shown)}>{inner}</{name}>"


def anchor(href, words):
    return tag("a", words, href=href)


def small(words):
    return tag("p", words, class_="small")


def coded(words):
    return re.sub(r"`([^`]+)`", r"<code>\1</code>", esc(words, quote=False))


# ---- try.html

CONTRACTS = ("vd_handle", "vd_take", "vd_handler_fresh", "vd_convert_set2", "vd_character")
SCRIPTS = ("library", "keyboard", "page")


def try_page(links, module):
    """The page with the library, or without one where there is none that is of the sources."""
    clauses = []
    for name, it in json.loads(text(CLAUSES)).items():
        shown = " ".join(links.proved(f"{CLAUSES}: {name}", it))
        inner = tag("p", esc(it["says"])) + tag("p", shown, class_="links")
        clauses.append(tag("template", inner, id=f"clause-{name}"))
    contracts = []
    for it in CONTRACTS:
        contracts.append(anchor(links.name("site/pages.py", f"vurdellow: {it}()"), tag("code", it)))
    wasm, about = module or (b"", {"kit": "", "sum": "", "is_lowered": False})
    lowered = "binaryen, which lowered it to addresses of 32 bits; " if about["is_lowered"] else ""
    parts = {
        "STYLE": text("site/common.css") + text("site/try/page.css"),
        "CONTRACTS": f"the contracts of {', '.join(contracts)} and the others",
        "LOWERED": lowered,
        "ABOUT": json.dumps(about),
        "CLAUSES": "\n".join(clauses),
        "WASM": base64.b64encode(wasm).decode(),
        "SCRIPT": "\n".join(text(f"site/try/{it}.js") for it in SCRIPTS),
    }
    return filled(text("site/try/page.html"), parts)


# ---- break.html

# What a replacement changes, by `place` of tests/must_fail, and how the page says it.
KINDS = {
    "fn": "the body of a function",
    "const": "a table or a constant",
    "head": "a contract or the head of a function",
    "specs": "a definition",
    "file": "what stands outside of functions",
}


class Broken:
    """A wrong program as the page shows it."""

    def __init__(self, crate, label, wrong):
        self.crate, self.label, self.wrong, self.id = crate, label, wrong, f"{crate}--{wrong.name}"
        self.refusals, self.kinds, self.guards, self.is_own = [], [], [], False


def changed(before, after):
    """The two texts of a line with what differs marked, in whole words."""
    start = len(os.path.commonprefix([before, after]))
    start -= len(re.search(r"\w*$", before[:start])[0])
    most = min(len(before), len(after)) - start
    end = min(len(os.path.commonprefix([before[::-1], after[::-1]])), most)
    end -= len(re.match(r"\w*", before[len(before) - end :])[0])
    shown = []
    for it in (before, after):
        middle = tag("mark", esc(it[start : len(it) - end]))
        shown.append(esc(it[:start]) + middle + esc(it[len(it) - end :]))
    return shown


def diff(before, after):
    """Lines of two texts with two around each change, and the first line that differs."""
    before, after, shown, first = before.split("\n"), after.split("\n"), [], None
    matcher = difflib.SequenceMatcher(None, before, after, autojunk=False)
    for group in matcher.get_grouped_opcodes(2):
        if shown:
            shown.append("  ..\n")
        for kind, a, b, c, d in group:
            if kind == "equal":
                shown += [f"  {esc(line)}\n" for line in before[a:b]]
                continue
            first = first or a + 1
            gone, come = [esc(line) for line in before[a:b]], [esc(line) for line in after[c:d]]
            if len(gone) == len(come):
                pairs = [changed(*pair) for pair in zip(before[a:b], after[c:d])]
                gone, come = zip(*pairs)
            shown += [tag("del", f"− {line}") for line in gone]
            shown += [tag("ins", f"+ {line}") for line in come]
    return "".join(shown).rstrip("\n"), first


DIFFERS = re.compile(
    r"where one has `(.+?)`\s+\(expected\)(?:.*?)the other has `(.+?)`(?:\s+\(found\)|\s|$)", re.S
)


def in_words(refusal):
    """What a refusal comes to. The page shows its whole text beside it."""
    said = refusal["text"]
    proved = re.match(r"it is not proved that (.*?)(?: \(`[\w-]+`\))?(?:;|\n|$)", said)
    if proved:
        return f"It is not proved that {proved[1]}."
    differs = list(DIFFERS.finditer(said))
    if differs:
        asked, given = (short(it, 120) for it in differs[-1].groups())
        if max(len(asked), len(given)) < 120 and "?" not in asked + given:
            return f"The two differ: `{asked}` is asked for, and the program gives `{given}`."
    if said.startswith(("`omega`", "`grind`", "`cc`")):
        return "What the contract asks for does not follow from what is known there."
    if said.startswith("`search`"):
        return "No proof of what the contract asks for is found."
    if said.startswith("`rw`") or "must be a path" in said:
        return "An equation that the proof needs is not there any more."
    return "What the program does and what the contract asks for are not the same."


def prover_said(refusal, most):
    raw = tag("pre", f"{esc(refusal['at'])}: {esc(refusal['text'][:most])}", class_="raw")
    return tag("details", tag("summary", "The prover's words") + raw)


class Breaking:
    """All wrong programs of a tree, by crate and name."""

    def __init__(self, links, tree, must_fail):
        self.links, self.tree, self.must_fail, self.found = links, tree, must_fail, {}
        self.sources = collections.defaultdict(dict)
        for path, words in sorted(tree.items()):
            file = re.fullmatch(r"crates/(\w+)/((?:src|specs|proofs)/.*)", path)
            edit = re.fullmatch(r"crates/(\w+)/must-fail/(\w+)\.edit", path)
            if file and words is not None:
                self.sources[file[1]][file[2]] = words
            if edit:
                for wrong in must_fail.parsed(words, edit[2])[0]:
                    self.found[edit[1], wrong.name] = Broken(edit[1], edit[2], wrong)
        for it in self.found.values():
            self.place(it)

    def place(self, it):
        """Where it stands, what kind of thing it changes, and the sentences that it guards."""
        sources = self.sources[it.crate]
        for file, old, _ in it.wrong.program():
            kind, what = self.must_fail.place(sources, file, old)
            kind = "specs" if file.startswith("specs/") else kind
            if (kind, what) not in it.kinds:
                it.kinds.append((kind, what))
        here = self.links.site.definitions.of(it.crate, "must-fail/" + it.wrong.name)
        own = self.guarded([(path, d.line) for path, d in here])
        it.is_own = bool(own)
        it.guards = own or self.guarded([self.named(it.crate, name) for name in it.wrong.refused])

    def guarded(self, places):
        """The sentences whose answers name what stands at one of the places, each once."""
        found = [s for place in places for s in self.links.by_place.get(place, ())]
        return list({(s.document, s.id): s for s in found}.values())

    def named(self, crate, name):
        return self.links.place(crate, name[4:] if name.startswith("law ") else name + "()")

    def record(self, record):
        for one in record["programs"]:
            if (one["crate"], one["name"]) in self.found:
                self.found[one["crate"], one["name"]].refusals = one["refusals"]

    def diffs(self, it):
        sources = self.sources[it.crate]
        texts, faults = self.must_fail.edited(sources, it.wrong.program())
        if faults:
            return small(esc(faults[0]))
        shown = []
        for file, after in texts.items():
            lines, first = diff(sources.get(file, ""), after)
            path = f"crates/{it.crate}/{file}"
            if path in self.tree:
                link = anchor(self.links.file(path, first or 0), esc(file))
                shown += [small(f"{link}, line {first}"), tag("pre", lines, class_="diff")]
        return "\n".join(shown)

    def comment_above(self, path, line):
        """What stands above a definition, on one line."""
        lines, at, words = self.tree[path].split("\n"), line - 2, []
        mark = "--" if path.endswith(".antt") else "//"
        while at >= 0 and lines[at].strip().startswith((mark, "#[")):
            if lines[at].strip().startswith(mark) and f"{mark} ----" not in lines[at]:
                words.insert(0, lines[at].strip().lstrip("-/ "))
            at -= 1
        return short(" ".join(words), 260)

    def asked(self, it, name):
        """What was to be proved: the name with its link, and the comment above it."""
        if not name:
            return "what the crate proves", ""
        place, code = self.named(it.crate, name), tag("code", esc(name.removeprefix("law ")))
        if not place:
            return code, ""
        kind = "the law" if name.startswith("law ") else "the contract of"
        return f"{kind} {anchor(self.links.file(*place), code)}", self.comment_above(*place)

    def card(self, it):
        wrong = it.wrong
        what = wrong.what or wrong.name.replace("_", " ")
        parts = [self.diffs(it)]
        for refusal in it.refusals:
            name, words = self.asked(it, refusal["of"])
            shown = f"Refused: {name}. {coded(in_words(refusal))} "
            if words:
                shown += tag("span", f"Above it stands: {coded(words)}", class_="small")
            parts.append(tag("p", shown))
            parts.append(prover_said(refusal, 1500))
        if not it.refusals:
            parts.append(small("What the prover said of it is not recorded yet."))
        if it.guards:
            links = [anchor(self.links.of(s), esc(self.links.called(s))) for s in it.guards[:8]]
            said = "It guards" if it.is_own else "Sentences that what is refused answers"
            parts.append(small(f"{said}: {', '.join(links)}"))
        path = f"crates/{it.crate}/must-fail/{it.label}.edit"
        kinds = ", ".join(dict.fromkeys(KINDS[kind] for kind, _ in it.kinds))
        edit = anchor(self.links.file(path), f"{it.label}.edit")
        parts.append(small(f"It changes {kinds}; it is in {edit}."))
        words = [it.crate, wrong.name, what, *wrong.refused, *(name for _, name in it.kinds)]
        summary = tag("summary", f"{tag('code', esc(wrong.name))} {esc(what)}")
        body = "\n".join([summary, *parts, ""])
        return tag("details", body, class_="card", id=it.id, data_words=" ".join(words).lower())

    def rooms(self, descriptions):
        shown = []
        for crate in sorted({crate for crate, _ in self.found}):
            cards = [self.card(it) for (of, _), it in self.found.items() if of == crate]
            head = tag("h3", esc(crate)) + tag("p", coded(descriptions.get(crate, "")))
            shown.append(tag("section", "\n".join([head, *cards, ""]), class_="room"))
        return "\n".join(shown)

    def index(self, head, of):
        """A heading with wrong programs below it, each a link to its place."""
        items = []
        for it in of:
            words = f"{it.crate} {it.wrong.name} {it.wrong.what} {' '.join(it.wrong.refused)}"
            link = anchor("#" + it.id, tag("code", esc(it.wrong.name)))
            shown = f"{esc(it.crate)}: {link} {esc(it.wrong.what)}"
            items.append(tag("li", shown, data_words=words.lower()))
        return tag("div", tag("h3", head) + tag("ul", "\n".join(items)), class_="index group")

    def kinds(self):
        shown = []
        for kind, called in KINDS.items():
            of = [it for it in self.found.values() if it.kinds and it.kinds[0][0] == kind]
            if of:
                shown.append(self.index(f"{called[0].upper()}{called[1:]}: {len(of)}", of))
        return "\n".join(shown)

    def claims(self):
        by = collections.defaultdict(list)
        for it in self.found.values():
            for sentence in it.guards:
                by[sentence.document, sentence.id].append(it)
        shown = []
        for sentence in self.links.site.sentences:
            of = by[sentence.document, sentence.id]
            if of:
                link = anchor(self.links.of(sentence), esc(self.links.called(sentence)))
                words = coded(short(sentence.row.sentence, 300))
                shown.append(self.index(f"{link} {words}", of))
        alone = [it for it in self.found.values() if not it.guards]
        if alone:
            said = "Of no sentence alone: what they guard stands in a layer below one"
            shown.append(self.index(said, alone))
        return "\n".join(shown)

    def story(self, record):
        story, where = json.loads(text(STORY)), STORY
        it = self.found.get((story["crate"], story["name"]))
        if it is None:
            missing = f"{story['crate']} has no wrong program {story['name']}"
            self.links.site.problems.append(f"{where}: {missing}")
            return ""
        ran = record["story"]
        pairs = list(zip(ran.get("right", ()), ran.get("wrong", ())))

        def lines(of, called, kind):
            shown = [
                tag("li", esc(pair[of]), **({"class_": "differs"} if pair[0] != pair[1] else {}))
                for pair in pairs
            ]
            return tag("div", tag("h3", called) + tag("ol", "".join(shown)), class_=kind)

        parts = [
            tag("h2", "The program that lost a turn"),
            tag("div", tag("p", esc(story["wrong"])) + self.diffs(it), class_="wide"),
        ]
        if pairs:
            wrong = "What it would do with the wrong program, which was run unproved"
            parts += [lines(0, "What the table does", "right"), lines(1, wrong, "wrong")]
        links = [*self.links.proved(where, story), anchor("#" + it.id, "among the others")]
        refused = tag("h3", "Why it is refused") + tag("p", esc(story["asked"]))
        refused += tag("p", " · ".join(links), class_="links")
        refused += "".join(prover_said(refusal, 2500) for refusal in it.refusals)
        parts.append(tag("div", refused, class_="wide"))
        return tag("div", "\n".join(parts), class_="story")


def break_page(links, tree, must_fail, breaking=None):
    record = {"kit": "", "commit": "", "story": {}, "programs": []}
    if os.path.exists(RECORD):
        record = json.loads(text(RECORD))
    breaking = breaking or Breaking(links, tree, must_fail)
    breaking.record(record)
    descriptions = {}
    for names, words in re.findall(r"^\| (`.*?) \| (.*?) \|", text("docs/ARCHITECTURE.md"), re.M):
        descriptions.update({crate: words for crate in re.findall(r"`(?:crates/)?(\w+)`", names)})
    told = sum(bool(it.refusals) for it in breaking.found.values())
    older = sum("commit" in it for it in record["programs"])
    recorded = "What the prover said is not recorded here."
    if told:
        commit = tag("code", esc(record["commit"][:12]))
        recorded = f"What the prover said of {told} of {len(breaking.found)} is recorded"
        recorded += f", by {esc(record['kit'])} at commit {commit}"
        recorded += f", {older} of them at an earlier one." if older else "."
    parts = {
        "STYLE": text("site/common.css") + text("site/break/page.css"),
        "COUNT": str(len(breaking.found)),
        "RECORDED": recorded,
        "STORY": breaking.story(record),
        "ROOMS": breaking.rooms(descriptions),
        "KINDS": breaking.kinds(),
        "CLAIMS": breaking.claims(),
        "SCRIPT": text("site/break/page.js"),
    }
    return filled(text("site/break/page.html"), parts)
