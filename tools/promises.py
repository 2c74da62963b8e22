"""Reads what the repository promises: public functions with their clauses, public types, cited definitions."""
import collections
import re
from pathlib import Path

STRIPPED = re.compile(r"""("(?:\\.|[^"\\])*"|b?'(?:\\.|[^'\\])')|//[^\n]*|/\*.*?\*/""", re.S)
TOKEN = re.compile(r"""\s+|"(?:\\.|[^"\\])*"|b?'(?:\\.|[^'\\])'|[^\W\d]\w*|\d\w*|.""", re.S)
CLAUSES = ("ghost", "requires", "ensures")
PAIRS = {"(": ")", "[": "]", "{": "}"}
Function = collections.namedtuple("Function", "crate path owner name head clauses cites")
Stated = collections.namedtuple("Stated", "crate path name text cites")


def plain(text):
    """A text in one line, without what its layout alone says."""
    text = re.sub(r"\s+", " ", text).strip()
    text = re.sub(r"(?<=[(\[{]) ", "", text)
    return re.sub(r",? (?=[)\]}])|,(?=[)\]}])", "", text)


def plain_head(text):
    return re.sub(r"(?<=\w<) |,? (?=>)|,(?=>)", "", plain(text))


def words_in(text):
    return set(re.findall(r"[^\s(){}\[\],;.]+", text))


def is_named(name, text, words):
    """Whether a text of a clause has a name; a name with places stands there if each of its parts does."""
    return all(it in text for it in name.split("◌")) if "◌" in name else name in words


def imports_of(text):
    """Which definition of this repository each imported name is: a page, and its name there."""
    found = {}
    for crate, page, names in re.findall(r"\buse Rattle\.(\w+)\.specs\.(\w[\w.]*?)\.\{([^}]*)\}", text):
        found.update({it.split()[-1]: (crate, page, it.split()[0]) for it in names.split(",") if it.split()})
    for crate, page, alias in re.findall(r"\buse Rattle\.(\w+)\.specs\.(\w[\w.]*) as (\w+)", text):
        found[f"{alias}."] = (crate, page, "")
    return found


def passed_by(crate, page, text):
    """Which definitions a page of specs/ passes on from other pages, by the names that it gives them."""
    lines = "\n".join(re.findall(r"^(?:unfoldable )?pub use .*$", text, re.M))
    return {(crate, page, name): key for name, key in imports_of(lines).items()}


def cited(text, imports):
    """The definitions that a text names, by the name that it says; those of a page with an alias as `alias.name`."""
    words = words_in(text)
    found = {name: key for name, key in imports.items() if is_named(name, text, words)}
    for page in (it for it in imports if it.endswith(".")):
        for name in re.findall(rf"(?<![\w.]){re.escape(page)}([^\s(){{}}\[\],;.]+)", text):
            found[page + name] = (*imports[page][:2], name)
    return found


class Source:
    """A file of code, read into what it declares."""

    def __init__(self, crate, path, text):
        self.crate, self.path = crate, path
        self.text = STRIPPED.sub(lambda it: it[1] or " ", text)
        self.tokens = [it for it in TOKEN.finditer(self.text) if not it[0].isspace()]
        self.imports = imports_of(self.text)
        self.functions, self.types, self.traits, self.tests, self.passed = [], [], [], [], []
        self.shut = self.matched()
        self.walk(0, len(self.tokens), "", "", True)

    def matched(self):
        shut, open_ones = {}, []
        for at, it in enumerate(self.tokens):
            if it[0] in PAIRS:
                open_ones.append(at)
            elif it[0] in PAIRS.values() and open_ones:
                shut[open_ones.pop()] = at
        return shut

    def at(self, place):
        return self.tokens[place][0] if place < len(self.tokens) else ""

    def slice(self, start, end):
        return self.text[self.tokens[start].start():self.tokens[end - 1].end()] if start < end else ""

    def until(self, place, stops, end):
        """The next place, outside brackets, at which one of these stands."""
        while place < end and self.at(place) not in stops:
            place = self.shut.get(place, place) + 1
        return min(place, end)

    def walk(self, place, end, owner, head, is_open):
        """Reads the items from a place on; `is_open`: what stands here is public without the word."""
        attributes, is_public = [], is_open and bool(owner)
        while place < end:
            word = self.at(place)
            if word == "#":
                start = self.until(place, "[", end)
                place = self.shut[start] + 1
                attributes.append(plain(self.slice(start, place)))
                continue
            if word == "pub":
                is_public, place = self.at(place + 1) != "(", place + 1
                place = self.shut[place] + 1 if self.at(place) == "(" else place
                continue
            if word in ("const", "unsafe", "async", "default") and self.at(place + 1) in ("fn", "unsafe"):
                place += 1
                continue
            place = self.item(word, place, end, attributes, is_public, owner, head)
            attributes, is_public = [], is_open and bool(owner)

    def item(self, word, place, end, attributes, is_public, owner, head):
        """Reads one item, and answers the place behind it."""
        if word == "fn":
            return self.function(place, end, attributes, is_public, owner, head)
        if word in ("impl", "trait"):
            return self.members(word, place, end, attributes, is_public)
        if word in ("struct", "enum"):
            return self.declared(word, place, end, attributes, is_public)
        if word == "mod" and self.at(place + 2) == "{":
            self.walk(place + 3, self.shut[place + 2], "", "", False)
            return self.shut[place + 2] + 1
        stop = self.until(place, ";", end)
        if word in ("const", "static", "type") and is_public and not owner:
            self.state(self.at(place + 1), plain(self.slice(place, stop)))
        if word in ("use", "mod") and is_public:
            self.passed.append(plain(self.slice(place, stop)))
        return stop + 1

    def function(self, place, end, attributes, is_public, owner, head):
        stop = self.until(place, (*CLAUSES, "{", ";"), end)
        signature, name, clauses = self.slice(place, stop), self.at(place + 1), []
        while self.at(stop) in CLAUSES:
            group = self.until(stop, "{", end)
            what = plain(self.slice(stop, group).replace("ensures *", "ensures*"))
            clauses.append(f"{what} {{ {plain(self.slice(group + 1, self.shut[group]))} }}")
            stop = self.shut[group] + 1
        if "[test]" in attributes:
            self.tests.append(name)
        elif is_public or (name == "main" and not owner):
            cites = cited(" ".join(clauses), self.imports)
            head = plain_head(f"{head} {signature}")
            self.functions.append(Function(self.crate, self.path, owner, name, head, tuple(clauses), cites))
        return self.shut.get(stop, stop) + 1

    def members(self, word, place, end, attributes, is_public):
        """Reads an impl or a trait: its methods, and what else it declares."""
        group = self.until(place, "{", end)
        whole, start = plain_head(self.slice(place, group)), place + 1
        if word == "impl" and self.at(start) == "<":
            depth = 0
            while depth or start == place + 1:
                arrow = self.at(start) == ">" and self.at(start - 1) in ("-", "=")
                depth += (self.at(start) == "<") - (self.at(start) == ">" and not arrow)
                start += 1
        owner = plain(self.slice(start, self.until(start, ("where",), group)))
        if word == "trait":
            owner = f"trait {self.at(place + 1)}"
        inner, others = group + 1, []
        while inner < self.shut[group]:
            stop = self.until(inner, ("fn", ";"), self.shut[group])
            if self.at(stop) == "fn":
                stop = self.until(stop, "{;", self.shut[group])
                while self.at(self.shut.get(stop, stop) + 1) in (*CLAUSES[1:], "{") and self.at(stop) == "{":
                    stop = self.until(self.shut[stop] + 1, "{;", self.shut[group])
                inner = self.shut.get(stop, stop) + 1
                continue
            if self.at(inner) in ("ghost", "type", "const") and self.at(inner + 1) != "use":
                others.append(plain(self.slice(inner, stop)))
            inner = stop + 1
        if word == "trait" and is_public or others:
            self.state(owner, plain(f"{whole} {{ {'; '.join(others)} }}"))
        if word == "impl" and " for " in owner:
            self.traits.append((base(owner), re.split(r"[<\s]", owner)[0].split("::")[-1]))
        opened = word == "trait" or " for " in owner
        self.walk(group + 1, self.shut[group], owner, whole if word == "impl" else "", opened)
        return self.shut[group] + 1

    def declared(self, word, place, end, attributes, is_public):
        """Reads a struct or an enum: what is public of it, and what it derives."""
        name, stop = self.at(place + 1), self.until(place, "{;", end)
        group = next((it for it in range(place, stop + 1) if self.at(it) in "({"), stop)
        shown = [it for it in attributes if not it.startswith(("[derive", "[doc", "[allow"))]
        for it in attributes:
            self.traits += [(name, trait.strip().split("::")[-1]) for trait in it[len("[derive("):-2].split(",")
                            if it.startswith("[derive(")]
        text = self.slice(place, self.shut.get(group, group) + 1)
        if word == "struct":
            fields = self.fields(group) if group in self.shut else []
            text = f"{self.slice(place, group)} {{ {', '.join(fields)} }}"
        if is_public:
            self.state(name, plain(" ".join([*shown, text])))
        return self.shut.get(stop, stop) + 1

    def fields(self, group):
        """The public fields of a struct, those of a tuple with their number."""
        found, place, number = [], group + 1, 0
        while place < self.shut[group]:
            stop = self.until(place, ",", self.shut[group])
            text = plain(self.slice(place, stop))
            shown = re.sub(r"^(#\[[^\]]*\] )*", "", text)
            if shown.startswith("pub ") and self.at(group) == "{":
                found.append(shown)
            elif shown.startswith("pub "):
                found.append(f"{number}: {shown}")
            place, number = stop + 1, number + 1
        return found

    def state(self, name, text):
        self.types.append(Stated(self.crate, self.path, name, text, cited(text, self.imports)))


def base(owner):
    """The name of the type or trait whose item something is."""
    name = owner.removeprefix("trait ").rpartition(" for ")[2]
    return re.split(r"<", re.sub(r"^&('\w+ )?(mut )?", "", name))[0].split("::")[-1].strip()


def definitions_of(crate, page, path, text):
    """The definitions of a page of specs/."""
    text = re.sub(r"\{-.*?-\}", " ", text, flags=re.S)
    lines, found, name = [re.sub(r"(^|\s)--(\s.*)?$", "", it) for it in text.split("\n")], {}, ""
    inside = False
    for line in lines:
        inside = line.startswith("mutual") or inside and (line[:1].isspace() or not line)
        line = re.sub(r"^ {4}|^ {2}", "", line) if inside else line
        if re.match(r"(unfoldable )?(pub )?use ", line):
            continue
        at = re.match(r"((?:abbrev|pub|unfoldable|unfold|record|data|mutual|infix\w* \d+|open) )*(\S+)", line)
        if at and (at[1] or re.match(r"\S+( [({].*)? : ", line)):
            name = at[2]
        if name and line.strip():
            found[name] = f"{found.get(name, '')} {line}"
    imports = {**imports_of(text), **{it: (crate, page, it) for it in found}}
    stated = {}
    for name, it in found.items():
        others = {other: key for other, key in imports.items() if other != name}
        stated[crate, page, name] = Stated(crate, path, name, plain(it), cited(it, others))
    return stated


class Promises:
    """What a commit promises."""

    def __init__(self, tree):
        self.functions, self.types, self.definitions = [], [], {}
        self.tests, self.cases = collections.Counter(), collections.Counter()
        self.traits, self.passed, self.pages_passed = collections.defaultdict(set), {}, {}
        sources = collections.defaultdict(list)
        for path, text in sorted(tree.items()):
            parts = path.split("/")
            if parts[0] != "crates" or len(parts) < 4:
                continue
            if parts[2] == "specs" and path.endswith(".antt"):
                page = ".".join(parts[3:])[:-len(".antt")]
                self.definitions.update(definitions_of(parts[1], page, path, text))
                self.pages_passed.update(passed_by(parts[1], page, text))
            elif parts[2] == "src" and path.endswith(".rt"):
                sources[parts[1]].append(Source(parts[1], path, text))
            elif parts[2] == "data" and path.endswith(".cases"):
                self.cases.update(re.findall(r"^case (.*)$", text, re.M))
        for crate, files in sources.items():
            self.add(crate, files, set(sources))
        self.close()

    def add(self, crate, files, crates):
        """Adds what a crate offers."""
        names, whole = {"main"}, set()
        # lib.rt, and each module that it, or such a module, offers whole
        roots = [file for file in files if file.path.endswith("/src/lib.rt")]
        for it in (it for file in roots for it in file.passed):
            at = re.match(r"use (?:(?:crate|self)::)?(\w+)(?:::[\w:]*?)?(?:::)?(?:\{(.*)\}|(\w+))$", it)
            if it.startswith("mod "):
                module = it.removeprefix("mod ")
                whole.add(module)
                roots += [file for file in files if file.path.endswith(f"/src/{module}.rt") and file not in roots]
            elif at:
                given = {each.split()[-1].split("::")[-1] for each in (at[2] or at[3]).split(",") if each.split()}
                names |= given if at[1] not in crates else set()
                self.passed.setdefault(crate, set()).update(given)
        for file in files:
            of_whole = Path(file.path).stem in whole or file.path.endswith("/src/lib.rt")
            offered = lambda name: name in names or of_whole
            self.functions += [it for it in file.functions if offered(base(it.owner) if it.owner else it.name)]
            self.types += [it for it in file.types if offered(base(it.name))]
            for name, trait in file.traits:
                self.traits[crate, name].add(trait)
            self.tests.update(file.tests)

    def home(self, key):
        """Where the definition stands that a page has or passes on."""
        while key in self.pages_passed:
            key = self.pages_passed[key]
        return key

    def close(self):
        """Keeps the definitions that are cited."""
        for it in [*self.functions, *self.types, *self.definitions.values()]:
            it.cites.update({name: self.home(key) for name, key in it.cites.items()})
        left, kept = [key for it in [*self.functions, *self.types] for key in it.cites.values()], {}
        while left:
            key = left.pop()
            if key in self.definitions and key not in kept:
                kept[key] = self.definitions[key]
                left += kept[key].cites.values()
        self.everything, self.definitions = self.definitions, kept
