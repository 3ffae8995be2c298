#!/usr/bin/env python3
"""Writes the reference of the crates as pages for a browser: `make reference`.

out/reference has a page for each library of crates.txt and an index. A page has the public items of
each public module: the doc comment, the signature and the contract. An item of a private module
is where `pub use` exports it. Below the modules are the definitions, of specs/*.antt, that
contracts name. Names lead to where they are described, also in another crate."""
import dataclasses
import functools
import html
import pathlib
import re
import sys

sys.dont_write_bytecode = True

import crates
import trust

OUT = crates.TOP / "out" / "reference"

DOC = re.compile(r"///[ ]?(.*)\n?")
SKIPPED = re.compile(r"\s+|//(?!/)[^\n]*|/\*.*?\*/", re.DOTALL)
# What is passed over as a whole in code: comments, texts and characters.
WHOLE = re.compile(r"//[^\n]*|/\*.*?\*/|b?\"(?:[^\"\\]|\\.)*\"|b?'(?:[^'\\]|\\[^']*)'", re.DOTALL)
CLAUSE = re.compile(r"\b(?:requires|ensures)\*?(?:\s+\w+)?\s*$")
ITEM = re.compile(
    r"(?P<pub>pub(?:\([^)]*\))?\s+)?(?P<words>(?:(?:unsafe|final|extern|\"C\"|const)\s+)*)"
    r"(?P<kind>fn|struct|enum|trait|type|const|static|mod|macro_rules!|impl|use|ghost)\b\s*"
    r"(?P<name>\w*)"
)
# What ends with a semicolon, whatever braces it has.
PLAIN = ("use", "ghost", "type", "const", "static")
KINDS = ("struct", "enum", "trait", "type", "const", "fn")
TITLES = dict(zip(KINDS, ("Structs", "Enums", "Traits", "Types", "Constants", "Functions")))


@dataclasses.dataclass(eq=False)
class Item:
    """An item: of a `fn` the head has its clauses; the body is the text between the braces."""

    kind: str
    name: str
    is_public: bool
    docs: str
    attributes: list
    head: str
    body: str


@dataclasses.dataclass(eq=False)
class Module:
    """A file, or the braces of an inline module."""

    crate: str
    path: tuple
    is_public: bool
    docs: str
    text: str
    items: list
    # What each name means that a `use` brings in: a path from here. Those that are given out.
    uses: dict
    given_out: list


# ---- reading


def closed(text, at):
    """Where the bracket at a place is closed."""
    depth = 0
    while at < len(text):
        whole = WHOLE.match(text, at)
        if whole:
            at = whole.end()
            continue
        depth += {"(": 1, "[": 1, "{": 1, ")": -1, "]": -1, "}": -1}.get(text[at], 0)
        at += 1
        if depth == 0:
            return at
    return at


def ended(text, start, is_plain):
    """Where the head of an item ends that begins at a place, and where its body does."""
    at = start
    while at < len(text):
        whole = WHOLE.match(text, at)
        if whole:
            at = whole.end()
        elif text[at] == ";":
            return at, at + 1
        elif text[at] == "{" and not is_plain and not CLAUSE.search(text, start, at):
            return at, closed(text, at)
        elif text[at] in "([{":
            at = closed(text, at)
        else:
            at += 1
    return at, at


def items_in(text):
    """The items of a module, a trait or an `impl` block."""
    at, docs, attributes = 0, [], []
    while at < len(text):
        if doc := DOC.match(text, at):
            docs.append(doc[1])
            at = doc.end()
        elif skipped := SKIPPED.match(text, at):
            at = skipped.end()
        elif text[at] == "#":
            end = closed(text, text.index("[", at))
            attributes.append(text[at:end])
            at = end
        else:
            found = ITEM.match(text, at)
            kind = found["kind"] if found else "macro"
            head_end, end = ended(text, at, kind in PLAIN)
            column = at - text.rfind("\n", 0, at) - 1
            head = less_far_in(text[at:head_end].rstrip(), column)
            body = less_far_in(text[head_end + 1 : end - 1], column)
            public = bool(found and found["pub"] and found["pub"].strip() == "pub")
            name = found["name"] if found else ""
            yield Item(kind, name, public, "\n".join(docs), attributes, head, body)
            at, docs, attributes = max(end, at + 1), [], []


def less_far_in(text, columns):
    """A text whose further lines begin by so many columns less far in."""
    return re.sub(rf"\n {{1,{columns}}}", "\n", text) if columns else text


def names_used(tree, path=()):
    """What a `use` brings in: of each name there its path."""
    tree = tree.strip()
    first, brace, rest = tree.partition("{")
    if brace:
        base = path + tuple(it for it in first.split("::") if it)
        depth, part = 0, ""
        for sign in rest[: rest.rindex("}")] + ",":
            depth += {"{": 1, "}": -1}.get(sign, 0)
            if sign == "," and depth == 0:
                yield from names_used(part, base) if part.strip() else ()
                part = ""
            else:
                part += sign
        return
    whole, _, renamed = tree.partition(" as ")
    full = path + tuple(it.strip() for it in whole.split("::"))
    full = full[:-1] if full[-1] == "self" else full
    yield renamed.strip() or full[-1], full


def module_of(crate, path, is_public, text, folder):
    """A module and those in it."""
    docs = "\n".join(re.findall(r"^//! ?(.*)$", text, re.MULTILINE))
    found = Module(crate, path, is_public, docs, text, [], {}, [])
    modules = [found]
    for item in items_in(re.sub(r"^//!.*$|^#!\[.*\]$", "", text, flags=re.MULTILINE)):
        if item.kind == "use":
            for name, full in names_used(re.sub(r"^(pub(\([^)]*\))? )?use ", "", item.head)):
                found.uses[name] = full
                found.given_out += [name] * item.is_public
        elif item.kind == "mod" and not any("cfg(test)" in it for it in item.attributes):
            inner, place = item.body, folder / item.name
            for file in (folder / f"{item.name}.rt", place / "mod.rt"):
                inner = file.read_text(encoding="utf-8") if file.is_file() else inner
            seen = is_public and item.is_public
            modules += module_of(crate, (*path, item.name), seen, inner, place)
            found.items.append(item)
        elif item.kind not in ("ghost", "macro", "macro_rules!"):
            found.items.append(item)
    return modules


@functools.cache
def modules_of(crate):
    """The modules of a library, by path; none of a program."""
    source = crates.TOP / "crates" / crate / "src"
    if not (source / "lib.rt").is_file():
        return {}
    text = (source / "lib.rt").read_text(encoding="utf-8")
    return {it.path: it for it in module_of(crate, (), True, text, source)}


def resolved(module, path, seen=()):
    """The module and the item that a path leads to from a module: the item is None where it leads
    to a module; None where it leads to nothing of the repository."""
    head, *rest = path
    inner = modules_of(module.crate)
    if head in ("crate", "self", "super"):
        base = {"crate": (), "self": module.path, "super": module.path[:-1]}[head]
        return resolved(inner[base], rest, seen) if rest else (inner[base], None)
    if (*module.path, head) in inner:
        further = inner[(*module.path, head)]
        return resolved(further, rest, seen) if rest else (further, None)
    for item in module.items:
        if item.name == head and item.kind in KINDS:
            return module, item
    used = module.uses.get(head)
    if used and (module, head) not in seen:
        return resolved(module, (*used, *rest), (*seen, (module, head)))
    root = modules_of(head).get(()) if head in crates.listed() else None
    return (resolved(root, rest, seen) if rest else (root, None)) if root else None


# ---- where things are


@dataclasses.dataclass(eq=False)
class Shown:
    """An item where it is described: the module that it is in there, and its own."""

    item: Item
    place: Module
    home: Module

    @property
    def anchor(self):
        return ".".join((*self.place.path, self.item.name))


@functools.cache
def shown_in(crate):
    """The items that a page describes, each once, and beside them what modules give out again: the
    name, and where it leads."""
    own, again, taken = [], [], set()
    for module in modules_of(crate).values():
        if not module.is_public:
            continue
        for item in module.items:
            if item.is_public and item.kind in KINDS:
                own.append(Shown(item, module, module))
        for name in module.given_out:
            found = resolved(module, (name,))
            if found is None:
                again.append((module, name, None))
                continue
            home, item = found
            is_hidden = item and home.crate == crate and not home.is_public
            if is_hidden and (home, item.name) not in taken:
                taken.add((home, item.name))
                own.append(Shown(item, module, home))
            else:
                again.append((module, name, found))
    return own, again


@functools.cache
def places():
    """Where each item is described: its page and its anchor."""
    return {
        (it.home, it.item.name): f"{crate}.html#{it.anchor}"
        for crate in crates.listed()
        for it in shown_in(crate)[0]
    }


def place_of(found):
    """The page and the anchor of what a path leads to; None where it is not described."""
    if not found:
        return None
    home, item = found
    if item:
        return places().get((home, item.name))
    anchor = ".".join(home.path)
    return f"{home.crate}.html#{anchor}" * home.is_public or None


def implementations(shown):
    """The `impl` blocks of a type in its crate: those of its own, and the heads of those of
    traits."""
    own, traits = [], []
    for module in modules_of(shown.home.crate).values():
        for item in module.items:
            if item.kind != "impl":
                continue
            head = re.sub(r"^impl\s*(<(?:[^<>]|<[^<>]*>)*>)?\s*", "", item.head)
            trait, is_for, name = head.rpartition(" for ")
            base = re.match(r"[&\s]*(?:'\w+\s+)?(?:mut\s+)?([\w:]+)", name)
            found = resolved(module, base[1].split("::")) if base else None
            if found and found[1] is shown.item:
                (traits if is_for else own).append((module, item))
    return own, traits


def contracts(shown):
    """The texts of an item's contract and of those of its methods, each with its module."""
    own, traits = implementations(shown)
    yield shown.home, shown.item.head
    if shown.item.kind == "trait":
        yield shown.home, shown.item.body
    for module, block in own:
        yield from ((module, it.head) for it in items_in(block.body) if it.is_public)
    for module, block in traits:
        yield from ((module, it.head) for it in items_in(block.body) if it.kind == "ghost")


@functools.cache
def definitions():
    """The definitions that public contracts name, and all that these name, by file."""
    found = [
        it
        for crate in crates.listed()
        for shown in shown_in(crate)[0]
        for module, text in contracts(shown)
        for it in trust.named_in(text, trust.imports(module.text))
    ]
    return trust.closure(found)


def definition_place(file, name):
    crate, _, *inner = file.relative_to(trust.CRATES).with_suffix("").parts
    return f"{crate}.html#specs.{'.'.join((*inner, name))}"


# ---- writing

STYLE = """
:root { color-scheme: light dark; --line: #8884; --soft: #8881; --link: #0b57d0; --quiet: #666; }
@media (prefers-color-scheme: dark) { :root { --link: #8ab4f8; --quiet: #aaa; } }
* { box-sizing: border-box; }
body { font: 16px/1.5 system-ui, sans-serif; margin: 0; }
.page { display: flex; max-width: 80rem; margin: 0 auto; }
nav { width: 16rem; flex: none; padding: 1.5rem 1rem; position: sticky; top: 0; height: 100vh;
  overflow-y: auto; border-right: 1px solid var(--line); font-size: .875rem;
  overflow-wrap: anywhere; }
nav ul { list-style: none; margin: 0 0 1rem; padding: 0; }
nav .module { font-weight: 600; margin: .75rem 0 .25rem; }
main { flex: 1; min-width: 0; padding: 1.5rem 2rem 6rem; }
a { color: var(--link); text-decoration: none; }
a:hover { text-decoration: underline; }
h1, h2, h3, h4 { line-height: 1.25; margin: 2rem 0 .5rem; overflow-wrap: anywhere; }
h1 { margin-top: 0; } h2 { border-bottom: 1px solid var(--line); padding-bottom: .25rem; }
h4 { font-size: 1rem; margin: 1.25rem 0 .25rem; }
p, ul { margin: .5rem 0; max-width: 46rem; }
code, pre { font: .875em/1.45 ui-monospace, monospace; }
pre { background: var(--soft); border: 1px solid var(--line); border-radius: 6px;
  padding: .625rem .875rem; margin: .5rem 0; overflow-x: auto; }
.methods { margin-left: 1rem; padding-left: 1rem; border-left: 2px solid var(--line); }
.quiet { color: var(--quiet); font-size: .875rem; }
table { border-collapse: collapse; } td:first-child { width: 13rem; }
td { text-align: left; padding: .25rem 1rem .25rem 0;
  vertical-align: top; }
@media (max-width: 50rem) { .page { display: block; } nav { position: static; width: auto;
  height: auto; border: 0; border-bottom: 1px solid var(--line); } main { padding: 1rem; } }
"""


def page(title, side, inner):
    side = f"<nav>{side}</nav>\n" if side else ""
    return (
        '<!doctype html>\n<html lang="en">\n<meta charset="utf-8">\n'
        '<meta name="viewport" content="width=device-width, initial-scale=1">\n'
        f"<title>{html.escape(title)}</title>\n<style>{STYLE}</style>\n"
        f'<div class="page">\n{side}<main>{inner}</main>\n</div>\n</html>\n'
    )


def escaped(text):
    return html.escape(text, quote=False)


def link(place, text):
    return f'<a href="{html.escape(place)}">{escaped(text)}</a>' if place else escaped(text)


def linked(code, module, is_contract=False, parameters=()):
    """Code whose names lead to where they are described: items, or of a contract definitions. The
    names of parameters lead nowhere."""
    brought = trust.imports(module.text) if is_contract else {}

    def place(word):
        if word in ("self", "super", "crate") or word in parameters:
            return None
        file, name = brought.get(word, (None, None))
        for it in trust.defined(file, name) if name else ():
            return definition_place(*it) if it in definitions() else None
        return place_of(resolved(module, (word,)))

    parts = re.split(r"([^\W\d]\w*)", code)
    return "".join(link(place(it), it) if at % 2 else escaped(it) for at, it in enumerate(parts))


def defined_code(text, file):
    """The text of a definition, whose names lead to others."""
    brought = trust.imports(file.read_text(encoding="utf-8"))
    brought |= {own: (file, own) for own in trust.definitions(file)}

    def place(word):
        source, name = brought.get(word, (None, None))
        found = trust.defined(source, name) if name else []
        return definition_place(*found[0]) if found and found[0] in definitions() else None

    parts = re.split(r"(--.*|(?<![.\w])[^\W\d][\w']*)", text)
    return "".join(link(place(it), it) if at % 2 else escaped(it) for at, it in enumerate(parts))


# ---- doc comments

SPAN = re.compile(r"(?P<code>`[^`]+`)|\[(?P<text>[^\]]+)\](?:\((?P<to>[^)\s]+)\))?")


def spans(text, module):
    """A line of a doc comment: code, and links."""

    def span(found):
        if found["code"]:
            return f"<code>{escaped(found['code'][1:-1])}</code>"
        inner, to = found["text"], found["to"] or found["text"].strip("`")
        if re.match(r"https?:", to):
            place = to
        elif re.fullmatch(r"[\w:]+(?:\(\))?", to):
            place = place_of(resolved(module, re.sub(r"\(\)$", "", to).split("::")))
        else:
            return escaped(found[0])
        shown = link(place, inner.strip("`"))
        return f"<code>{shown}</code>" if inner.startswith("`") else shown

    parts, at = [], 0
    for found in SPAN.finditer(text):
        parts += [escaped(text[at : found.start()]), span(found)]
        at = found.end()
    return "".join([*parts, escaped(text[at:])])


def shown_docs(docs, module):
    """A doc comment: paragraphs, lists, headings and blocks of code."""
    parts = []
    for number, part in enumerate(re.split(r"^```.*$", docs, flags=re.MULTILINE)):
        if number % 2:
            parts.append(f"<pre>{escaped(part.strip(chr(10)))}</pre>")
            continue
        for block in re.split(r"\n\s*\n", part.strip()):
            block = block.strip()
            if re.match(r"[-*] ", block):
                rows = re.split(r"^[-*] ", block, flags=re.MULTILINE)[1:]
                inner = "".join(f"<li>{spans(row, module)}</li>" for row in rows)
                parts.append(f"<ul>{inner}</ul>")
            elif block.startswith("#"):
                parts.append(f"<h4>{spans(block.lstrip('# '), module)}</h4>")
            elif block:
                parts.append(f"<p>{spans(block, module)}</p>")
    return "".join(parts)


# ---- items


def function(item, module):
    """A function: its head, its doc comment, and its contract."""
    at = re.search(r"\n *(?:requires|ensures)\b", item.head)
    head, contract = (item.head[: at.start()], item.head[at.start() :]) if at else (item.head, "")
    parameters = set(re.findall(r"\b(\w+):(?!:)", head))
    code = linked(head, module, parameters=parameters)
    shown = f"<pre>{code}</pre>{shown_docs(item.docs, module)}"
    if contract:
        code = linked(less_far_in(contract, 4).strip("\n"), module, True, parameters)
        shown += f'<p class="quiet">Contract</p><pre>{code}</pre>'
    return shown


def fields(item):
    """The text between the braces of a struct or an enum, less private members."""
    if item.kind == "enum":
        return item.body
    kept, private, begun = [], False, []
    for line in item.body.split("\n"):
        if re.match(r"\s*(///|#\[)", line):
            begun.append(line)
        elif re.match(r"\s*pub ", line):
            kept += [*begun, line]
            begun = []
        else:
            private, begun = private or bool(line.strip()), []
    return "\n".join(kept + ["    // private members"] * private)


def method(item, module, anchor):
    return (
        f'<h4 id="{anchor}.{item.name}"><code>{item.name}</code></h4>'
        f"{function(item, module)}"
    )


def type_body(shown):
    """A struct, an enum or a trait with what is inside."""
    item, home = shown.item, shown.home
    if item.kind == "trait":
        code = linked(item.head, home)
    elif item.body.strip():
        inner = fields(item).strip("\n")
        code = linked(f"{item.head} {{\n{inner}\n}}", home)
    else:
        code = linked(item.head + ";", home)
    parts = [f"<pre>{code}</pre>", shown_docs(item.docs, home)]
    derived = ", ".join(it for attribute in item.attributes
                        for it in re.findall(r"^#\[derive(?:_where)?\(([^;)]*)", attribute))
    if derived:
        parts.append(f'<p class="quiet">Derives {escaped(derived)}.</p>')
    return parts


def methods(shown):
    """The public functions of a type, or those of a trait; and the traits that a type has."""
    item, home, parts = shown.item, shown.home, []
    if item.kind == "trait":
        for inner in items_in(item.body):
            if inner.kind == "fn":
                parts.append(method(inner, home, shown.anchor))
            elif inner.kind in ("ghost", "type") and not inner.head.startswith("ghost use"):
                code = linked(inner.head + ";", home, is_contract=True)
                parts.append(f"<pre>{code}</pre>{shown_docs(inner.docs, home)}")
    own, traits = implementations(shown)
    for module, block in own:
        parts += [method(it, module, shown.anchor) for it in items_in(block.body)
                  if it.kind == "fn" and it.is_public]
    heads = sorted({" ".join(block.head.split()) for _, block in traits})
    shown_heads = "\n".join(linked(head, home) for head in heads)
    listed = f'<p class="quiet">Implements</p><pre>{shown_heads}</pre>' if heads else ""
    return (f'<div class="methods">{"".join(parts)}</div>' if parts else "") + listed


def described(shown):
    item = shown.item
    title = f'<h3 id="{shown.anchor}"><span class="quiet">{item.kind}</span> {item.name}</h3>'
    if item.kind == "fn":
        return title + function(item, shown.home)
    if item.kind in ("type", "const"):
        code = linked(item.head + ";", shown.home)
        return f"{title}<pre>{code}</pre>{shown_docs(item.docs, shown.home)}"
    return title + "".join(type_body(shown)) + methods(shown)


# ---- pages


def module_name(module):
    return "::".join((module.crate, *module.path))


def section(module, own, again):
    """A module's part of a page, and its part of the list beside it."""
    anchor = ".".join(module.path) or "crate"
    parts = [f'<h2 id="{anchor}">{module_name(module)}</h2>' if module.path else ""]
    parts.append(shown_docs(module.docs, module))
    side = [f'<p class="module">{link("#" + anchor, module_name(module))}</p><ul>']
    rows = [it for kind in KINDS for it in own if it.item.kind == kind]
    if again:
        names = ", ".join(f"<code>{link(place_of(found), name)}</code>" for name, found in again)
        parts.append(f'<p class="quiet">Re-exported: {names}.</p>')
    for shown in rows:
        parts.append(described(shown))
        side.append(f'<li>{link("#" + shown.anchor, shown.item.name)}</li>')
    return "".join(parts), "".join([*side, "</ul>"]) if rows or again else ""


def definition_texts(file):
    """The text of each definition of a file, with its comment."""
    for block in re.split(r"\n\s*\n", file.read_text(encoding="utf-8")):
        lines = [it for it in block.split("\n") if not trust.UNCOUNTED.match(it)]
        head = trust.HEAD.match(lines[0]) if lines and lines[0].strip() else None
        if head and not lines[0].lstrip().startswith(("use ", "pub use ")):
            column = len(lines[0]) - len(lines[0].lstrip())
            yield head[1], less_far_in("\n" + block.strip("\n"), column).strip("\n")


def definitions_section(crate):
    """The definitions of a crate that contracts name."""
    files = sorted({file for file, _ in definitions() if trust.CRATES / crate in file.parents})
    if not files:
        return "", ""
    parts = ['<h2 id="specs">Definitions</h2><p>What the contracts name, in files of '
             f"<code>crates/{crate}/specs/</code>.</p>"]
    for file in files:
        parts.append(f'<h3 id="specs.{file.stem}">{file.stem}</h3>')
        for name, text in definition_texts(file):
            if (file, name) in definitions():
                anchor = definition_place(file, name).partition("#")[2]
                parts.append(f'<pre id="{html.escape(anchor)}">{defined_code(text, file)}</pre>')
    rows = "".join(f'<li>{link(f"#specs.{it.stem}", it.stem)}</li>' for it in files)
    return "".join(parts), f'<p class="module">{link("#specs", "Definitions")}</p><ul>{rows}</ul>'


def crate_page(crate):
    own, again = shown_in(crate)
    parts, side = [f'<h1 id="crate">{crate}</h1>'], [f"<p>{link('index.html', 'All crates')}</p>"]
    for module in modules_of(crate).values():
        if module.is_public:
            inner, listed = section(module, [it for it in own if it.place is module],
                                    [(name, found) for at, name, found in again if at is module])
            parts.append(inner)
            side.append(listed)
    inner, listed = definitions_section(crate)
    return page(f"{crate}: reference", "".join([*side, listed]), "".join([*parts, inner]))


def groups():
    """The crates, under what crates.txt says above them."""
    title, found = "", {}
    for line in (crates.TOP / "crates.txt").read_text(encoding="utf-8").splitlines():
        if line.startswith("#"):
            title = line.strip("# ").rstrip(".")
        elif line.strip():
            found.setdefault(title, []).append(re.split(r"[ :]", line)[0])
    return found


def summary(crate):
    """The first sentence of a crate."""
    source = crates.TOP / "crates" / crate / "src"
    file = source / "lib.rt" if (source / "lib.rt").is_file() else source / "main.rt"
    docs = " ".join(re.findall(r"^//! ?(.*)$", file.read_text(encoding="utf-8"), re.MULTILINE))
    first = escaped(re.match(r".*?(?:\.(?= |$)|$)", docs)[0])
    return re.sub(r"`([^`]+)`", r"<code>\1</code>", first)


def index_page():
    parts = ["<h1>Reference</h1><p>The crates, lowest first. Most users need "
             f"{link('gltf.html', 'gltf')} alone, which re-exports what they use of the others. Its "
             f"main call is {link('gltf.html#import_slice', 'import_slice')}.</p>"]
    for title, names in groups().items():
        rows = "".join(
            f"<tr><td>{link(f'{name}.html' if modules_of(name) else None, name)}</td>"
            f"<td>{summary(name)}</td></tr>" for name in names)
        parts.append(f"<h2>{escaped(title)}</h2><table>{rows}</table>")
    return page("Reference", "", "".join(parts))


def main():
    OUT.mkdir(parents=True, exist_ok=True)
    libraries = [it for it in crates.listed() if modules_of(it)]
    for crate in libraries:
        (OUT / f"{crate}.html").write_text(crate_page(crate), encoding="utf-8")
    (OUT / "index.html").write_text(index_page(), encoding="utf-8")
    print(f"{len(libraries)} pages: {OUT / 'index.html'}")


if __name__ == "__main__":
    main()
