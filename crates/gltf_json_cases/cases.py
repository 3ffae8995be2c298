#!/usr/bin/env python3
"""Writes what the program gltf_json_cases is run on, and what it has to print then, from the tables
of docs/FORMATS.md.

usage: cases.py            writes data/texts.txt, args and stdout
       cases.py --check    fails where these are not what the tables say

For each record of the tables there is a text with all its members, in their order and in the other
one, and one for each member: twice, null, absent, of a wrong kind, with an escape in its name, and
with the numbers at the bounds of its kind. Each pair of its members has two faults, and so has each
pair of the members of a record of an extension: members of a wrong kind, members that are absent,
and members with a fault inside beside one of these. That of the upper row is reported, as of two
items of a list that of the first, and what is wrong inside a member before what is wrong in the
next row.
A last part has texts that are no JSON text, depths, and texts that are long.
What is printed is what the tables say of the text, and no answer of the program."""
import collections
import itertools
import json
import pathlib
import re
import sys

sys.dont_write_bytecode = True
HERE = pathlib.Path(__file__).resolve().parent
FORMATS = HERE.parent.parent / "docs" / "FORMATS.md"
SAME, GIVEN_UP, NO_TEXT = "one pass: the same", "tree: a document", "tree: no JSON text"
# What the one pass reads by a small tree of their own. At all others it gives up at a member that
# has no name, and at a value of a wrong kind, also where another of that name follows.
SMALL = ("asset", "camera", "orthographic", "perspective", "sparse indices")
# A member of each code that a table has.
CODES = {
    "componentType": 5126, "type": "VEC3", "mode": 5, "magFilter": 9729, "minFilter": 9986,
    "wrapS": 33071, "wrapT": 33648, "target": 34962, "alphaMode": "MASK",
    "interpolation": "CUBICSPLINE", "path": "rotation",
}
SPECIAL = {"camera": "orthographic", "light": "spot", "sparse indices": 5125, "buffer view": 34963}
# The records of extensions that others of them hold: the record above each, and the member.
INNER = {
    "light": ("KHR_lights_punctual of root", "lights"),
    "spot": ("light", "spot"),
    "variant": ("KHR_materials_variants of root", "variants"),
    "mapping": ("KHR_materials_variants of primitive", "mappings"),
}
# What the object `extensions` of a record is called, whose members are the extensions known there.
KNOWN = "extensions of "
# A member with a value that has a fault, the step from it to the fault, and what that is.
Fault = collections.namedtuple("Fault", "member value step name")
# Where a record stands: the text around it, and the path of it.
ROOT = '{"asset":{"version":"2.0"},%s}'
PLACES = {
    "root": ("%s", ""),
    "asset": ('{"asset":%s}', "asset"),
    "accessor": (ROOT % '"accessors":[%s]', "accessors[0]"),
    "sparse": ("accessor", "sparse"),
    "sparse indices": ("sparse", "indices"),
    "sparse values": ("sparse", "values"),
    "buffer": (ROOT % '"buffers":[%s]', "buffers[0]"),
    "buffer view": (ROOT % '"bufferViews":[%s]', "bufferViews[0]"),
    "camera": (ROOT % '"cameras":[%s]', "cameras[0]"),
    "orthographic": ("camera", "orthographic"),
    "perspective": ("camera", "perspective"),
    "image": (ROOT % '"images":[%s]', "images[0]"),
    "material": (ROOT % '"materials":[%s]', "materials[0]"),
    "pbrMetallicRoughness": ("material", "pbrMetallicRoughness"),
    "texture info": ("material", "emissiveTexture"),
    "normal texture": ("material", "normalTexture"),
    "occlusion texture": ("material", "occlusionTexture"),
    "mesh": (ROOT % '"meshes":[%s]', "meshes[0]"),
    "primitive": ("mesh", "primitives"),
    "morph target": ("primitive", "targets"),
    "node": (ROOT % '"nodes":[%s]', "nodes[0]"),
    "sampler": (ROOT % '"samplers":[%s]', "samplers[0]"),
    "scene": (ROOT % '"scenes":[%s]', "scenes[0]"),
    "skin": (ROOT % '"skins":[%s]', "skins[0]"),
    "texture": (ROOT % '"textures":[%s]', "textures[0]"),
    "animation": (ROOT % '"animations":[%s]', "animations[0]"),
    "channel": ("animation", "channels"),
    "channel target": ("channel", "target"),
    "animation sampler": ("animation", "samplers"),
}
# The record that a member of kind `rec` holds, by the record and the member; else by the member.
HELD = {
    "asset": "asset", "accessors": "accessor", "animations": "animation", "buffers": "buffer",
    "bufferViews": "buffer view", "cameras": "camera", "images": "image", "materials": "material",
    "meshes": "mesh", "nodes": "node", "samplers": "sampler", "scenes": "scene", "skins": "skin",
    "textures": "texture", "sparse": "sparse", "indices": "sparse indices",
    "values": "sparse values", "orthographic": "orthographic", "perspective": "perspective",
    "pbrMetallicRoughness": "pbrMetallicRoughness", "normalTexture": "normal texture",
    "occlusionTexture": "occlusion texture", "primitives": "primitive", "targets": "morph target",
    "channels": "channel", ("animation", "samplers"): "animation sampler",
    ("channel", "target"): "channel target", **{place: name for name, place in INNER.items()},
}


def held(record, member):
    """The record that a member holds."""
    if record.startswith(KNOWN):
        return f"{member} of {record[len(KNOWN):]}"
    return HELD.get((record, member)) or HELD.get(member, "texture info")


def cells(text):
    """The cells of the lines of a table, below its head."""
    lines = [it for it in text.splitlines() if it.startswith("|")][2:]
    return [[it.strip() for it in line.strip("|").split("|")] for line in lines]


def tables():
    """The members of each record: name, kind, and whether it has to be there."""
    found = {}
    text = FORMATS.read_text(encoding="utf-8")
    text = text[text.index("| record | members |") : text.index("**Codes.**")]
    text, _, extensions = text.partition("**Extensions.**")
    for names, members in cells(text):
        members = members.replace("scale, or strength, any?", "scale any?")
        for name in names.split(", "):
            found[name] = rows(members)
    found["occlusion texture"] = [
        ("strength", *row[1:]) if row[0] == "scale" else row for row in found["occlusion texture"]]
    return {**found, **tables_of_extensions(extensions)}


def tables_of_extensions(text):
    """The same of the records of extensions, and of the objects in which these are members."""
    found = {}
    for at, name, members in cells(text):
        found.setdefault(KNOWN + at, []).append((name, "rec", False))
        found[f"{name} of {at}"] = rows(members)
    for name, members in re.findall(r"An? (\w+) has (.+?)\.(?:\s|$)", " ".join(text.split())):
        found[name] = rows(members.replace(" and ", " ; "))
    return found


def places(known):
    """Where each record stands: the text around it with the path of it, or the record above it with
    the member."""
    found = dict(PLACES)
    for record in known:
        if record.startswith(KNOWN):
            found[record] = (record[len(KNOWN):], "extensions")
            found.update({held(record, member): (record, member) for member, _, _ in known[record]})
    return {**found, **INNER}


def rows(members):
    """The rows of a table, from its cell."""
    if members == "none":
        return []
    short = {"N": "name text?", "X": "extensions object?", "E": "extras any?"}
    parts = []
    for part in members.split(";"):
        words, shared = part.split(), []
        while words and words[-1] in short:
            shared.insert(0, short[words.pop()])
        parts += [" ".join(words)] * bool(words) + shared
    found = []
    for part in parts:
        names, _, kind = part.partition(" ") if "," not in part else part.rpartition(" ")
        if part.startswith("sampler ix(samplers of"):
            names, kind = "sampler", "ix!"
        if part == "attributes!":
            names, kind = "attributes", "attributes!"
        found += [(name.strip(), *split(kind)) for name in names.split(",")]
    return found


def split(kind):
    """A kind without its mark, and whether the member has to be there."""
    bare = re.sub(r"=.*", "", kind.rstrip("!?"))
    bare = re.sub(r"\((accessors|images|nodes|scenes|textures|the root's lights)\)", "", bare)
    bare = re.sub(r"list\((light|variant|mapping)\)", "list(rec)", bare)
    return bare, kind.endswith("!")


def join(path, step):
    """The path of a step from a place."""
    return ".".join(filter(None, [path, step]))


def joined(members):
    """An object of these members."""
    return "{%s}" % ",".join(f'"{m}":{v}' for m, v in members)


class Texts:
    """Texts of a table, and what is printed for each."""

    def __init__(self):
        self.tables, self.lines, self.expected = tables(), [], set()
        self.places = places(self.tables)

    def value(self, record, member, kind):
        """A value of a kind."""
        if kind == "text":
            return '"2.0"' if member == "version" else '"a\\u00e9\\n"'
        if kind == "any":
            return '{"b":[1,-2.5,1e3,null,{"c":"d"}],"e":true}'
        if kind == "code":
            return json.dumps(SPECIAL.get(record, CODES[member]))
        if kind == "rec":
            return self.whole(held(record, member))
        if kind == "list(rec)":
            return f"[{self.whole(held(record, member))}]"
        return {
            "flag": "true", "size": "7", "n32": "7", "ix": "7", "object": '{"EXT_a":{"b":null}}',
            "attributes": '{"POSITION":1,"_A":2,"NORMAL":null,"B":3}', "list(text)": '["a","b"]',
            "list(ix)": "[3,4]", "list(n32)": "[3,4]",
        }[kind]

    def wrong(self, kind):
        """Values that are not of a kind, each with the step to what is wrong in it."""
        return {
            "text": [("1", ""), ("[]", "")],
            "flag": [("0", ""), ('"true"', "")],
            "size": [("7.0", ""), ("-1", ""), ("-0", ""), ("7e0", ""), ('"7"', ""),
                     ("18446744073709551616", "")],
            "n32": [("7.0", ""), ("-1", ""), ("4294967296", "")],
            "ix": [("7.0", ""), ("-1", ""), ("4294967296", ""), ("true", "")],
            "code": [("[]", ""), ("true", "")],
            "any": [],
            "object": [("[]", ""), ("1", "")],
            "rec": [("[]", ""), ('"a"', "")],
            "attributes": [("[]", ""), ('{"POSITION":"1"}', '["POSITION"]')],
            "list(rec)": [("{}", ""), ("[null]", "[0]"), ("[1]", "[0]")],
            "list(text)": [("{}", ""), ('["a",null]', "[1]"), ("[1]", "[0]")],
            "list(ix)": [("{}", ""), ("[1,null]", "[1]"), ("[-1]", "[0]")],
            "list(n32)": [("{}", ""), ("[1,null]", "[1]"), ("[-1]", "[0]")],
        }[kind]

    def whole(self, record):
        """A record with the members that have to be there."""
        return joined(self.needed(record))

    def place(self, record):
        """The text around a record, and its path."""
        above, step = self.places[record]
        if "%s" in above:
            return above, step
        around, path = self.place(above)
        listed = [k for m, k, _ in self.tables[above] if m == step] == ["list(rec)"]
        inside = joined([*self.needed(above, step), (step, "[%s]" if listed else "%s")])
        return around.replace("%s", inside), join(path, step) + "[0]" * listed

    def add(self, text, printed):
        self.lines.append((text, printed))

    def record(self, record):
        """The texts of a record."""
        around, path = self.place(record)
        table = self.tables[record]
        known = [(m, self.value(record, m, k)) for m, k, _ in table]

        def text(members):
            return around.replace("%s", joined(members))

        def at(member, fault):
            return f"tree: {'.'.join(filter(None, [path, member]))}: {fault}"

        self.add(text(known), SAME)
        self.add(text(known[::-1]), SAME)
        self.add(text([("unknown", '[{"":1}]'), *known, ("Unknown", "null")]), SAME)
        odd = SAME if record in SMALL else GIVEN_UP
        self.add(text([("", "1"), *known]), odd)
        self.add(around.replace("%s", "[]"), f"tree: {path}: wrong kind")
        for place, (member, kind, needed) in enumerate(table):
            good = known[place][1]
            others = known[:place] + known[place + 1 :]
            missing = at(member, "missing member") if needed else SAME
            self.add(text(others), missing)
            self.add(text([*others, (member, "null")]), missing)
            self.add(text([(member, good), *others, (member, "null")]), missing)
            self.add(text([(member, "null"), *others, (member, good)]), SAME)
            escaped = f"\\u{ord(member[0]):04x}{member[1:]}"
            self.add(text([*others, (escaped, good)]), SAME)
            self.add(text([*others, (member[:-1], "1"), (member, good), (member + "x", "1")]), SAME)
            for value, step in self.wrong(kind):
                self.add(text([*others, (member, value)]), at(member + step, "wrong kind"))
                self.add(text([(member, value), *others, (member, good)]), odd)
            if kind in ("size", "n32", "ix"):
                most = 2**64 - 1 if kind == "size" else 2**32 - 1
                for value in ("0", str(most)):
                    self.add(text([*others, (member, value)]), SAME)

    def pairs(self, record):
        """Texts of a record with two faults each: that of the upper row is reported."""
        for upper, lower in itertools.combinations(self.tables[record], 2):
            plain, inner = self.plain(*upper), self.inner(record, *upper[:2])
            below, inner_below = self.plain(*lower), self.inner(record, *lower[:2])
            for fault, other in itertools.product(plain, below):
                self.two(record, fault, other)
                self.turned(record, fault, other)
            for fault, other in itertools.product(plain, inner_below):
                self.turned(record, fault, other)
            for fault, other in itertools.product(inner, below):
                self.turned(record, fault, other)
        for member, kind, _ in self.tables[record]:
            if kind == "list(rec)":
                self.items(record, member)

    def plain(self, member, kind, is_needed):
        """The faults of a member: a value that is not of its kind, and none where it has to be
        there."""
        absent = [Fault(member, None, "", "missing member")] * is_needed
        return [Fault(member, *it, "wrong kind") for it in self.wrong(kind)[-1:]] + absent

    def inner(self, record, member, kind):
        """The faults inside the record that a member holds: the first of its rows that can be of a
        wrong kind is, the last of them is, or no member is there."""
        inside = KNOWN + record if kind == "object" else held(record, member)
        if kind not in ("rec", "list(rec)", "object") or inside not in self.tables:
            return []
        wrong, needed = self.wrong_rows(inside), self.needed(inside)
        found = {joined([it[:2]]): it for it in wrong[:1]}
        found.update({joined([*self.needed(inside, it.member), it[:2]]): it for it in wrong[-1:]})
        found.update({"{}": Fault(name, None, "", "missing member") for name, _ in needed[:1]})
        shape, item = ("[%s]", "[0]") if kind == "list(rec)" else ("%s", "")
        return [Fault(member, shape % value, f"{item}.{it.member}{it.step}", it.name)
                for value, it in found.items()]

    def wrong_rows(self, record):
        """The rows of a record that can be of a wrong kind, each with a value that is."""
        return [fault for member, kind, _ in self.tables[record]
                for fault in self.plain(member, kind, False)]

    def needed(self, record, *without):
        """The members of a record that have to be there, but for these."""
        return [(m, self.value(record, m, k)) for m, k, is_needed in self.tables[record]
                if is_needed and m not in without]

    def two(self, record, fault, other):
        """A text of a record with two faults, of which the first is reported."""
        members = self.needed(record, fault.member, other.member)
        self.expect(record, [*members, fault[:2], other[:2]], fault)

    def turned(self, record, fault, other):
        """The same in the other order of the text."""
        members = self.needed(record, fault.member, other.member)
        self.expect(record, [other[:2], fault[:2], *members], fault)

    def expect(self, record, members, fault):
        """Adds a text of a record with these members, but for those without a value, of which this
        fault is reported; once."""
        around, path = self.place(record)
        text = around.replace("%s", joined((m, v) for m, v in members if v is not None))
        line = (text, f"tree: {join(path, fault.member + fault.step)}: {fault.name}")
        if line not in self.expected:
            self.expected.add(line)
            self.add(*line)

    def items(self, record, member):
        """Lists of records with two faults: that of the first item is reported, and of an item that
        of the upper row."""
        inside, others = held(record, member), self.needed(record, member)
        good = self.whole(inside)
        lists = [(f"[{good},1,[]]", "[1]")]
        for bad in self.wrong_rows(inside)[:1]:
            item, step = joined([bad[:2]]), f".{bad.member}{bad.step}"
            lists += [(f"[{item},1]", "[0]" + step), (f"[1,{item}]", "[0]"),
                      (f"[{good},{item},1]", "[1]" + step)]
        for value, step in lists:
            fault = Fault(member, value, step, "wrong kind")
            self.expect(record, [*others, fault[:2]], fault)

    def broken(self):
        """Texts that are no JSON text, depths, and long texts."""
        good = '{"asset":{"version":"2.0"}}'
        for text in ("", "{", good[:-1], good + "}", good + " x", good + ",", "[" + good,
                     '{"asset":{"version":"2.0"},}', '{"asset":{"version":"2.0",}}',
                     '{"asset":{"version":"2.0"},"scenes":[{},]}', "{'asset':{}}",
                     '{"asset":{"version":"2.0"},"extras":01}',
                     '{"asset":{"version":"2.0"},"extras":1.}',
                     '{"asset":{"version":"2.0"},"extras":.5}',
                     '{"asset":{"version":"2.0"},"extras":+1}',
                     '{"asset":{"version":"2.0"},"extras":"\\x"}',
                     '{"asset":{"version":"2.0"},"extras":"\\ud800"}',
                     '{"asset":{"version":"2.0"},"extras":1e999}',
                     '{"asset":{"version":"2.0"},"extras":nul}',
                     '{"asset":{"version":"2.0"} "extras":1}'):
            self.add(text, NO_TEXT)
        self.add(f" \t{good}\t ", SAME)
        for text in ("1", '"a"', "[]", "null", "true"):
            self.add(text, "tree: : wrong kind")
        # 127 arrays and objects may stand in one another (the default of serde_json).
        for levels in (125, 126, 127, 128, 129):
            for opening, closing in (("[", "]"), ('{"a":', "}")):
                inside = opening * (levels - 2) + "[]" + closing * (levels - 2)
                for text in ('{"asset":{"version":"2.0"},"extras":%s}' % inside,
                             '{"asset":{"version":"2.0"},"unknown":%s}' % inside):
                    self.add(text, SAME if levels <= 127 else NO_TEXT)
        # A fault of a record behind much text, before it, and a text that is cut off there.
        for size in (100, 5_000, 70_000, 140_000):
            long = '"unknown":[%s"a"]' % ('"\\u00e9 b",' * (size // 10))
            self.add('{"asset":{"version":"2.0"},%s}' % long, SAME)
            self.add('{"asset":{"version":"2.0"},%s,"scene":"a"}' % long, "tree: scene: wrong kind")
            self.add('{"scene":"a",%s,"asset":{"version":"2.0"}}' % long, "tree: scene: wrong kind")
            self.add('{"scene":"a",%s,"asset":{}}' % long, "tree: asset.version: missing member")
            self.add('{"asset":{"version":"2.0"},%s,"scene":0' % long, NO_TEXT)

    def all(self):
        for record in PLACES:
            self.record(record)
        for record in self.places:
            self.pairs(record)
        self.broken()
        return self.lines


def main(words):
    lines = Texts().all()
    files = {
        HERE / "data" / "texts.txt": "".join(text + "\n" for text, _ in lines),
        HERE / "stdout": "".join(printed + "\n" for _, printed in lines),
        HERE / "args": "texts.txt\n",
    }
    if words == ["--check"]:
        stale = [p.name for p, text in files.items() if not p.exists() or p.read_text() != text]
        for name in stale:
            print(f"gltf_json_cases: {name} is not what cases.py writes")
        print(f"gltf_json_cases: {len(lines)} texts")
        return 1 if stale else 0
    for path, text in files.items():
        path.parent.mkdir(exist_ok=True)
        path.write_text(text)
    return 0


sys.exit(main(sys.argv[1:]))
