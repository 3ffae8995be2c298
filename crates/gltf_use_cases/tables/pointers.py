"""JSON Pointers, by RFC 6901: its own examples (section 5), and those of parts of documents. Each
pointer of a document is followed here, by the rules of its section 4, to what is wrong there."""
import json

# Section 5: a document, and the names of its members with their pointers.
EXAMPLES = {"": "/", "foo": "/foo", "a/b": "/a~1b", "c%d": "/c%d", "e^f": "/e^f", "g|h": "/g|h",
            "i\\j": "/i\\j", 'k"l': '/k"l', " ": "/ ", "m~n": "/m~0n"}
# Sections 3 and 4: ~0 and ~1, one after the other.
MORE = {"~1": "/~01", "~": "/~0", "/": "/~1", "~/": "/~0~1", "/~": "/~1~0", "~0": "/~00",
        "//": "/~1~1", "é/ü": "/é~1ü", "_a~b/c": "/_a~0b~1c", "0": "/0"}


def at(value, pointer):
    """What a pointer leads to (section 4)."""
    for token in pointer.split("/")[1:]:
        name = token.replace("~1", "/").replace("~0", "~")
        value = value[int(name)] if isinstance(value, list) else value[name]
    return value


def document(**members):
    """A document."""
    return {"asset": {"version": "2.0"}, **members}


def primitive(attributes):
    """A document of a primitive with these attributes, after another one."""
    return document(meshes=[{"primitives": [{"attributes": {}}, {"attributes": attributes}]}])


def attribute(name):
    """A document with an attribute of this name, which no list has."""
    token = name.replace("~", "~0").replace("/", "~1")
    return primitive({name: 9}), f"/meshes/0/primitives/1/attributes/{token}", 9


# A document, the pointer to the one thing that is wrong in it, and what stands there; and what is
# wrong.
OUT, INVALID = "Index out of bounds", "Invalid value"
FAULTY = [
    (*attribute("a/b"), INVALID),
    (*attribute("m~n"), INVALID),
    (*attribute("~1"), INVALID),
    (*attribute(""), INVALID),
    (*attribute("_A/B~C"), OUT),
    (*attribute("POSITION"), OUT),
    (*attribute("TEXCOORD_1"), OUT),
    (document(scene=0), "/scene", 0, OUT),
    (document(nodes=[{}, {"children": [0, 7]}]), "/nodes/1/children/1", 7, OUT),
    (document(bufferViews=[{"buffer": 3, "byteLength": 1}]), "/bufferViews/0/buffer", 3, OUT),
    (document(nodes=[{}, {"mesh": "x"}]), "/nodes/1/mesh", "x", "wrong kind"),
    (document(buffers=[{"byteLength": -1}]), "/buffers/0/byteLength", -1, "wrong kind"),
    (document(extensions={"KHR_lights_punctual": {"lights": [5]}}),
     "/extensions/KHR_lights_punctual/lights/0", 5, "wrong kind"),
    ([], "", [], "wrong kind"),
]


def text(value):
    """The JSON text of a value."""
    return json.dumps(value, separators=(",", ":"), ensure_ascii=False)


def rows():
    """The pointers of names, of lists of steps, and of what is wrong with documents."""
    whole = {"foo": ["bar", "baz"], **{name: place for place, name in enumerate([*EXAMPLES, *MORE])
                                       if name != "foo"}}
    for name, pointer in {**EXAMPLES, **MORE}.items():
        assert at(whole, pointer) is whole[name]
        yield f"pointer : {text([name])}", pointer
    yield "pointer : []", ""
    yield 'pointer : ["foo",0]', "/foo/0"
    yield 'pointer : [0,18446744073709551615,"a/b",10,""]', "/0/18446744073709551615/a~1b/10/"
    for value, pointer, wrong, fault in FAULTY:
        assert at(value, pointer) == wrong
        yield f"faults : {text(value)}", f"{pointer}: {fault}"
    # Members that are not there, and several faults in their order.
    yield f"faults : {text(document(buffers=[{}]))}", "/buffers/0/byteLength: missing member"
    yield "faults : {}", "/asset: missing member"
    both = primitive({"a~/": 0, "_b/": 1})
    first, second = (f"/meshes/0/primitives/1/attributes/{it}" for it in ("_b~1", "a~0~1"))
    assert (at(both, first), at(both, second)) == (1, 0)
    yield f"faults : {text(both)}", f"{first}: {OUT}; {second}: {INVALID}"
    yield f"faults : {text(document())}", "accepted"
    yield "faults : {", "no JSON"


ROWS = list(rows())
