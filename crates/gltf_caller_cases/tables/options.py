"""Files that require extensions which the caller handles (glTF 2.0, section 3.12): names of the
list leave `extensionsRequired`, and come beside the document in the order of the file. What is left
has to be supported by the loader; a name that is not is reported at its place in the file. The rest
is as in a file that requires no such extension."""
import json
import pathlib

EXAMPLES = pathlib.Path(__file__).resolve().parents[3] / "examples" / "two files"


def text(**members):
    """The JSON text of a document."""
    return json.dumps({"asset": {"version": "2.0"}, **members}, separators=(",", ":"))


def names(list_):
    """A list of names, as a program prints it."""
    return json.dumps(list_)


def answer(used, required, also, *buffers):
    """What a file is answered that is accepted."""
    parts = f"used {names(used)}, required {names(required)}, also {names(also)}"
    return "; ".join([parts, *buffers])


def unsupported(*places, before=""):
    """What a file is answered that requires more, by the places of these names in the file; `before`
    are faults of members that come first."""
    return "invalid glTF:" + before + "".join(
        f" extensionsRequired[{it}]: Unsupported extension;" for it in places)


USED, UNLIT = ["A", "B"], "KHR_materials_unlit"
FOUR = text(extensionsUsed=USED, extensionsRequired=["A", UNLIT, "B", "A"])
# Lists of the caller's, and what they make of these four names.
LISTS = [
    ("A,B", answer(USED, [UNLIT], ["A", "B", "A"])),
    ("B,A", answer(USED, [UNLIT], ["A", "B", "A"])),
    ("B,B,C,A", answer(USED, [UNLIT], ["A", "B", "A"])),
    # Of the names that are left, B is the second; in the file it is the third.
    ("A", unsupported(2)),
    ("B", unsupported(0, 3)),
    ("-", unsupported(0, 2, 3)),
    # A name counts whole, byte by byte.
    ("a,b", unsupported(0, 2, 3)),
    ("AA,B", unsupported(0, 3)),
    # A name that the loader supports leaves too, where the list has it.
    (f"A,{UNLIT},B", answer(USED, [], ["A", UNLIT, "B", "A"])),
]
# Names in the order of a file, which all have a fault but those of the caller's and the supported.
SHORT = [
    (["A", "X"], "A"),
    (["X", "A"], "A"),
    (["A", "A", "X"], "A"),
    (["X", "A", "Y"], "A"),
    (["A", "X", "B"], "A,B"),
    (["A", "X", "A", "X"], "A"),
    (["X", "A", "X", "A"], "A"),
    ([UNLIT, "A", "X"], "A"),
    (["A", UNLIT, "X"], f"A,{UNLIT}"),
    (["A", "X", "B", UNLIT, "Y", "A", "X"], "B,A"),
]
# Parts of a name, and what is near to one.
TERRAIN = text(extensionsRequired=["STUDIO_terrain"])
NEAR = ["STUDIO_terrai", "STUDIO_terrain_", "STUDIO", "TUDIO_terrain", "studio_terrain",
        "STUDIO_Terrain", "STUDIO-terrain"]

PAYLOAD = "data:application/octet-stream;base64,AAEC"
BUFFERS = [{"byteLength": 3, "uri": PAYLOAD}, {"byteLength": 2, "uri": "b"}]
ONE, BOTH = (text(extensionsRequired=["A"], buffers=it) for it in (BUFFERS[:1], BUFFERS))
TAKEN = answer([], [], ["A"])
PLAIN = text(extensionsRequired=["A"], buffers=[{"byteLength": 2}])
BROKEN = text(extensionsRequired=["A"], scene=0)
TWO_BROKEN = text(extensionsRequired=["B", "A", "C"], scene=0)

# Texts without names of the caller's: the call of the loader, and the same with no list.
SAME = [
    (text(), answer([], [], [])),
    (text(extensionsUsed=["A"]), answer(["A"], [], [])),
    (text(extensionsRequired=[UNLIT]), answer([], [UNLIT], [])),
    (text(extensionsRequired=["A"]), unsupported(0)),
    (text(extensionsRequired=[UNLIT, "A", "B"]), unsupported(1, 2)),
    (text(buffers=BUFFERS[:1]), answer([], [], [], "00010200")),
    (text(buffers=BUFFERS), "external reference in slice only import"),
    (text(buffers=[{"byteLength": 4, "uri": PAYLOAD}]), answer([], [], [], "00010200")),
    (text(buffers=[{"byteLength": 5, "uri": PAYLOAD}]),
     "buffer 0: expected 5 bytes but received 4 bytes"),
    (text(buffers=[{"byteLength": 1}]), "missing binary portion of binary glTF"),
    (text(buffers=[{}]), "buffers[0].byteLength: missing member"),
    (text(scene=0), "invalid glTF: scene: Index out of bounds;"),
    ("{", "no JSON"),
    ("", "no JSON"),
    ("{}", "asset: missing member"),
]


def rows():
    """The files, each by the calls that it is for."""
    for list_, found in LISTS:
        yield f"slice {list_} : {FOUR}", found
        yield f"file {list_} : {FOUR}", found
        yield f"reader {list_} : {FOUR}", f"{found}; {len(FOUR)} given"
        yield f"shelf {list_} a.gltf : {FOUR}", found
    for required, list_ in SHORT:
        handled = [UNLIT, *list_.split(",")]
        places = [it for it, name in enumerate(required) if name not in handled]
        for call in ("slice", "file"):
            yield f"{call} {list_} : {text(extensionsRequired=required)}", unsupported(*places)
    for near in NEAR:
        yield f"slice {near} : {TERRAIN}", unsupported(0)
    yield f"slice STUDIO_terrain : {TERRAIN}", answer([], [], ["STUDIO_terrain"])
    for file, found in SAME:
        yield f"import : {file}", found
        yield f"slice - : {file}", found
    # A list of names that a file does not require changes nothing.
    yield f"slice A,B : {text(extensionsRequired=[UNLIT])}", answer([], [UNLIT], [])
    yield f"slice A : {text(extensionsUsed=['A'])}", answer(["A"], [], [])
    # The other rules hold as before, and come in the order of the members.
    yield f"slice A : {BROKEN}", "invalid glTF: scene: Index out of bounds;"
    yield f"file A : {BROKEN}", "invalid glTF: scene: Index out of bounds;"
    for list_, places in (("-", (0, 1, 2)), ("A", (0, 2)), ("B", (1, 2)), ("B,A", (2,))):
        found = unsupported(*places, before=" scene: Index out of bounds;")
        yield f"slice {list_} : {TWO_BROKEN}", found
    # Buffers: of a payload, of the blob, and of a shelf.
    yield f"slice A : {ONE}", f"{TAKEN}; 00010200"
    yield f"file A : {ONE}", TAKEN
    yield f"slice A : {BOTH}", "external reference in slice only import"
    yield f"file A : {BOTH}", TAKEN
    yield f"slice A : {PLAIN}", "missing binary portion of binary glTF"
    yield f"slice +0506 A : {PLAIN}", f"{TAKEN}; 05060000"
    yield f"file +0506 A : {PLAIN}", f"{TAKEN}; blob 05060000"
    yield f"slice +0506 B : {PLAIN}", unsupported(0)
    yield f"shelf +05060708 A a.gltf : {PLAIN}", f"{TAKEN}; 05060708"
    yield f"shelf A a.gltf b=0304 : {BOTH}", f"{TAKEN}; 00010200; 03040000"
    # The source fails at the path or at a buffer. Of a document that is refused no buffer is asked
    # for.
    failed = "neither read nor written"
    yield f"shelf A b.gltf : {ONE}", f"{failed}; b.gltf failed"
    yield f"shelf A a.gltf fail=0 b=0304 : {BOTH}", f"{failed}; a.gltf failed"
    yield f"shelf A a.gltf fail=1 b=0304 : {BOTH}", f"{failed}; b failed"
    yield f"shelf A a.gltf fail=2 b=0304 : {BOTH}", f"{TAKEN}; 00010200; 03040000"
    yield f"shelf A a.gltf c=0304 : {BOTH}", f"{failed}; b failed"
    yield f"shelf B a.gltf fail=1 b=0304 : {BOTH}", unsupported(0)
    # Readers that end early or fail, after so many bytes. Fewer than the four bytes that could
    # begin a container are an I/O error, as a failure is; a text that ends later is no JSON.
    yield f"reader A end:{len(ONE)} : {ONE}", f"{TAKEN}; {len(ONE)} given"
    for at in (0, 1, 3):
        yield f"reader A end:{at} : {ONE}", f"{failed}; {at} given"
    for at in (4, 20, len(ONE) - 1):
        yield f"reader A end:{at} : {ONE}", f"no JSON; {at} given"
    for at in (0, 1, 4, 20, len(ONE)):
        yield f"reader A fail:{at} : {ONE}", f"{failed}; {at} given"
    # A container of a header and the heads of two chunks.
    whole = 12 + 8 + (len(PLAIN) + 3) // 4 * 4 + 8 + 4
    yield f"reader +0506 A : {PLAIN}", f"{TAKEN}; blob 05060000; {whole} given"
    yield f"reader +0506 A fail:{whole} : {PLAIN}", f"{TAKEN}; blob 05060000; {whole} given"
    for how in ("end", "fail"):
        for at in (4, 12, 20, whole - 1):
            yield f"reader +0506 A {how}:{at} : {PLAIN}", f"container ends early; {at} given"
    # Files of the system.
    data = (EXAMPLES / "square data.bin").read_bytes().hex()
    for list_ in ("-", "A"):
        yield f"beside {list_} square.gltf", answer([], [], [], data)
        yield f"beside {list_} missing.gltf", failed
    # The code of docs/LIBRARY.md.
    both = ["STUDIO_terrain", "KHR_mesh_quantization"]
    yield f"imported : {text(extensionsRequired=both)}", answer([], [], both)
    yield f"imported : {text(extensionsRequired=[*both, 'A'])}", unsupported(len(both))


ROWS = list(rows())
