"""Files that are mended before they are read, by each call: of a slice, of bytes that are lent or
given up, out of a reader, of a shelf and of the system. What is answered is written by hand: the
images of the textures, the number of channels of each animation, the attributes of primitives, the
names that were left out of `extensionsRequired`, and the bytes of the blob or of the buffers (glTF
2.0, sections 3.6.1, 3.12, 4.4 and 5.29.2)."""
import json

BASISU, WEBP = "KHR_texture_basisu", "EXT_texture_webp"
PAYLOAD = "data:application/octet-stream;base64,AAEC"
IMAGES = [{"uri": "0.png"}, {"uri": "1.png"}]
BY_WEBP = {"extensions": {WEBP: {"source": 1}}}
FAILED, EARLY = "neither read nor written", "container ends early"
NO_SOURCE = "textures[0].source: missing member"
NO_BLOB = "missing binary portion of binary glTF"


def text(**members):
    """The JSON text of a document."""
    return json.dumps({"asset": {"version": "2.0"}, **members}, separators=(",", ":"))


def webp(**members):
    """The text of a document whose texture has its only image in an extension that is required."""
    return text(extensionsUsed=[WEBP], extensionsRequired=[WEBP], images=IMAGES,
                textures=[BY_WEBP], **members)


def found(shown, also, *bytes_):
    """What a file is answered that is accepted."""
    return "; ".join([f"{shown}, also {json.dumps(also)}", *bytes_])


def mended(*bytes_):
    """The same of a document by `webp`."""
    return found("images 1, channels", [WEBP], *bytes_)


def unsupported(place):
    return f"invalid glTF: extensionsRequired[{place}]: Unsupported extension;"


# Buffers: of a payload, of that and of a file, and of a blob.
ONE = [{"byteLength": 3, "uri": PAYLOAD}]
TWO = [*ONE, {"byteLength": 2, "uri": "b"}]
BLOB = [{"byteLength": 2}]
# Calls without buffers, and with them.
OPENS, IMPORTS = ("file", "lent", "given", "reader"), ("import", "import_lent", "import_given")
# Texts that every call answers alike, with the mends of the word.
ALIKE = [
    ("sources", webp(), mended()),
    ("both", webp(), mended()),
    ("nothing", webp(), NO_SOURCE),
    ("channels", webp(), NO_SOURCE),
    ("new", webp(), NO_SOURCE),
    # the names are those of the caller, and with `new` there are none
    ("nothing", text(extensionsRequired=[WEBP]), found("images, channels", [WEBP])),
    ("sources", text(extensionsRequired=[BASISU, WEBP, BASISU]),
     found("images, channels", [BASISU, WEBP, BASISU])),
    ("new", text(extensionsRequired=[WEBP]), unsupported(0)),
    ("sources", text(extensionsRequired=[WEBP, "A", BASISU]), unsupported(1)),
    # the rules are those of the mended document
    ("sources", text(textures=[BY_WEBP]),
     "invalid glTF: textures[0].source: Index out of bounds;"),
    ("channels", text(animations=[{"samplers": [], "channels": [
        {"sampler": 0, "target": {"path": "pointer"}}]}]), found("images, channels 0", [])),
    ("attributes", text(meshes=[{"primitives": [{"attributes": {"uv1": 0}}]}]),
     found("images, channels, attributes", [])),
    # nothing to mend
    ("new", text(), found("images, channels", [])),
    ("both", text(), found("images, channels", [])),
    ("new", text(images=IMAGES, textures=[{"source": 1}]), found("images 1, channels", [])),
    ("sources", text(images=IMAGES, textures=[{"source": 0, **BY_WEBP}]),
     found("images 0, channels", [])),
    ("new", text(scene=0), "invalid glTF: scene: Index out of bounds;"),
    # what does not hold as it stands
    ("both", '{"a":0}', "asset: missing member"),
    ("both", "[1,2]", ": wrong kind"),
    ("both", "[1,2", "no JSON"),
    ("new", "[1,2", "no JSON"),
]
FILES = {
    "webp.gltf": webp(buffers=[{"byteLength": 3, "uri": "webp.bin"}]),
    "webp.bin": "abc",
}


def rows():
    """The files, each by the calls that it is for."""
    for word, file, answer in ALIKE:
        for call in (*OPENS, *IMPORTS):
            yield f"{call} {word} : {file}", answer
        yield f"shelf {word} a.gltf : {file}", answer
    # Buffers: of a payload, of the blob, and of other files.
    for call in OPENS:
        yield f"{call} sources : {webp(buffers=TWO)}", mended()
        yield f"+0506 {call} sources : {webp(buffers=BLOB)}", mended("blob 05060000")
        yield f"+0506 {call} nothing : {webp(buffers=BLOB)}", NO_SOURCE
        yield f"+0506 {call} new : {text(buffers=BLOB)}", found(
            "images, channels", [], "blob 05060000")
    for call in IMPORTS:
        yield f"{call} sources : {webp(buffers=ONE)}", mended("buffer 00010200")
        yield f"{call} nothing : {webp(buffers=ONE)}", NO_SOURCE
        yield f"{call} sources : {webp(buffers=BLOB)}", NO_BLOB
        yield f"+0506 {call} sources : {webp(buffers=BLOB)}", mended("buffer 05060000")
        yield f"+0506 {call} new : {text(buffers=BLOB)}", found(
            "images, channels", [], "buffer 05060000")
        yield f"{call} sources : {webp(buffers=TWO)}", "external reference in slice only import"
    shelf = "shelf sources a.gltf"
    yield f"+05060708 {shelf} : {webp(buffers=BLOB)}", mended("buffer 05060708")
    yield f"{shelf} b=0304 : {webp(buffers=TWO)}", mended("buffer 00010200", "buffer 03040000")
    # The source fails at the path or at a buffer. Of a document that is refused no buffer is asked
    # for.
    yield f"shelf sources b.gltf : {webp(buffers=TWO)}", f"{FAILED}; b.gltf failed"
    yield f"{shelf} fail=0 b=0304 : {webp(buffers=TWO)}", f"{FAILED}; a.gltf failed"
    yield f"{shelf} fail=1 b=0304 : {webp(buffers=TWO)}", f"{FAILED}; b failed"
    yield f"{shelf} c=0304 : {webp(buffers=TWO)}", f"{FAILED}; b failed"
    yield f"shelf nothing a.gltf fail=1 b=0304 : {webp(buffers=TWO)}", NO_SOURCE
    # A reader that fails after so many bytes. Of a text it is asked for more until it ends; of a
    # container for no more than its header declares.
    for at in (0, 1, 3, 4, 20, len(webp())):
        yield f"reader sources {at} : {webp()}", FAILED
    whole = 12 + 8 + (len(webp(buffers=BLOB)) + 3) // 4 * 4 + 8 + 4
    for at in (0, 3):
        yield f"+0506 reader sources {at} : {webp(buffers=BLOB)}", FAILED
    for at in (4, 12, 20, whole - 1):
        yield f"+0506 reader sources {at} : {webp(buffers=BLOB)}", EARLY
    yield f"+0506 reader sources {whole} : {webp(buffers=BLOB)}", mended("blob 05060000")
    yield f"+0506 reader nothing {whole} : {webp(buffers=BLOB)}", NO_SOURCE
    # Files of the system.
    yield "path sources webp.gltf", mended("buffer 61626300")
    yield "path nothing webp.gltf", NO_SOURCE
    yield "path new webp.gltf", NO_SOURCE
    yield "path sources missing.gltf", FAILED


ROWS = [(f"lenient {row}", answer) for row, answer in rows()]
