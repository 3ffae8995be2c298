"""The rows of findings.py on extensions of objects of which records keep none: channels of animations
with their targets and samplers (glTF 2.0, 5.6 to 5.8), sparse parts of accessors with their indices
and values (5.2 to 5.4). A row may be a text in place of a document."""
import json

EXTENDED = {"extensions": {"EXT_mine": {}}}
DECLARED = {"extensionsUsed": ["EXT_mine"]}
UNKNOWN = [("UNSUPPORTED_EXTENSION", "/extensionsUsed/0")]
CHANNEL, SAMPLER = "/animations/1/channels/0", "/animations/1/samplers/0"
SPARSE = "/accessors/1/sparse"


def undeclared(*places, name="EXT_mine"):
    return [("UNDECLARED_EXTENSION", f"{place}/extensions/{name}") for place in places]


def moving(channel={}, target={}, sampler={}, **others):
    """A document with two animations, of which the second has a channel, its target and a sampler
    with these members."""
    node, times = {"node": 0, "path": "translation"}, {"input": 0, "output": 1}
    first = {"channels": [{"sampler": 0, "target": node}], "samplers": [times]}
    second = {"channels": [{"sampler": 0, "target": node | target} | channel],
              "samplers": [times | sampler]}
    return {
        "accessors": [
            {"componentType": 5126, "count": 2, "type": "SCALAR", "min": [0], "max": [1]},
            {"componentType": 5126, "count": 2, "type": "VEC3"}],
        "nodes": [{"extras": "a root"}], "animations": [first, second], **others}


def replaced(part={}, indices={}, values={}, **others):
    """A document with a sparse accessor, whose parts have these members."""
    sparse = {"count": 1, "indices": {"bufferView": 0, "componentType": 5121} | indices,
              "values": {"bufferView": 1} | values, **part}
    plain = {"componentType": 5121, "count": 3, "type": "SCALAR"}
    return {
        "accessors": [plain, plain | {"sparse": sparse}],
        "buffers": [{"byteLength": 8, "uri": "data:;base64,AAAAAAAAAAA="}],
        "bufferViews": [{"buffer": 0, "byteLength": 4},
                        {"buffer": 0, "byteOffset": 4, "byteLength": 4}], **others}


def text(members):
    return json.dumps({"asset": {"version": "2.0"}, **members})


ROWS = [
    (moving(), []),
    (moving(channel=EXTENDED), undeclared(CHANNEL)),
    (moving(target=EXTENDED), undeclared(f"{CHANNEL}/target")),
    (moving(sampler=EXTENDED), undeclared(SAMPLER)),
    (moving(EXTENDED, EXTENDED, EXTENDED), undeclared(CHANNEL, f"{CHANNEL}/target", SAMPLER)),
    (moving(EXTENDED, EXTENDED, EXTENDED, **DECLARED), UNKNOWN),
    (moving(EXTENDED, extensionsUsed=["EXT_min"]), UNKNOWN + undeclared(CHANNEL)),
    (moving({"extensions": {"EXT_mine": None, "EXT_other": 1}}, **DECLARED),
     UNKNOWN + undeclared(CHANNEL, name="EXT_other")),
    (moving({"extensions": {"EXT_mine": None}}), undeclared(CHANNEL)),
    (moving(target={"extensions": {"KHR_animation_pointer": {"pointer": "/nodes/0/scale"}}}),
     undeclared(f"{CHANNEL}/target", name="KHR_animation_pointer")),
    (moving(sampler={"extensions": {"a/b": {}}}), undeclared(SAMPLER, name="a~1b")),
    (moving(channel={"extensions": {}}), []),
    (moving(channel={"extensions": None}), []),
    (moving(channel={"extras": EXTENDED}, sampler={"extras": '"extensions"'}), []),
    (replaced(), []),
    (replaced(EXTENDED), undeclared(SPARSE)),
    (replaced(indices=EXTENDED), undeclared(f"{SPARSE}/indices")),
    (replaced(values=EXTENDED), undeclared(f"{SPARSE}/values")),
    (replaced(EXTENDED, EXTENDED, EXTENDED, **DECLARED), UNKNOWN),
    (replaced(values={"extras": EXTENDED}), []),
    # Beside others, and in a file that is not loaded.
    (moving(EXTENDED, **EXTENDED), undeclared("", CHANNEL)),
    (moving(EXTENDED, scene=3), [("UNRESOLVED_REFERENCE", "/scene")] + undeclared(CHANNEL)),
    (replaced(EXTENDED, buffers=[{"byteLength": 8, "uri": "data:;base64,AAAA"}]),
     [("BUFFER_BYTE_LENGTH_MISMATCH", "/buffers/0")] + undeclared(SPARSE)),
    # A name that is written with an escape is the same name (RFC 8259, section 7).
    (text(moving(EXTENDED)).replace('"extensions"', '"ext\\u0065nsions"'), undeclared(CHANNEL)),
    (text(moving(EXTENDED, **DECLARED)).replace('"EXT_mine": {}', '"EXT\\u005fmine": {}'), UNKNOWN),
]
