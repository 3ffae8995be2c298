"""Documents that are refused as they stand, since an extension says what the format asks for. What
is answered is written by hand: the images of the textures, and the number of channels of each
animation."""
import json

BASISU, WEBP = "KHR_texture_basisu", "EXT_texture_webp"


def document(**members):
    return json.dumps({"asset": {"version": "2.0"}, **members}, separators=(",", ":"))


def textured(*textures):
    return document(images=[{"uri": f"{i}.png"} for i in range(4)], textures=list(textures))


def animated(*animations):
    """Animations whose channels name these nodes; None is a channel that names none."""
    def channel(node):
        target = {"path": "translation", **({} if node is None else {"node": node})}
        return {"sampler": 0, "target": target}
    return document(
        nodes=[{}],
        accessors=[{"componentType": 5126, "count": 1, "type": "SCALAR", "min": [0], "max": [0]},
                   {"componentType": 5126, "count": 1, "type": "VEC3"}],
        animations=[{"samplers": [{"input": 0, "output": 1}],
                     "channels": [channel(node) for node in nodes]} for nodes in animations])


def meshes(*primitives):
    """A mesh of primitives with attributes of these names, all of accessor 0."""
    return document(
        accessors=[{"componentType": 5126, "count": 1, "type": "VEC3",
                    "min": [0, 0, 0], "max": [0, 0, 0]}],
        meshes=[{"primitives": [{"attributes": dict.fromkeys(names, 0)} for names in primitives]}])


def by(name, source):
    return {"extensions": {name: {"source": source}}}


both = {"extensions": {WEBP: {"source": 2}, BASISU: {"source": 3}}}
pointer = {"sampler": 0, "target": {"path": "pointer", "extensions": {
    "KHR_animation_pointer": {"pointer": "/nodes/0/rotation"}}}}
missing = "%s: missing member"
unknown = "invalid glTF: meshes[0].primitives[%d].attributes[\"%s\"]: Invalid value;"
no_source = missing % "textures[0].source"
no_node = missing % "animations[0].channels[0].target.node"

ROWS = [(f"mended {word} {text}", answer) for word, text, answer in [
    # images by extensions
    ("nothing", textured({"source": 1}), "images 1, channels"),
    ("nothing", textured(by(WEBP, 2)), no_source),
    ("channels", textured(by(WEBP, 2)), no_source),
    ("sources", textured(by(WEBP, 2)), "images 2, channels"),
    ("sources", textured(by(BASISU, 3)), "images 3, channels"),
    ("both", textured(by(BASISU, 3)), "images 3, channels"),
    ("sources", textured(both), "images 3, channels"),
    ("sources", textured({"source": 0, **both}), "images 0, channels"),
    ("sources", textured({"source": None, **both}), "images 3, channels"),
    ("sources", textured(both, {"source": 1}, by(WEBP, 0)), "images 3 1 0, channels"),
    ("sources", textured(by("MSFT_texture_dds", 2)), no_source),
    ("sources", textured({}), no_source),
    ("sources", textured({"extensions": None}), no_source),
    ("sources", textured({"extensions": {WEBP: {}}}), no_source),
    ("sources", textured({"extensions": {WEBP: {"source": "2"}}}), no_source),
    ("sources", textured({"extensions": {WEBP: {"source": -1}}}), no_source),
    ("sources", textured({"extensions": {BASISU: {"source": None}, WEBP: {"source": 1}}}),
     "images 1, channels"),
    ("sources", textured(by(WEBP, 4)),
     "invalid glTF: textures[0].source: Index out of bounds;"),
    ("sources", document(textures=None), "images, channels"),
    ("sources", document(), "images, channels"),
    # channels without a node
    ("nothing", animated([0]), "images, channels 1"),
    ("nothing", animated([None]), no_node),
    ("sources", animated([None]), no_node),
    ("channels", animated([None]), "images, channels 0"),
    ("channels", animated([0, None, 0]), "images, channels 2"),
    ("channels", animated([None, 0], [0], [None, None]), "images, channels 1 1 0"),
    ("both", animated([None, 0]), "images, channels 1"),
    ("channels", document(animations=[{"samplers": [], "channels": [pointer]}]),
     "images, channels 0"),
    ("channels", document(animations=[{"samplers": [], "channels": [
        {"sampler": 0, "target": {"node": None, "path": "weights"}}]}]), "images, channels 0"),
    ("channels", document(animations=[{"samplers": [], "channels": [{"sampler": 0}]}]),
     missing % "animations[0].channels[0].target"),
    ("channels", animated([1]),
     "invalid glTF: animations[0].channels[0].target.node: Index out of bounds;"),
    ("channels", document(animations=[]), "images, channels"),
    ("channels", document(), "images, channels"),
    # attributes of other names
    ("nothing", meshes(["POSITION"]), "images, channels, attributes POSITION"),
    ("nothing", meshes(["POSITION", "uv1"]), unknown % (0, "uv1")),
    ("both", meshes(["POSITION", "uv1"]), unknown % (0, "uv1")),
    ("attributes", meshes(["POSITION", "uv1"]), "images, channels, attributes POSITION"),
    ("attributes", meshes(["position", "POSITION", "_position", "Position"]),
     "images, channels, attributes _position POSITION"),
    ("attributes", meshes(["TEXCOORD", "TEXCOORD_", "TEXCOORD_00", "TEXCOORD_01", "TEXCOORD_0",
                           "TEXCOORD_+1", "TEXCOORD_1 ", "TEXCOORD_1a", "TEXCOORD_10"]),
     "images, channels, attributes TEXCOORD_0 TEXCOORD_10"),
    ("attributes", meshes(["COLOR_4294967295", "COLOR_4294967296", "COLOR_99999999999999999999"]),
     "images, channels, attributes COLOR_4294967295"),
    ("attributes", meshes(["JOINTS_0", "WEIGHTS_0", "JOINT", "WEIGHT_0", "NORMAL_0", "TANGENTS",
                           "NORMAL", "TANGENT", "BINORMAL"]),
     "images, channels, attributes NORMAL TANGENT JOINTS_0 WEIGHTS_0"),
    ("attributes", meshes(["_", "__", "_0"]), "images, channels, attributes _ _0 __"),
    ("attributes", meshes(["", "a"], ["POSITION"], ["b"]),
     "images, channels, attributes, attributes POSITION, attributes"),
    ("attributes", document(meshes=[{"primitives": [{"attributes": {"a": "no index"}}]}]),
     "images, channels, attributes"),
    ("attributes", document(meshes=[{"primitives": [{"attributes": []}]}]),
     "meshes[0].primitives[0].attributes: wrong kind"),
    ("attributes", document(meshes=[{"primitives": [{}]}]),
     missing % "meshes[0].primitives[0].attributes"),
    ("attributes", document(meshes=[]), "images, channels"),
    ("attributes", document(), "images, channels"),
    # what does not hold as it stands
    ("both", "{", "EOF while parsing at line 1 column 1"),
    ("both", "[]", ": wrong kind"),
]]
