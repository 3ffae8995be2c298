"""What each reader gives of an accessor of each type and dimensions, and what is cast of it: from
the tables below and the bytes that stand in a file, and not from the program."""
import json
import struct

# The types of components (glTF 2.0, section 3.6.2.2): code, and how the bytes of one are read. A
# float is printed as its bytes.
TYPES = {
    "I8": (5120, "b"),
    "U8": (5121, "B"),
    "I16": (5122, "h"),
    "U16": (5123, "H"),
    "U32": (5125, "I"),
    "F32": (5126, "4s"),
}
# How many components an item has.
DIMENSIONS = {"SCALAR": 1, "VEC2": 2, "VEC3": 3, "VEC4": 4, "MAT2": 4, "MAT3": 9, "MAT4": 16}

# What is read (3.7.2.1, 3.7.3, 3.11), by the type of components and the dimensions of an accessor:
# the name of the variant that holds the items, and the type and number of components of an item.
COLORS = {
    **{(it, "VEC3"): (f"Rgb{it}", it, 3) for it in ("U8", "U16", "F32")},
    **{(it, "VEC4"): (f"Rgba{it}", it, 4) for it in ("U8", "U16", "F32")},
}


def by_type(types, components):
    """The table of a reader that looks at the type of components alone."""
    return {(it, like): (it, it, components) for it in types.split() for like in DIMENSIONS}


def floats(components):
    """The table of a reader that reads floats and has no variants."""
    return {(it, like): ("", "F32", components) for it in TYPES for like in DIMENSIONS}


VERTICES = {
    "positions": floats(3),
    "normals": floats(3),
    "tangents": floats(4),
    "colors": COLORS,
    "indices": by_type("U8 U16 U32", 1),
    "joints": by_type("U8 U16", 4),
    "tex_coords": by_type("U8 U16 F32", 2),
    "weights": by_type("U8 U16 F32", 4),
}
DISPLACEMENTS = floats(3)
MATRICES = floats(16)
INPUTS = floats(1)
# By the property that is animated, which is the name of a variant too.
OUTPUTS = {
    "Translations": floats(3),
    "Rotations": by_type("I8 U8 I16 U16 F32", 4),
    "Scales": floats(3),
    "MorphTargetWeights": by_type("I8 U8 I16 U16 F32", 1),
}
# How members are named: of attributes those of a set, and of channels the path.
ATTRIBUTES = {
    "positions": "POSITION",
    "normals": "NORMAL",
    "tangents": "TANGENT",
    "colors": "COLOR_{}",
    "joints": "JOINTS_{}",
    "tex_coords": "TEXCOORD_{}",
    "weights": "WEIGHTS_{}",
}
PATHS = {
    "Translations": "translation",
    "Rotations": "rotation",
    "Scales": "scale",
    "MorphTargetWeights": "weights",
}
# What each number is cast to, by its type and the other. Division goes towards zero.
CASTS = {
    ("I8", "I8"): lambda x: x,
    ("I8", "U8"): lambda x: 2 * max(x, 0),
    ("I8", "I16"): lambda x: 256 * x,
    ("I8", "U16"): lambda x: 512 * max(x, 0),
    ("U8", "I8"): lambda x: x // 2,
    ("U8", "U8"): lambda x: x,
    ("U8", "I16"): lambda x: 128 * x,
    ("U8", "U16"): lambda x: 256 * x,
    ("I16", "I8"): lambda x: x // 256 if x >= 0 else -(-x // 256),
    ("I16", "U8"): lambda x: max(x, 0) // 128,
    ("I16", "I16"): lambda x: x,
    ("I16", "U16"): lambda x: 2 * max(x, 0),
    ("U16", "I8"): lambda x: x // 512,
    ("U16", "U8"): lambda x: x // 256,
    ("U16", "I16"): lambda x: x // 2,
    ("U16", "U16"): lambda x: x,
}
# The numbers that are cast, twelve of each type, so that they are items of one to four components:
# those round the steps of a division, and the least and the greatest.
CAST_NUMBERS = {
    "I8": [-128, -127, -65, -2, -1, 0, 1, 2, 63, 64, 126, 127],
    "U8": [0, 1, 2, 3, 63, 127, 128, 129, 200, 253, 254, 255],
    "I16": [-32768, -32767, -512, -257, -256, -255, -1, 0, 127, 128, 256, 32767],
    "U16": [0, 1, 255, 256, 257, 511, 512, 513, 32767, 32768, 65534, 65535],
    "U32": [0, 1, 255, 256, 65535, 65536, 2**24, 2**31 - 1, 2**31, 2**32 - 3, 2**32 - 2, 2**32 - 1],
    "F32": [bytes([at, 0, 128, 63]) for at in range(12)],
}
# What the second morph target of a file does not have.
UNNAMED = ("second positions", "second tangents")


def numbered(length, first):
    """Bytes that are all different up to 256, from one of many."""
    return bytes((129 + 37 * (first + at)) % 256 for at in range(length))


def form(component):
    """How numbers of a type stand in bytes, the lowest byte first."""
    return "<" + TYPES[component][1]


def size_of(component, dimensions):
    """How many bytes an item of an accessor takes."""
    return struct.calcsize(form(component)) * DIMENSIONS[dimensions]


def items_of(component, components, data):
    """The items that bytes spell, one behind the other, each a list of its components."""
    numbers = [it[0] for it in struct.iter_unpack(form(component), data)]
    return [numbers[at : at + components] for at in range(0, len(numbers), components)]


def printed(item):
    """An item as it is printed: a number, a vector, or a matrix of four columns."""
    if isinstance(item, bytes):
        return "F32 { bytes: %s }" % list(item)
    if isinstance(item, int):
        return str(item)
    if len(item) == 16:
        item = [item[at : at + 4] for at in range(0, 16, 4)]
    return printed(item[0]) if len(item) == 1 else "[%s]" % ", ".join(map(printed, item))


def shown(name, items):
    """Items behind the name of their variant, if they have one."""
    return (name + " " if name else "") + "[%s]" % ", ".join(map(printed, items))


def read(table, component, dimensions, data):
    """What a line tells of a reader, by its table, of an accessor over these bytes. There are no
    items where the table has no row, or where one takes another number of bytes than the
    accessor's."""
    name, of, components = table.get((component, dimensions), ("", "", 0))
    if not of or struct.calcsize(form(of)) * components != size_of(component, dimensions):
        return "none"
    return shown(name, items_of(of, components, data))


def line(gives, targets=2):
    """What a line tells of all readers, where a function tells it of each, by name and table."""
    parts = [f"{name} {gives(name, table)}" for name, table in VERTICES.items()]
    parts.append(f"{targets} morph targets")
    for target in ("first", "second"):
        names = ("positions", "normals", "tangents")
        displaced = [f"{name} {gives(f'{target} {name}', DISPLACEMENTS)}" for name in names]
        parts.append(f"{target} {', '.join(displaced) if targets else 'none'}")
    # However far behind the last target: there is none, and none is left.
    parts.append("behind none of 0")
    parts.append(f"inverse_bind_matrices {gives('inverse_bind_matrices', MATRICES)}")
    for name, table in OUTPUTS.items():
        values = gives(name, table)
        parts.append(f"inputs {gives(f'inputs of {name}', INPUTS)}")
        parts.append(f"outputs {values if values == 'none' else name + ' ' + values}")
    return "; ".join(parts)


def accessor(component, dimensions, count, offset=0, **more):
    """The record of an accessor, whose items stand from an offset on."""
    code = TYPES[component][0]
    place = {"bufferView": 0, "byteOffset": offset, "componentType": code}
    return {**place, "count": count, "type": dimensions, **more}


def document(length, accessors, **members):
    """A file with accessors over so many bytes of its container."""
    whole = {
        "asset": {"version": "2.0"},
        "buffers": [{"byteLength": length}],
        "bufferViews": [{"buffer": 0, "byteLength": length}],
        "accessors": accessors,
        "nodes": [{}],
        **members,
    }
    return json.dumps(whole, separators=(",", ":"))


def meshes(attributes, **members):
    """A mesh with one primitive, which has these attributes."""
    return [{"primitives": [{"attributes": attributes, **members}]}]


def animations(samplers):
    """An animation with a channel for each property and the accessors that it names."""
    targets = [{"node": 0, "path": PATHS[it]} for it in samplers]
    channels = [{"sampler": at, "target": target} for at, target in enumerate(targets)]
    return [{"channels": channels, "samplers": list(samplers.values())}]


def used(number, set_number):
    """Members that name accessors for all that is read, by a function that gives the number of
    one by the name of its reader. The second morph target has no more than normals."""
    names = ("positions", "normals", "tangents", "colors", "joints", "tex_coords", "weights")
    attributes = {ATTRIBUTES[it].format(set_number): number(it) for it in names}
    first = {ATTRIBUTES[it]: number(f"first {it}") for it in names[:3]}
    targets = [first, {"NORMAL": number("second normals")}]
    samplers = {it: {"input": number(f"inputs of {it}"), "output": number(it)} for it in OUTPUTS}
    return {
        "meshes": meshes(attributes, indices=number("indices"), targets=targets),
        "skins": [{"joints": [0], "inverseBindMatrices": number("inverse_bind_matrices")}],
        "animations": animations(samplers),
    }


def kinds():
    """A case for each type of components and dimensions: an accessor of two items, whose bytes are
    all different, for all that is read."""
    rows = []
    pairs = [(it, like) for it in TYPES for like in DIMENSIONS]
    for place, kind in enumerate(pairs):
        data = numbered(2 * size_of(*kind), place)
        set_number = (0, 1, 2**32 - 1)[place % 3]
        file = document(len(data), [accessor(*kind, 2)], **used(lambda _name: 0, set_number))

        def gives(name, table):
            return "none" if name in UNNAMED else read(table, *kind, data)

        rows.append((f"readers +{data.hex()} {set_number} : {file}", line(gives)))
    return rows


def absent():
    """Cases where readers have nothing to read: no member names an accessor, attributes are of
    another set, and a view ends before the last item."""
    kind, data = ("F32", "VEC3"), numbered(24, 0)
    samplers = {it: {"input": 0, "output": 0} for it in OUTPUTS}
    bare = {"meshes": meshes({}), "skins": [{"joints": [0]}], "animations": animations(samplers)}
    all_used = used(lambda _name: 0, 0)

    def keyframes(name, table):
        return read(table, *kind, data) if name in OUTPUTS else "none"

    def all_but_colors(name, table):
        return "none" if name in (*UNNAMED, "colors") else read(table, *kind, data)

    return [
        (
            f"readers +{data.hex()} 0 : {document(24, [accessor(*kind, 2)], **bare)}",
            line(keyframes, targets=0),
        ),
        (
            f"readers +{data.hex()} 1 : {document(24, [accessor(*kind, 2)], **all_used)}",
            line(all_but_colors),
        ),
        (
            f"readers +{data.hex()} 0 : {document(24, [accessor(*kind, 3)], **all_used)}",
            line(lambda _name, _table: "none"),
        ),
    ]


def apart():
    """A case where each reader has an accessor of its own, with items that no other has."""
    kinds = {
        "colors": ("U8", "VEC4"),
        "indices": ("U16", "SCALAR"),
        "joints": ("U8", "VEC4"),
        "tex_coords": ("U16", "VEC2"),
        "weights": ("U8", "VEC4"),
        "tangents": ("F32", "VEC4"),
        "inverse_bind_matrices": ("F32", "MAT4"),
        "Rotations": ("I16", "VEC4"),
        "MorphTargetWeights": ("I8", "SCALAR"),
        **{f"inputs of {it}": ("F32", "SCALAR") for it in OUTPUTS},
    }
    places, accessors, end = {}, [], 0

    def number(name):
        nonlocal end
        kind = kinds.get(name, ("F32", "VEC3"))
        places[name] = end, kind
        accessors.append(accessor(*kind, 1, end))
        end += size_of(*kind)
        return len(accessors) - 1

    members = used(number, 0)
    data = numbered(end, 0)

    def gives(name, table):
        if name not in places:
            return "none"
        at, kind = places[name]
        return read(table, *kind, data[at : at + size_of(*kind)])

    return f"readers +{data.hex()} 0 : {document(end, accessors, **members)}", line(gives)


def replaced():
    """Cases over a sparse accessor (3.6.2.3): 10 20 30 40, where items 1 and 3 are 7 and 9."""
    data = struct.pack("<4H2B2x2H", 10, 20, 30, 40, 1, 3, 7, 9)
    items = struct.pack("<4H", 10, 7, 30, 9)
    indices = {"bufferView": 0, "byteOffset": 8, "componentType": 5121}
    sparse = {"count": 2, "indices": indices, "values": {"bufferView": 0, "byteOffset": 12}}
    accessors = [accessor("U16", "SCALAR", 4, sparse=sparse)]
    file = document(len(data), accessors, **used(lambda _name: 0, 0))

    def gives(name, table):
        return "none" if name in UNNAMED else read(table, "U16", "SCALAR", items)

    return [
        (f"readers +{data.hex()} 0 : {file}", line(gives)),
        (f"cast +{data.hex()} indices into_u32 : {file}", "into_u32 [10, 7, 30, 9]"),
        # What is left is given back as it was.
        (
            f"cast +{data.hex()} indices into_u32,hint,next,nth:1,unwrap into_u32,last : {file}",
            "into_u32,hint,next,nth:1,unwrap (4, Some(4)), Some(10), Some(30), 1 left: U16 [9]; "
            "into_u32,last Some(9), 4 left",
        ),
    ]


# The calls that cast what is read, the type of numbers that they cast to, and how many components a
# colour has then.
NUMBERS = {f"into_{it.lower()}": (it, None) for it in ("I8", "U8", "I16", "U16")}
CALLS = {
    "colors": {
        "into_rgb_u8": ("U8", 3),
        "into_rgb_u16": ("U16", 3),
        "into_rgba_u8": ("U8", 4),
        "into_rgba_u16": ("U16", 4),
    },
    "indices": {"into_u32": ("U32", None)},
    "joints": {"into_u16": ("U16", None)},
    "tex_coords": {"into_u8": ("U8", None), "into_u16": ("U16", None)},
    "weights": {"into_u8": ("U8", None), "into_u16": ("U16", None)},
    "Rotations": NUMBERS,
    "MorphTargetWeights": NUMBERS,
}


def cast_case(name, component, dimensions, numbers, calls):
    """A case that casts what is read of an accessor of these numbers."""
    data = b"".join(struct.pack(form(component), it) for it in numbers)
    accessors = [accessor(component, dimensions, len(numbers) // DIMENSIONS[dimensions])]
    if name in OUTPUTS:
        reader = "outputs"
        members = {"animations": animations({name: {"input": 0, "output": 0}})}
    else:
        reader = name
        attributes = {ATTRIBUTES[name].format(0): 0} if name in ATTRIBUTES else {}
        members = {"meshes": meshes(attributes, indices=0)}
    return f"cast +{data.hex()} {reader} {calls} : {document(len(data), accessors, **members)}"


def cast(name, component, item, to, components):
    """An item that is cast. Indices and joints stay as they are; a colour gets the greatest alpha
    where it has none, or loses its own."""
    if name in ("indices", "joints"):
        return item
    numbers = [CASTS[component, to](it) for it in item]
    return [*numbers, {"U8": 255, "U16": 65535}[to]][:components] if components else numbers


def told(name, component, items, variant):
    """What a line tells of each call that casts these items. Floats come back as they are."""
    parts = []
    for call, into in CALLS[name].items():
        if component == "F32":
            parts.append(f"{call} back {shown(variant, items)}")
        else:
            given = [cast(name, component, it, *into) for it in items]
            parts.append(f"{call} {shown('', given)}")
    return "; ".join(parts)


def casts():
    """A case for each variant of what can be cast: all calls on one accessor."""
    rows = {}
    for name, calls in CALLS.items():
        for kind, (variant, component, components) in {**VERTICES, **OUTPUTS}[name].items():
            if DIMENSIONS[kind[1]] == components and (name, variant) not in rows:
                numbers = CAST_NUMBERS[component]
                items = [numbers[at : at + components] for at in range(0, 12, components)]
                case = cast_case(name, *kind, numbers, " ".join(calls))
                rows[name, variant] = case, told(name, component, items, variant)
    return list(rows.values())


FARTHEST = 2**64 - 1
# Steps of an iterator that casts, which stand behind a call, and what they give of some items: each
# is taken off the front, and past the end there is none and nothing is left.
WALKS = {
    f"nth:{FARTHEST},next": lambda items: ["None", "None", "0 left"],
    "len,nth:{count},next": lambda items: [str(len(items)), "None", "None", "0 left"],
    "nth:{last},next,hint": lambda items: [f"Some({items[-1]})", "None", "(0, Some(0))", "0 left"],
    "next,nth:1,next": lambda items: [*(f"Some({items[at]})" for at in (0, 2)), *behind(items, 3)],
    "last,count,hint": lambda items: [
        f"Some({items[-1]})",
        str(len(items)),
        f"({len(items)}, Some({len(items)}))",
        f"{len(items)} left",
    ],
}


def behind(items, place):
    """What a step to a place gives, and how many items are left then."""
    if place < len(items):
        return [f"Some({items[place]})", f"{len(items) - place - 1} left"]
    return ["None", "0 left"]


def walks():
    """A case for each reader that can be cast: each call with each of these walks, on the first
    accessor that is no float."""
    rows = []
    for name, calls in CALLS.items():
        table = {**VERTICES, **OUTPUTS}[name]
        kind, (_, component, components) = next(
            (kind, row) for kind, row in table.items() if DIMENSIONS[kind[1]] == row[2]
        )
        numbers = CAST_NUMBERS[component]
        items = [numbers[at : at + components] for at in range(0, 12, components)]
        asked, answers = [], []
        for call, into in calls.items():
            given = [printed(cast(name, component, it, *into)) for it in items]
            for steps, told_of in WALKS.items():
                steps = steps.format(count=len(items), last=len(items) - 1)
                asked.append(f"{call},{steps}")
                answers.append(f"{call},{steps} {', '.join(told_of(given))}")
        rows.append((cast_case(name, *kind, numbers, " ".join(asked)), "; ".join(answers)))
    return rows


# Casts worked out by hand: what is read, the type of components and the dimensions of the accessor,
# its numbers, and what a call casts them to.
WORKED = [
    ("colors", "U8", "VEC3", [1, 2, 3], "into_rgba_u16", "[[256, 512, 768, 65535]]"),
    ("colors", "U16", "VEC4", [65535, 256, 0, 1], "into_rgb_u8", "[[255, 1, 0]]"),
    ("colors", "U8", "VEC3", [255, 1, 0], "into_rgba_u16", "[[65280, 256, 0, 65535]]"),
    ("colors", "U16", "VEC4", [255, 256, 0, 1], "into_rgb_u8", "[[0, 1, 0]]"),
    ("Rotations", "I8", "VEC4", [127, 0, -1, -128], "into_i16", "[[32512, 0, -256, -32768]]"),
    ("tex_coords", "U16", "VEC2", [65535, 256], "into_u8", "[[255, 1]]"),
    ("tex_coords", "U8", "VEC2", [255, 1], "into_u16", "[[65280, 256]]"),
    ("MorphTargetWeights", "U8", "SCALAR", [255], "into_i8", "[127]"),
    ("MorphTargetWeights", "U8", "SCALAR", [255], "into_i16", "[32640]"),
    ("MorphTargetWeights", "I8", "SCALAR", [127, -128], "into_u8", "[254, 0]"),
    ("MorphTargetWeights", "I8", "SCALAR", [127, -1], "into_i16", "[32512, -256]"),
    ("MorphTargetWeights", "I8", "SCALAR", [127, -1], "into_u16", "[65024, 0]"),
    ("MorphTargetWeights", "I16", "SCALAR", [-1, -257, -32768], "into_i8", "[0, -1, -128]"),
    ("MorphTargetWeights", "I16", "SCALAR", [32767, -1], "into_u8", "[255, 0]"),
    ("MorphTargetWeights", "I16", "SCALAR", [32767, -1], "into_u16", "[65534, 0]"),
    ("MorphTargetWeights", "U16", "SCALAR", [65535, 511], "into_i8", "[127, 0]"),
    ("MorphTargetWeights", "U16", "SCALAR", [65535, 511], "into_i16", "[32767, 255]"),
]


def worked():
    """A case for each cast that was worked out by hand."""
    return [(cast_case(*it[:4], call), f"{call} {gives}") for *it, call, gives in WORKED]


ROWS = [*kinds(), *absent(), apart(), *replaced(), *casts(), *walks(), *worked()]
