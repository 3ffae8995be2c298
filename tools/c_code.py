"""What C sees of the code: the exports of `crates/gltf_c`, the structs that they take, and the
numbers of enumerators; and whether `c/gltf.h` and `c/gltf_shim.c` have the same."""
import re

import crates

C = crates.TOP / "c"
# How the exports are called. Each call of the header has the same name without the prefix.
PREFIX = "core_"
# The calls of the header that have no export, and the exports that only the shim calls.
WITHOUT_EXPORT = {"gltf_version", "gltf_accessor_read_u32"}
OF_SHIM = {"core_buffer_bytes", "core_accessor_bytes", "core_view_bytes"}
# What the types of exports are in C. A slice is a pointer and a count.
TYPES = {
    "usize": ["size_t"],
    "u32": ["unsigned int"],
    "&[u8]": ["const void *", "size_t"],
    "&mut [u8]": ["void *", "size_t"],
    "&mut [u32]": ["unsigned int *", "size_t"],
    "&mut [usize]": ["size_t *", "size_t"],
    "&mut [f64]": ["double *", "size_t"],
    "&mut usize": ["size_t *"],
    "*mut u8": ["void *"],
}
# The parameters of which C says that they are text.
TEXTS = {("&[u8]", "names"), ("&[u8]", "name"), ("&[u8]", "extension"), ("&mut [u8]", "text")}
# What the types of members are in C, and how many bytes they are.
FIELDS = {"usize": ("size_t", 8), "u32": ("unsigned int", 4), "f64": ("double", 8),
          "u8": ("char", 1), "*mut u8": ("void *", 8), "*const u8": ("const unsigned char *", 8),
          "*const *const c_char": ("const char *const *", 8)}
# The structs and the members that C has by other names.
STRUCTS = {"gltf_file": "core_file", "gltf_bytes": "core_bytes", "gltf_block": "core_block"}
# How the names of those structs begin that C declares.
OWN = ("gltf_", "core_")
MEMBERS = {("gltf_light", "type_"): "type", ("gltf_buffer", "no_bytes"): "bytes",
           ("gltf_accessor", "no_data"): "data", ("gltf_image", "no_bytes"): "bytes"}
# The members of C that are the first of the reserved words in the code, where the shim writes them.
RESERVED = {"gltf_buffer_view": "bytes"}
# The enums of the code that C has as enumerators, each with the beginning of their names there:
# those of which a call gives the number, and those of which it takes the number.
GIVEN = {"Status": "", "ComponentType": "", "Mode": "", "Semantic": "", "AlphaMode": "",
         "Interpolation": "", "Property": "PATH_", "Type": "", "MeshoptMode": "MESHOPT_",
         "MeshoptFilter": "MESHOPT_"}
TAKEN = {"Kind": "", "Semantic": "", "TextMember": "ASSET_", "NodeList": "", "NumberList": "",
         "Place": ""}
# The enumerators that C has by other names.
ENUMERATORS = {
    ("Status", "InputOutput"): "CANNOT_READ",
    ("Semantic", "Positions"): "POSITION",
    ("Semantic", "Normals"): "NORMAL",
    ("Semantic", "Tangents"): "TANGENT",
    ("Semantic", "Colors"): "COLOR",
    ("Semantic", "TexCoords"): "TEXCOORD",
    ("Semantic", "Extras"): "CUSTOM",
    ("Property", "MorphTargetWeights"): "PATH_WEIGHTS",
    ("MeshoptFilter", "None"): "MESHOPT_NO_FILTER",
    ("TextMember", "BufferUri"): "BUFFER_URI",
    ("TextMember", "ImageUri"): "IMAGE_URI",
    ("TextMember", "ImageMimeType"): "IMAGE_MIME_TYPE",
    ("NodeList", "Scene"): "SCENE_NODES",
    ("NodeList", "Children"): "NODE_CHILDREN",
    ("NodeList", "Joints"): "SKIN_JOINTS",
    ("Place", "Primitive"): "PRIMITIVES",
    ("Place", "Channel"): "CHANNELS",
    ("Place", "AnimationSampler"): "ANIMATION_SAMPLERS",
}
# The bits of the header, and the statuses of gltf_load.h and of the shim: the code has no variant
# for them. The test of every member tries the bits.
OF_HEADER = {
    "GLTF_CANNOT_READ", "GLTF_OTHER_TYPE", "GLTF_EXTERNAL", "GLTF_EXACT_LENGTHS", "GLTF_UNLIT",
    "GLTF_SPECULAR_GLOSSINESS", "GLTF_TRANSMISSION", "GLTF_IOR", "GLTF_EMISSIVE_STRENGTH",
    "GLTF_VOLUME", "GLTF_SPECULAR",
    "GLTF_METALLIC_ROUGHNESS", "GLTF_HAS_MATRIX", "GLTF_HAS_TRANSLATION", "GLTF_HAS_ROTATION",
    "GLTF_HAS_SCALE",
}


def source():
    """The code that C may see something of: that of the exports, and of all crates below them."""
    files = [file for crate in crates.below("gltf_c")
             for file in sorted((crates.TOP / "crates" / crate / "src").rglob("*.rt"))]
    return "".join(file.read_text("utf-8") for file in files)


def exports():
    """The exported functions: of each its name, its parameters and its result."""
    form = r'pub extern "C" fn (\w+)\(([^)]*)\)(?: -> (\w+))?'
    found = []
    for name, inner, result in re.findall(form, source()):
        pairs = [pair.split(": ", 1) for pair in re.split(r",\s*", inner.strip(" ,\n")) if pair]
        found.append((name, [pair for pair in pairs if pair[1] != "Global"], result or "void"))
    return found


def words_of(name):
    """`TwoWords` as `Two_Words`."""
    return re.sub(r"(?<!^)(?=[A-Z])", "_", name)


def c_struct(name):
    struct = words_of(name).lower()
    return STRUCTS.get(struct, struct)


def c_types(name, kind):
    if (kind, name) in TEXTS:
        return ["char *" if "mut" in kind else "const char *", "size_t"]
    if kind.startswith("&mut Gltf"):
        return [c_struct(kind[5:]) + " *"]
    if kind.startswith("Gltf"):
        return [c_struct(kind)]
    return TYPES[kind]


def header():
    """The text of the header, with no comments and no directives."""
    text = re.sub(r"/\*.*?\*/", "", (C / "gltf.h").read_text("utf-8"), flags=re.DOTALL)
    return re.sub(r"(?m)^#.*(?:\\\n.*)*$", "", text)


def calls():
    """The names of the calls that the header declares."""
    return re.findall(r"GLTF_API [^;(]*?(\w+)\(", header())


def of_2_1():
    """Those of them that version 2.1 added."""
    return [f"gltf_{name}" for name in
            re.findall(r"(?m)^NODE\((\w+)\)$", (C / "gltf_shim.c").read_text("utf-8"))]


def version():
    """The version in the header, as `2.0.0`."""
    number = int(re.search(r"#define GLTF_VERSION (\d+)", (C / "gltf.h").read_text("utf-8"))[1])
    return f"{number // 10000}.{number // 100 % 100}.{number % 100}"


def declarations():
    """A declaration made of each export. What the shim declares has to be of the same type."""
    for name, parameters, result in exports():
        types = [kind for pair in parameters for kind in c_types(*pair)]
        result = result if result == "void" else TYPES[result][0]
        yield f"extern {result} {name}({', '.join(types) or 'void'});"


def structs():
    """The structs that C declares too: of each its name there, and its members in memory."""
    form = r"#\[repr\(C\)\]\n(?:#\[.*\]\n)*pub struct (\w+) \{\n((?:.*\n)*?)\}\n"
    text = source()
    found = [(c_struct(name), re.findall(r"(?m)^    (?:pub(?:\(crate\))? )?(\w+): (.+),$", inner))
             for name, inner in re.findall(form, text)]
    assert len(found) == text.count("#[repr(C)]"), found
    # A part of a struct has no name of its own in C: the struct has its members.
    parts = {struct: members for struct, members in found if not struct.startswith(OWN)}
    return [(struct, [(MEMBERS.get((struct, member), member), kind)
                      for pair in members for member, kind in parts.get(c_struct(pair[1]), [pair])
                      for member, kind in named(struct, member, kind)])
            for struct, members in found if struct not in parts]


def named(struct, member, kind):
    """A member of the code as the members of C that it is."""
    if member != "reserved" or struct not in RESERVED:
        return [(member, kind)]
    word, count = kind[1:-1].split("; ")
    return [(RESERVED[struct], word), (member, f"[{word}; {int(count) - 1}]")]


def holds_in_c(condition):
    return f'_Static_assert({condition}, "{condition}");'


def size_and_type(kind, sizes):
    """How many bytes a member is, what aligns it, and its type in C, which of a list is that of a
    pointer to its first element."""
    if kind in FIELDS:
        c_type, size = FIELDS[kind]
        return size, size, c_type
    if kind.startswith("["):
        inner, count = kind[1:-1].split("; ")
        size, align, c_type = size_and_type(inner, sizes)
        return size * int(count), align, f"{c_type} *"
    struct = c_struct(kind)
    return sizes[struct], 8, struct


def places(found):
    """Where each member of structs has to lie: of each its struct, its name, its offset, its size
    and its type in C. Behind the last member of a struct comes the struct itself, with no name."""
    left, sizes = dict(found), {}
    while left:
        # A struct comes after those that it has as members.
        ready = [struct for struct, members in left.items()
                 if not any(c_struct(kind) in left for _, kind in members)]
        struct = ready[0]
        at, widest = 0, 1
        for member, kind in left.pop(struct):
            size, align, c_type = size_and_type(kind, sizes)
            at, widest = (at + align - 1) // align * align, max(widest, align)
            if kind == "usize" and member in ("bytes", "data"):
                c_type = FIELDS["*const u8"][0]  # which the shim writes over it
            yield struct, member, at, size, c_type
            at += size
        sizes[struct] = (at + widest - 1) // widest * widest
        yield struct, None, 0, sizes[struct], struct


def layouts(found):
    """Each member has to be as wide in the header as in the code and at the same place, with
    nothing after the last but what aligns it."""
    for struct, member, at, size, c_type in places(found):
        if member is None:
            yield holds_in_c(f"sizeof({struct}) == {size}")
        else:
            its = f"(({struct} *)0)->{member}"
            yield holds_in_c(f"offsetof({struct}, {member}) == {at}")
            yield holds_in_c(f"sizeof {its} == {size}")
            yield holds_in_c(f"_Generic({its}, {c_type}: 1, default: 0)")


def enumerators():
    """The enumerators, each with the number that the code has for it."""
    text = "".join(file.read_text("utf-8") for crate in crates.below("gltf_c")
                   if re.fullmatch(r"gltf_c(alls|_\w+)?", crate)
                   for file in sorted((crates.TOP / "crates" / crate / "src").rglob("*.rt")))
    taken = re.findall(rf"(?m)^\s*(\d+) => Some\(({'|'.join(TAKEN)})::(\w+)", text)
    form = rf"\b({'|'.join(GIVEN)})::(\w+)(?:\(_\))?\)*(?: \| \S+)? => (\d+),"
    givers = re.findall(r"\bfn (?:\w+_number|code)\(.*?\n *\}\n\s*\}\n", text, re.DOTALL)
    given = [found for giver in givers for found in re.findall(form, giver)]
    found = {}
    for kind, variant, number in [*((b, c, a) for a, b, c in taken), *given]:
        name = "GLTF_" + ENUMERATORS.get((kind, variant),
                                         {**GIVEN, **TAKEN}[kind] + words_of(variant).upper())
        same(found.setdefault(name, number), number)
    return found


def same(shown, wanted):
    assert shown == wanted, f"{shown} is not {wanted}"


def header_structs():
    """The structs of the header: of each the names of its members."""
    return {struct: re.findall(r"(\w+)(?:\[\d+\])?;", inner) for inner, struct in
            re.findall(r"typedef struct \w+ \{([^}]*)\} (\w+);", header())}


def header_enumerators():
    """The names of the enumerators of the header."""
    return re.findall(r"\b(GLTF_\w+) = ", header())


def check_names():
    """The header and the code have the same calls, structs and members."""
    exported = {name for name, _, _ in exports()}
    assert OF_SHIM <= exported, exported
    same(sorted(calls()), sorted({*WITHOUT_EXPORT, *(name.replace(PREFIX, "gltf_", 1)
                                                     for name in exported - OF_SHIM)}))
    shown = header_structs()
    # The options are taken apart in the shim.
    del shown["gltf_open_options"]
    wanted = dict(structs())
    for struct in STRUCTS.values():
        del wanted[struct]  # of the shim
    same(shown, {struct: [member for member, _ in members] for struct, members in wanted.items()})
    same(sorted(header_enumerators()), sorted({*enumerators(), *OF_HEADER}))


def check_file():
    """A C file that compiles where header, shim and code agree in types, places and numbers."""
    return "\n".join([
        f'#include "{C}/gltf_shim.c"', *declarations(), *layouts(structs()),
        *(holds_in_c(f"{name} == {number}") for name, number in enumerators().items()), ""])
