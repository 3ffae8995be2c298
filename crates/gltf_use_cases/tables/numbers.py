"""The numbers of handles, by the tables of the standard: each member with what is meant where it is
absent. A number of a JSON text is the nearest double, which is what Python reads."""
import json
import math

# Of each part: the type that is printed; where its record stands, at the place of %s, beside the
# asset; and its members: how each is printed, its name in JSON, how many numbers it has (0 where it
# is no list), and its default. OPEN has none, and means that there is no bound; a NEEDED member has
# to be there.
OPEN, NEEDED = "open", "needed"
TEXTURES = '"images":[{"uri":"a.png"}],"textures":[{"source":0}]'
MATERIAL = '"materials":[{%s}]'
EXTENSION = '"materials":[{"extensions":{"KHR_materials_%s":{%%s}}}]'
LIGHT = '"extensions":{"KHR_lights_punctual":{"lights":[{"type":"%s"%%s}]}}'
ONES, ZEROS = [1.0] * 4, [0.0] * 4
PARTS = {
    # 5.25
    "transform": ("Decomposed", '"nodes":[{%s}]', [
        ("translation", "translation", 3, ZEROS[:3]),
        ("rotation", "rotation", 4, [0.0, 0.0, 0.0, 1.0]),
        ("scale", "scale", 3, ONES[:3]),
    ]),
    # 5.13 and 5.14
    "orthographic": ("Orthographic", '"cameras":[{"type":"orthographic","orthographic":{%s}}]', [
        ("xmag", "xmag", 0, NEEDED),
        ("ymag", "ymag", 0, NEEDED),
        ("zfar", "zfar", 0, NEEDED),
        ("znear", "znear", 0, NEEDED),
    ]),
    "perspective": ("Perspective", '"cameras":[{"type":"perspective","perspective":{%s}}]', [
        ("aspect_ratio", "aspectRatio", 0, OPEN),
        ("yfov", "yfov", 0, NEEDED),
        ("zfar", "zfar", 0, OPEN),
        ("znear", "znear", 0, NEEDED),
    ]),
    # 5.19 to 5.22
    "material": ("Material", MATERIAL, [
        ("alpha_cutoff", "alphaCutoff", 0, 0.5),
        ("emissive_factor", "emissiveFactor", 3, ZEROS[:3]),
    ]),
    "pbr": ("PbrMetallicRoughness", MATERIAL % '"pbrMetallicRoughness":{%s}', [
        ("base_color_factor", "baseColorFactor", 4, ONES),
        ("metallic_factor", "metallicFactor", 0, 1.0),
        ("roughness_factor", "roughnessFactor", 0, 1.0),
    ]),
    "normal": ("NormalTexture", f'{TEXTURES},{MATERIAL}' % '"normalTexture":{"index":0%s}', [
        ("scale", "scale", 0, 1.0),
    ]),
    "occlusion": ("OcclusionTexture", f'{TEXTURES},{MATERIAL}' % '"occlusionTexture":{"index":0%s}',
                  [
        ("strength", "strength", 0, 1.0),
    ]),
    # KHR_materials_pbrSpecularGlossiness, _transmission, _volume and _specular
    "glossiness": ("PbrSpecularGlossiness", EXTENSION % "pbrSpecularGlossiness", [
        ("diffuse_factor", "diffuseFactor", 4, ONES),
        ("specular_factor", "specularFactor", 3, ONES[:3]),
        ("glossiness_factor", "glossinessFactor", 0, 1.0),
    ]),
    "transmission": ("Transmission", EXTENSION % "transmission", [
        ("transmission_factor", "transmissionFactor", 0, 0.0),
    ]),
    "volume": ("Volume", EXTENSION % "volume", [
        ("thickness_factor", "thicknessFactor", 0, 0.0),
        ("attenuation_distance", "attenuationDistance", 0, OPEN),
        ("attenuation_color", "attenuationColor", 3, ONES[:3]),
    ]),
    "specular": ("Specular", EXTENSION % "specular", [
        ("specular_factor", "specularFactor", 0, 1.0),
        ("specular_color_factor", "specularColorFactor", 3, ONES[:3]),
    ]),
    # KHR_texture_transform
    "texture": ("TextureTransform", f'{TEXTURES},"materials":[{{"pbrMetallicRoughness":'
                '{"baseColorTexture":{"index":0,"extensions":{"KHR_texture_transform":{%s}}}}}]', [
        ("offset", "offset", 2, ZEROS[:2]),
        ("rotation", "rotation", 0, 0.0),
        ("scale", "scale", 2, ONES[:2]),
    ]),
    # KHR_lights_punctual
    "light": ("Light", LIGHT % "point", [
        ("color", "color", 3, ONES[:3]),
        ("intensity", "intensity", 0, 1.0),
        ("range", "range", 0, OPEN),
    ]),
    "kind": ("Spot", LIGHT.replace("%%s", ',"spot":{%%s}') % "spot", [
        ("inner_cone_angle", "innerConeAngle", 0, 0.0),
        ("outer_cone_angle", "outerConeAngle", 0, math.pi / 4),
    ]),
}
# Parts after another member of their record.
FURTHER = ("normal", "occlusion", "light")
# The parts of default materials, and those whose constants stand under another name.
CALLS = {"orthographic": "camera", "perspective": "camera"}
PRINTED = {"transform": "node"}
# A number, as it is written in JSON.
TEXTS = ("0.25", "-2", "1.5e2", "0.1", "16777217", "0.30000000000000004", "3", "0")


def shown(value):
    """A double, or a list of doubles, as it prints."""
    return f"[{', '.join(map(repr, value))}]" if isinstance(value, list) else repr(value)


def stated(count, first):
    """The text of a member of so many numbers, and these."""
    texts = [TEXTS[(first + place) % len(TEXTS)] for place in range(count or 1)]
    text = f"[{','.join(texts)}]" if count else texts[0]
    numbers = [float(it) for it in texts]
    return text, numbers if count else numbers[0]


def wrong(count):
    """Texts that are no member of so many numbers."""
    if not count:
        return ['"1"', "[1]", "true", "{}", "[]"]
    ones = ["1"] * count
    lists = [ones[1:], [*ones, "1"], [*ones[1:], '"1"'], ["true", *ones[1:]], ["null", *ones[1:]],
             ["[1]", *ones[1:]]]
    return ["1", '"1"', "{}", "[]", *(f"[{','.join(it)}]" for it in lists)]


def case(part, texts):
    """The case of a part whose record has these members."""
    text = ",".join(f'"{name}":{value}' for name, value in texts.items())
    record = PARTS[part][1] % ("," + text if text and part in FURTHER else text)
    return f'{CALLS.get(part, part)} : {{"asset":{{"version":"2.0"}},{record}}}'


def answer(part, given):
    """The numbers of a part whose record has these members."""
    printed = []
    for name, member, _, default in PARTS[part][2]:
        value = given.get(member, default)
        if value is NEEDED:
            return "None"
        if default is OPEN:
            value = "None" if value is OPEN else f"Some({shown(value)})"
        else:
            value = shown(value)
        printed.append(f"{name}: {value}")
    return f"Some({PARTS[part][0]} {{ {', '.join(printed)} }})"


def rows_of(part):
    """A part with all members and with none; for each member: with it alone, without it alone, with
    it null, which means absent, and with it wrong beside the others."""
    members = PARTS[part][2]
    every = {name: stated(count, 3 * place) for place, (_, name, count, _) in enumerate(members)}

    def row(texts):
        numbers = {name: every[name][1] for name, text in texts.items() if text == every[name][0]}
        return case(part, texts), answer(part, numbers)

    whole = {name: text for name, (text, _) in every.items()}
    yield row(whole)
    yield row({})
    for _, name, count, _ in members:
        if len(members) > 1:
            yield row({name: whole[name]})
            yield row({other: text for other, text in whole.items() if other != name})
        yield row({**whole, name: "null"})
        for text in wrong(count):
            yield case(part, {**whole, name: text}), "None"


def bare():
    """The numbers of extensions that have one, also of materials without them; the weights of meshes
    and of nodes, of any number."""
    head = '{"asset":{"version":"2.0"},'
    for part, name, default in (("ior", "ior", 1.5),
                                ("emissiveStrength", "emissive_strength", 1.0)):
        yield f"default {part}.{part}", repr(default)
        yield f'{part} : {head}"materials":[{{}}]}}', f"Some({default!r})"
        yield f"{part} meant : {head[:-1]}}}", f"Some({default!r})"
        yield f"{part} : {head[:-1]}}}", "no material"
        extension = head + EXTENSION % name + "}"
        yield f"{part} : {extension % ''}", f"Some({default!r})"
        for text in ("null", *TEXTS):
            number = default if text == "null" else float(text)
            yield f"{part} : " + extension % f'"{part}":{text}', f"Some({number!r})"
        for text in wrong(0):
            yield f"{part} : " + extension % f'"{part}":{text}', "None"
    document = 'weights : %s"meshes":[{"primitives":[]%%s}],"nodes":[{%%s}]}' % head
    yield document % ("", ""), "absent; absent"
    for count in (0, 1, 2, 8, 100):
        text, numbers = (stated(count, 0) if count else ("[]", []))
        yield document % (f',"weights":{text}', ""), f"Some({shown(numbers)}); absent"
        yield document % ("", f'"weights":{text}'), f"absent; Some({shown(numbers)})"
    for text in ("1", '"1"', "{}", "true", "[[1]]", '[1,"1"]', "[null]", "[1,true]"):
        yield document % (f',"weights":{text}', '"weights":[0.5]'), "None; Some([0.5])"
    yield document % (',"weights":null', '"weights":null'), "absent; absent"


def constants():
    """What is meant where a member is absent."""
    for part, (_, _, members) in PARTS.items():
        for _, name, _, default in members:
            if default not in (OPEN, NEEDED):
                yield f"default {PRINTED.get(part, part)}.{name}", shown(default)


def matrices():
    """A node with a matrix (5.25.3), also beside the others."""
    numbers = [float(it) for it in range(16)]
    text = json.dumps(list(range(16)), separators=(",", ":"))
    identity = [1.0 if place % 5 == 0 else 0.0 for place in range(16)]
    head = 'transform : {"asset":{"version":"2.0"},"nodes":[{"matrix":%s}]}'
    yield head % text, f"Some(Matrix({shown(numbers)}))"
    yield head % json.dumps(identity), f"Some(Matrix({shown(identity)}))"
    yield head % (text + ',"translation":"x"'), f"Some(Matrix({shown(numbers)}))"
    for given in ([], numbers[1:], [*numbers, 16.0], [*numbers[1:], "16"], 1, "x"):
        yield head % json.dumps(given), "None"


def kinds():
    """Lights without a cone, and parts that are not there."""
    for name in ("directional", "point"):
        text = LIGHT % name % ""
        yield f'kind : {{"asset":{{"version":"2.0"}},{text}}}', f"Some({name.title()})"
    for part in ("normal", "occlusion", "glossiness", "transmission", "volume", "specular"):
        yield f'{part} : {{"asset":{{"version":"2.0"}},"materials":[{{}}]}}', "no part"
    for part in ("material", "pbr"):
        yield f'{part} meant : {{"asset":{{"version":"2.0"}}}}', answer(part, {})
    none = {"material": "no material", "transform": "no part", "camera": "no camera",
            "light": "no part", "kind": "no light", "texture": "no part"}
    for part, text in none.items():
        yield f'{part} : {{"asset":{{"version":"2.0"}}}}', text


ROWS = [*(row for part in PARTS for row in dict.fromkeys(rows_of(part))), *matrices(), *kinds(),
        *bare(), *constants()]
