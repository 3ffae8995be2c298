"""What codes are called: by the tables of the standard, where a code is a number beside a name or a
string that is the name."""

# 5.1.3, 5.11.5, 5.24.4, 5.26.1 to 5.26.4
NUMBERS = {
    "componentType": {5120: "BYTE", 5121: "UNSIGNED_BYTE", 5122: "SHORT", 5123: "UNSIGNED_SHORT",
                      5125: "UNSIGNED_INT", 5126: "FLOAT"},
    "target": {34962: "ARRAY_BUFFER", 34963: "ELEMENT_ARRAY_BUFFER"},
    "mode": {0: "POINTS", 1: "LINES", 2: "LINE_LOOP", 3: "LINE_STRIP", 4: "TRIANGLES",
             5: "TRIANGLE_STRIP", 6: "TRIANGLE_FAN"},
    "magFilter": {9728: "NEAREST", 9729: "LINEAR"},
    "minFilter": {9728: "NEAREST", 9729: "LINEAR", 9984: "NEAREST_MIPMAP_NEAREST",
                  9985: "LINEAR_MIPMAP_NEAREST", 9986: "NEAREST_MIPMAP_LINEAR",
                  9987: "LINEAR_MIPMAP_LINEAR"},
    "wrap": {33071: "CLAMP_TO_EDGE", 33648: "MIRRORED_REPEAT", 10497: "REPEAT"},
}
# 5.1.6, 5.7.2, 5.8.2, 5.12.3, 5.19.9, and KHR_lights_punctual
WORDS = {
    "type": ("SCALAR", "VEC2", "VEC3", "VEC4", "MAT2", "MAT3", "MAT4"),
    "path": ("translation", "rotation", "scale", "weights"),
    "interpolation": ("LINEAR", "STEP", "CUBICSPLINE"),
    "camera": ("perspective", "orthographic"),
    "alphaMode": ("OPAQUE", "MASK", "BLEND"),
    "light": ("directional", "point", "spot"),
}


def rows():
    """Each code of each table, the numbers beside those, and what is no code."""
    for kind, table in NUMBERS.items():
        beside = {code + step for code in table for step in (-1, 1)} - {-1}
        for code in sorted({*table, *beside, 7}):
            yield f"name {kind} : {code}", table.get(code, "in no table")
        for text in ("-1", "1.5", '"POINTS"', "null", "[0]"):
            yield f"name {kind} : {text}", "no code"
    for kind, words in WORDS.items():
        for word in words:
            yield f'name {kind} : "{word}"', word
            yield f'name {kind} : "{word.swapcase()}"', "in no table"
        yield f'name {kind} : ""', "in no table"
        for text in ("0", "null", f'["{words[0]}"]'):
            yield f"name {kind} : {text}", "no code"


ROWS = list(rows())
