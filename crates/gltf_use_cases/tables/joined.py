"""What vertices are joined to (glTF 2.0, section 3.7.2.1), whether indices are in range, and the
keyframes of splines (appendix C), by the formulas of the standard."""

MOST = 2**64 - 1
# The indices of a primitive: none is its own position.
INDICES = (70, 30, 90, 10, 40, 4294967295)


def strip(v):
    """LINE_STRIP: p_i = {v_i, v_(i+1)}."""
    return [[v[i], v[i + 1]] for i in range(len(v) - 1)]


def loop(v):
    """LINE_LOOP: the strip, and a segment from the last vertex to the first."""
    return strip(v) + [[v[-1], v[0]]] if len(v) > 1 else []


def triangle_strip(v):
    """TRIANGLE_STRIP: p_i = {v_i, v_(i+(1+i%2)), v_(i+(2-i%2))}."""
    return [[v[i], v[i + (1 + i % 2)], v[i + (2 - i % 2)]] for i in range(len(v) - 2)]


def fan(v):
    """TRIANGLE_FAN: p_i = {v_(i+1), v_(i+2), v_0}."""
    return [[v[i + 1], v[i + 2], v[0]] for i in range(len(v) - 2)]


def runs(size):
    """POINTS, LINES and TRIANGLES: runs of vertices, each of this size."""
    return lambda v: [v[i : i + size] for i in range(0, len(v) - size + 1, size)]


# The calls, and for each the modes that it joins vertices by (5.24.4).
CALLS = {
    "points": {0: lambda v: v},
    "lines": {1: runs(2), 2: loop, 3: strip},
    "triangles": {4: runs(3), 5: triangle_strip, 6: fan},
}


def walked(items, steps):
    """What steps over items give."""
    left, answers = list(items), []
    for step in steps.split():
        if step == "len":
            answers.append(len(left))
        elif step == "hint":
            answers.append(f"({len(left)}, Some({len(left)}))")
        elif step == "all":
            answers.append(f"[{', '.join(map(str, left))}]")
        else:
            places = int(step.partition(":")[2] or 0)
            answers.append(f"Some({left[places]})" if places < len(left) else "None")
            left = left[places + 1 :]
    return "; ".join(map(str, answers))


def vertices(count):
    """So many vertices, without indices and with them: how they are given, and their numbers."""
    yield f"count:{count}", list(range(count))
    yield " ".join(map(str, INDICES[:count])), list(INDICES[:count])


def joined(counts, *all_steps):
    """A case for each call, mode, number of vertices and steps."""
    for call, modes in CALLS.items():
        for mode in range(7):
            for count in counts:
                for given, numbers in vertices(count):
                    for steps in all_steps:
                        answer = "no items"
                        if mode in modes:
                            answer = walked(modes[mode](numbers), steps)
                        yield f"{call} {mode} {steps} : {given}".rstrip(), answer


def keyframes(outputs):
    """An in-tangent, a value and an out-tangent for each."""
    names = ("in_tangent", "value", "out_tangent")
    for three in runs(3)(outputs):
        members = ", ".join(f"{name}: {value}" for name, value in zip(names, three))
        yield f"Keyframe {{ {members} }}"


def splines(*all_steps):
    """A case for each number of outputs and steps."""
    for count in range(8):
        outputs = [5 * value + 1 for value in range(count)]
        for steps in all_steps:
            answer = walked(keyframes(outputs), steps) if count % 3 == 0 else "no items"
            yield f"spline {steps} : {' '.join(map(str, outputs))}".rstrip(), answer


def ranges():
    """Whether all of some indices are below a count."""
    for indices in ([], [0], [4, 2], [2, 4, 3], [4294967294], [4294967295, 0]):
        for count in (0, 1, 4, 5, 2**32 - 1, 2**32, MOST):
            below = all(index < count for index in indices)
            yield f"range {count} : {' '.join(map(str, indices))}".rstrip(), str(below).lower()


def restarts():
    """The greatest index of each type, and whether some indices are without it."""
    greatest = {5121: 255, 5123: 65535, 5125: 4294967295}
    for code in (5120, 5121, 5122, 5123, 5125, 5126):
        for indices in ([], [0], [254, 256], [255], [1, 65535], [65534, 65536], [4294967295, 0]):
            answer = "none"
            if code in greatest:
                answer = f"{greatest[code]}; {str(greatest[code] not in indices).lower()}"
            yield f"restart {code} : {' '.join(map(str, indices))}".rstrip(), answer


ROWS = [
    *joined(range(7), "len hint all"),
    # Steps one by one, and past the end, after which there is nothing.
    *joined([5], "nth:1 len next all nth:1 next len next", f"next nth:{MOST} len next all hint"),
    # No list is as long: an item at the end, and one past it.
    ("points 0 nth:4294967294 len next : count:4294967295", "Some(4294967294); 0; None"),
    ("lines 3 len nth:4294967293 next : count:4294967295",
     "4294967294; Some([4294967293, 4294967294]); None"),
    ("lines 2 nth:4294967294 len next : count:4294967295", "Some([4294967294, 0]); 0; None"),
    ("triangles 6 len nth:4294967292 next : count:4294967295",
     "4294967293; Some([4294967293, 4294967294, 0]); None"),
    ("triangles 5 nth:4294967291 next next : count:4294967295",
     "Some([4294967291, 4294967293, 4294967292]); Some([4294967292, 4294967293, 4294967294]); "
     "None"),
    *splines("len hint all", f"nth:1 len next nth:{MOST} next"),
    *ranges(),
    *restarts(),
]
