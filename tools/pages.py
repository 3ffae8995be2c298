#!/usr/bin/env python3
"""Runs the proved program `gltf_show inspect` on the examples and on files that it makes: reports as
JSON are read by a parser and are the same twice, and pages are opened in headless Chromium (Debian:
chromium), where the console has to be silent and the picture not empty. The mouse turns it. What a
page draws is compared with what the file holds. `make test` calls it after `rt ci`.

    pages.py [PROGRAM]            runs the tests, of another program
    pages.py --shots [PROGRAM]    also leaves what is seen of each page in out/pages

Without Chromium what needs it is reported as not tried, and counts neither as passed nor as failed.
The last line is `N passed, M failed`."""
import contextlib
import json
import math
import pathlib
import random
import re
import struct
import subprocess
import sys
import tempfile

sys.dont_write_bytecode = True

import browser
import crates

EVIL = "</script><img src=x onerror=\"document.title='evil'\">'&amp;<!--"
# How many positions and indices a page has at most.
MOST = 400_000
# Where positions are drawn as points alone, so many of them at most.
POINTS = 20_000
# How many corners of points, lines and triangles it draws at most, or a few more.
CORNERS = 400_000
U16, U32, FLOAT = 5123, 5125, 5126
MODES = ("POINTS", "LINES", "LINE_LOOP", "LINE_STRIP", "TRIANGLES", "TRIANGLE_STRIP",
         "TRIANGLE_FAN")
# The pixels of the picture that are not blank, once it is drawn: how many, and a sum by which two
# pictures differ.
PIXELS = """(async () => {
  for (let i = 0; i < 2; i++) await new Promise(requestAnimationFrame);
  const canvas = document.getElementById("picture");
  if (canvas.hidden) return [0, 0];
  const { width, height } = canvas;
  const data = canvas.getContext("2d").getImageData(0, 0, width, height).data;
  let many = 0, sum = 0;
  for (let i = 3; i < data.length; i += 4)
    if (data[i]) { many++; sum = (sum + i * data[i]) % 1000000007; }
  return [many, sum];
})()"""
MIDDLE = """(() => {
  const { x, y, width, height } = document.getElementById("picture").getBoundingClientRect();
  return [x + width / 2, y + height / 2];
})()"""
CELLS = 'Array.from(document.querySelectorAll("td"), (cell) => cell.textContent)'


class Lacking(Exception):
    """A tool that is not there."""


# ---- Files.

def container(document, blob=b""):
    blob += b"\0" * (-len(blob) % 4)
    if blob:
        document = {**document, "buffers": [{"byteLength": len(blob)}]}
    text = json.dumps(document).encode()
    text += b" " * (-len(text) % 4)
    body = struct.pack("<I4s", len(text), b"JSON") + text
    if blob:
        body += struct.pack("<I4s", len(blob), b"BIN\0") + blob
    return struct.pack("<4sII", b"glTF", 2, 12 + len(body)) + body


class Model:
    """A document that is made of lists of positions and of indices, and its bytes."""

    def __init__(self, **members):
        self.document = {"asset": {"version": "2.0"}, "bufferViews": [], "accessors": [],
                         "meshes": [], **members}
        self.blob = bytearray()

    def add(self, kind, form, numbers, **members):
        """A list of numbers: the index of its accessor."""
        self.blob += b"\0" * (-len(self.blob) % 4)
        size = struct.calcsize(form) * len(numbers)
        views, accessors = self.document["bufferViews"], self.document["accessors"]
        views.append({"buffer": 0, "byteOffset": len(self.blob), "byteLength": size})
        accessors.append({"bufferView": len(views) - 1, "componentType": kind, **members})
        self.blob += struct.pack(f"<{len(numbers)}{form}", *numbers)
        return len(accessors) - 1

    def mesh(self, positions, indices=None, mode=4):
        """A mesh of one primitive."""
        flat = [float32(x) for position in positions for x in position]
        bounds = {"min": [min(flat[k::3]) for k in range(3)],
                  "max": [max(flat[k::3]) for k in range(3)]}
        at = self.add(FLOAT, "f", flat, type="VEC3", count=len(positions), **bounds)
        primitive = {"attributes": {"POSITION": at}, "mode": mode}
        if indices is not None:
            kind, form = (U16, "H") if len(positions) < 65535 else (U32, "I")
            primitive["indices"] = self.add(kind, form, indices, type="SCALAR", count=len(indices))
        self.document["meshes"].append({"primitives": [primitive]})

    def data(self):
        return container(self.document, bytes(self.blob))


def float32(number):
    return struct.unpack("<f", struct.pack("<f", number))[0]


def one_scene(nodes):
    """A scene of these nodes."""
    return {"scene": 0, "scenes": [{"nodes": list(range(len(nodes)))}], "nodes": nodes}


def sphere(rows, columns):
    """The positions of a sphere, and the indices of its triangles."""
    turns = [2 * math.pi * c / columns for c in range(columns)]
    heights = [math.pi * r / (rows - 1) for r in range(rows)]
    positions = [(math.sin(a) * math.cos(b), math.cos(a), math.sin(a) * math.sin(b))
                 for a in heights for b in turns]
    indices = []
    for r in range(rows - 1):
        for c in range(columns):
            i, j = r * columns + c, r * columns + (c + 1) % columns
            indices += [i, j, i + columns, j, j + columns, i + columns]
    return positions, indices


def evil_box():
    """The box of the examples with that text in names, and in a member that the script reads."""
    data = (crates.TOP / "examples/box.glb").read_bytes()
    size = struct.unpack_from("<I", data, 12)[0]
    document, rest = json.loads(data[20:20 + size]), data[28 + size:]
    for kind in ("meshes", "materials", "scenes", "nodes"):
        for record in document.get(kind, []):
            record["name"] = EVIL
    document["scenes"][0]["nodes"].append(len(document["nodes"]))
    document["nodes"].append({"name": EVIL, "matrix": [EVIL], "extras": EVIL})
    return container(document, rest)


# ---- What is in a page.

def shapes(mode, vertices):
    """The points, lines and triangles of so many vertices (glTF 2.0, section 3.7.2.1): of each which
    vertices are its corners."""
    n = vertices
    return {
        "POINTS": lambda: [(i,) for i in range(n)],
        "LINES": lambda: [(2 * i, 2 * i + 1) for i in range(n // 2)],
        "LINE_LOOP": lambda: [(i, (i + 1) % n) for i in range(n)],
        "LINE_STRIP": lambda: [(i, i + 1) for i in range(n - 1)],
        "TRIANGLES": lambda: [(3 * i, 3 * i + 1, 3 * i + 2) for i in range(n // 3)],
        "TRIANGLE_STRIP": lambda: [(i, i + 1 + i % 2, i + 2 - i % 2) for i in range(n - 2)],
        "TRIANGLE_FAN": lambda: [(i + 1, i + 2, 0) for i in range(n - 2)],
    }[mode]()


def evenly(all_of_them, many):
    """So many of a list, spread evenly over it."""
    return [all_of_them[i * len(all_of_them) // many] for i in range(many)]


def data_of(page):
    """The data of the picture of a page."""
    found = re.search(r'<script type="application/json" id="data">(.*?)</script>', page, re.DOTALL)
    return json.loads(found[1])


def positions_of(primitive):
    numbers = struct.pack(f"<{len(primitive['positions'])}I", *primitive["positions"])
    return list(struct.iter_unpack("<3f", numbers))


def near(positions):
    return [tuple(map(float32, position)) for position in positions]


def is_so(what, holds):
    assert holds, f"not so: {what}"


def same(what, found, wanted):
    assert found == wanted, f"{what}: {str(found)[:300]}, wanted {str(wanted)[:300]}"


class Tried:
    """A program, a folder, and a browser, which is begun where one is asked for."""

    def __init__(self, program, room, shots):
        self.program, self.room, self.shots = program, room, shots
        self.opened, self.stack = None, contextlib.ExitStack()

    def browser(self):
        if not browser.is_there():
            raise Lacking(f"there is no {browser.NAME}")
        if not self.opened:
            self.opened = self.stack.enter_context(browser.Browser(self.room))
        return self.opened

    def runs(self, *words):
        """What the program writes, and its status."""
        came = subprocess.run([self.program, "inspect", *words], cwd=self.room, check=False,
                              capture_output=True, timeout=300)
        same("standard error", came.stderr, b"")
        return came.stdout, came.returncode

    def page(self, name, data):
        """The page of a file of these bytes."""
        (self.room / name).write_bytes(data)
        page, _ = self.runs("--html", name)
        (self.room / f"{name}.html").write_bytes(page)
        return page.decode()

    def sees(self, name):
        """Opens a page that was made: the browser, with a page whose console is silent."""
        seen = self.browser()
        seen.open((self.room / f"{name}.html").as_uri())
        same("the console", seen.console, [])
        if self.shots:
            self.shots.mkdir(parents=True, exist_ok=True)
            seen.screenshot(self.shots / f"{name}.png")
        return seen

    def turns(self, name):
        """Opens a page with a picture: it is not empty, and the mouse and its wheel change it. Gives
        what the page says below the picture."""
        seen = self.sees(name)
        first = seen.ask(PIXELS)
        is_so("the picture is not empty", first[0] > 1000)
        x, y = seen.ask(MIDDLE)
        seen.drag((x, y), (x + 80, y + 30))
        turned = seen.ask(PIXELS)
        is_so("the mouse turns the picture", turned[0] > 1000 and turned != first)
        seen.mouse("mouseWheel", x, y, deltaX=0, deltaY=-200)
        zoomed = seen.ask(PIXELS)
        is_so("its wheel zooms", zoomed[0] > 1000 and zoomed != turned)
        same("the console", seen.console, [])
        return seen.ask('document.getElementById("note").textContent')


# ---- Tests.

def example_is_json_twice_the_same(it, name):
    for words in (["--json"], ["--json", "--pretty"]):
        file = crates.TOP / "examples" / name
        text, status = it.runs(*words, str(file))
        same("once more", it.runs(*words, str(file)), (text, status))
        report = json.loads(text)
        same("uri", report["uri"], str(file))
        graves = [message["severity"] for message in report["issues"]["messages"]]
        counts = [report["issues"][f"num{kind}"] for kind in ("Errors", "Warnings", "Infos", "Hints")]
        same("numbers of messages", counts, [graves.count(grave) for grave in range(4)])
        same("status", status, min(counts[0], 1))


def names_are_text(it):
    page = it.page("evil.glb", evil_box())
    shown = page.replace("&lt;img src=x", "").replace("\\u003cimg src=x", "")
    is_so("nothing is linked", "src=" not in shown and "href=" not in shown)
    same("the member that the script reads", data_of(page)["nodes"][-1]["matrix"], [EVIL])
    seen = it.sees("evil.glb")
    is_so("names are cells", EVIL in seen.ask(CELLS))
    same("images", seen.ask('document.images.length'), 0)
    is_so("no name is run", seen.ask("document.title") != "evil")
    is_so("the picture is not empty", seen.ask(PIXELS)[0] > 1000)


def refused_file_has_no_picture(it):
    broken = json.dumps({"asset": {"version": "2.0"}, "scene": 1, EVIL: 1}).encode()
    same("data", data_of(it.page("broken.gltf", broken)), None)
    seen = it.sees("broken.gltf")
    same("pixels", seen.ask(PIXELS), [0, 0])
    is_so("its name is the heading", "broken.gltf" in seen.ask("document.body.textContent"))


def box_is_drawn_whole(it):
    page = it.page("box.glb", (crates.TOP / "examples/box.glb").read_bytes())
    [[box]] = data_of(page)["meshes"]
    same("mode", box["mode"], "TRIANGLES")
    same("numbers", (len(box["positions"]), len(box["indices"]), "of" in box), (72, 36, False))
    same("note", it.turns("box.glb"), "")


def large_sphere_is_thinned(it):
    positions, indices = sphere(200, 300)
    model = Model(**one_scene([{"mesh": 0}]))
    model.mesh(positions, indices)
    page = it.page("sphere.glb", model.data())
    data = data_of(page)
    [[drawn]] = data["meshes"]
    same("as points", data["isPoints"], False)
    same("positions", positions_of(drawn), near(positions))
    triangles = list(zip(*[iter(indices)] * 3))
    many = (MOST - 60_000) // 3
    wanted = [i for triangle in evenly(triangles, many) for i in triangle]
    same("triangles", drawn["indices"], wanted)
    same("of", (drawn["mode"], drawn["of"]), ("TRIANGLES", 119_400))
    same("note", it.turns("sphere.glb"),
         f"The model is large: {many} of its 119400 triangles, lines and points are drawn.")


def thinned_strip_has_its_own_shapes(it, mode):
    """Shapes of a large primitive, whose vertices are few."""
    made = random.Random(mode)
    positions = [tuple(made.random() for _ in range(3)) for _ in range(1000)]
    indices = [made.randrange(1000) for _ in range(500_000)]
    model = Model(**one_scene([{"mesh": 0}]))
    model.mesh(positions, indices, MODES.index(mode))
    [[drawn]] = data_of(it.page(f"{mode}.glb", model.data()))["meshes"]
    every = shapes(mode, len(indices))
    some = evenly(every, min(len(every), (MOST - 1000) // 3))
    same("shapes", drawn["indices"], [indices[i] for shape in some for i in shape])
    same("of", drawn["of"], len(every))
    alone = {1: "POINTS", 2: "LINES", 3: "TRIANGLES"}[len(every[0])]
    same("mode", (drawn["mode"], len(drawn["positions"])), (alone, 3000))


def larger_model_is_points(it):
    """More positions than a page has, in two primitives without indices."""
    positions, indices = sphere(250, 400)
    corners = [positions[i] for i in indices]
    half = len(corners) // 6 * 3
    model = Model(**one_scene([{"mesh": 0}, {"mesh": 1}]))
    model.mesh(corners[:half])
    model.mesh(corners[half:])
    data = data_of(it.page("points.glb", model.data()))
    [[one], [two]] = data["meshes"]
    same("as points", (data["isPoints"], one["mode"], two["mode"]), (True, "POINTS", "POINTS"))
    same("positions", positions_of(one) + positions_of(two), near(evenly(corners, POINTS)))
    same("of", one["of"] + two["of"], len(corners))
    is_so("no indices", "indices" not in one and "indices" not in two)
    same("note", it.turns("points.glb"),
         f"The model is large: drawn as points, {POINTS} of its {len(corners)} positions.")


def instances_are_bounded(it):
    model = Model(**one_scene([{"mesh": 0, "translation": [3 * (i % 60), 3 * (i // 60), 0]}
                               for i in range(3000)]))
    model.mesh(*sphere(30, 50))
    [[drawn]] = data_of(it.page("instances.glb", model.data()))["meshes"]
    same("indices", (len(drawn["indices"]), "of" in drawn), (3 * 2900, False))
    note = it.turns("instances.glb")
    found = re.fullmatch(r"The model is large: (\d+) of its (\d+) triangles, lines and points are "
                         "drawn.", note)
    same("all", int(found[2]), 3000 * 2900)
    is_so("evenly", CORNERS // 3 - 2 <= int(found[1]) <= CORNERS // 3 + 2)


def other_scenes_take_no_room(it):
    nodes = [{"mesh": 1}, {"mesh": 0, "children": [2]}, {"mesh": 2}]
    model = Model(scene=1, scenes=[{"nodes": [0]}, {"nodes": [1]}], nodes=nodes)
    model.mesh([(0, 0, 0), (1, 0, 0), (0, 1, 0)])
    model.mesh(*sphere(200, 300))
    model.mesh([(0, 0, 1), (1, 0, 1), (0, 1, 1)], [2, 1, 0])
    data = data_of(it.page("scenes.glb", model.data()))
    same("roots", data["roots"], [1])
    same("nodes", [bool(node) for node in data["nodes"]], [False, True, True])
    [[first], second, [third]] = data["meshes"]
    same("meshes", ("indices" in first, second, third["indices"]), (False, [], [2, 1, 0]))
    same("note", it.turns("scenes.glb"), "")


def no_scene_shows_children_once(it):
    nodes = [{"mesh": 0, "translation": [1, 0, 0]}, {"children": [0], "scale": [2, 2, 2]}]
    model = Model(nodes=nodes)
    model.mesh([(0, 0, 0), (1, 0, 0), (0, 1, 0)])
    same("roots", data_of(it.page("none.glb", model.data()))["roots"], [1])


def tests():
    """Each test, with what it is given."""
    examples = crates.TOP / "examples"
    names = sorted(str(file.relative_to(examples)) for file in examples.rglob("*.gl*"))
    return (
        *([example_is_json_twice_the_same, name] for name in names),
        [names_are_text], [refused_file_has_no_picture], [box_is_drawn_whole],
        [large_sphere_is_thinned], [larger_model_is_points],
        *([thinned_strip_has_its_own_shapes, mode] for mode in MODES),
        [instances_are_bounded], [other_scenes_take_no_room], [no_scene_shows_children_once],
    )


def holds(test, it, *given):
    """Whether a test passes; None where it is not tried."""
    name = " ".join([test.__name__.replace("_", " "), *given])
    try:
        test(it, *given)
    except Lacking as why:
        print(f"pages: {name}: not tried, since {why}", flush=True)
        return None
    except (AssertionError, subprocess.SubprocessError, browser.Failed, LookupError, TypeError,
            ValueError, OSError) as why:
        print(f"pages: {name}: FAILED: {why}", flush=True)
        return False
    print(f"pages: {name}: ok", flush=True)
    return True


def main(words):
    shots = crates.TOP / "out" / "pages" if words[:1] == ["--shots"] else None
    words = words[1:] if shots else words
    program = pathlib.Path(words[0] if words else crates.program("gltf_show")).resolve()
    if not program.is_file():
        print("pages.py: gltf_show: not built; make prove builds it", file=sys.stderr)
        print("0 passed, 1 failed")
        return 1
    with tempfile.TemporaryDirectory() as room:
        it = Tried(program, pathlib.Path(room), shots)
        with it.stack:
            results = [holds(test, it, *given) for test, *given in tests()]
    print(f"{results.count(True)} passed, {results.count(False)} failed")
    return 1 if False in results else 0


if __name__ == "__main__":
    sys.exit(main(sys.argv[1:]))
