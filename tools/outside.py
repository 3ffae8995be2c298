"""Files that name others outside of their folder: what `gltf_convert` and `gltf_show inspect` say of
them. `conversions.py` and `findings.py` run these rows."""
import json
import pathlib
import subprocess
import tempfile

import programs

# A file that begins as one of PNG does.
PICTURE = b"\x89PNG\r\n\x1a\n12345"
ABSOLUTE = "an absolute path, which leads out of the document's folder"
SCHEME = "named with a scheme, as by file:, and so outside the document's folder"
CLIMBS = "leads out of the document's folder by .."
LINKED = "a symbolic link, which leads out of the document's folder"
# URIs that lead out of the folder, with what each names, why it is refused, and whether a picture
# stands there.
OUTSIDERS = [
    ("/etc/passwd", "/etc/passwd", ABSOLUTE, False),
    ("//x/y", "//x/y", ABSOLUTE, False),
    ("%2Fetc%2Fpasswd", "/etc/passwd", ABSOLUTE, False),
    ("file:///etc/passwd", "/etc/passwd", SCHEME, False),
    ("file:t.png", "t.png", SCHEME, False),
    ("a%3Ab.png", "a:b.png", SCHEME, True),
    ("../x.png", "../x.png", CLIMBS, True),
    ("..%2fx.png", "../x.png", CLIMBS, True),
    ("%2e%2e/x.png", "../x.png", CLIMBS, True),
    ("..%2f..%2fx", "../../x", CLIMBS, False),
    ("sub/../../x.png", "sub/../../x.png", CLIMBS, True),
    ("sub//../../x.png", "sub//../../x.png", CLIMBS, True),
    ("./sub/./../../x.png", "./sub/./../../x.png", CLIMBS, True),
    ("sub/../../in/t.png", "sub/../../in/t.png", CLIMBS, True),
    ("link.png", "link.png", LINKED, True),
    ("up/x.png", "up/x.png", LINKED, True),
    ("sub/link.png", "sub/link.png", LINKED, True),
]
# URIs that stay in it: the last is one name, with a backslash in it.
INSIDERS = ["t.png", "./t.png", "sub/t.png", "sub//t.png", "sub/../t.png", "near.png",
            "beside/t.png", "1%3A2.png", "%2e%2e%5cx.png"]


def make_outside(place):
    """A folder with pictures and links, beside a picture that is outside of it."""
    room = place / "in"
    (room / "sub").mkdir(parents=True)
    (place / "out").mkdir()
    for name in ("../x.png", "t.png", "sub/t.png", "a:b.png", "1:2.png", "..\\x.png"):
        (room / name).write_bytes(PICTURE)
    for name, target in (("link.png", "../x.png"), ("up", ".."), ("sub/link.png", "../../x.png"),
                         ("near.png", "sub/t.png"), ("beside", "sub")):
        (room / name).symlink_to(target)
    for i, uri in enumerate([*(row[0] for row in OUTSIDERS), *INSIDERS]):
        (room / f"image{i}.gltf").write_bytes(programs.document(images=[{"uri": uri}]))
        (room / f"buffer{i}.gltf").write_bytes(programs.document(
            buffers=[{"byteLength": len(PICTURE), "uri": uri}]))
    for folder in (place, room, place / "out"):
        folder.chmod(0o777)
    return room


def holds_picture(folder):
    """Whether what was written holds the picture. It is removed."""
    written = list(folder.iterdir())
    found = any(PICTURE in file.read_bytes() for file in written)
    for file in written:
        file.unlink()
    return found


def converts(convert, place):
    """Whether what leads out of a folder is refused by its name, and nothing is written; whether it
    is read with `--outside`; and whether what stays in the folder is read without."""
    room, out = make_outside(place), place / "out"
    how = {"cwd": place, "capture_output": True, "text": True, "preexec_fn": programs.started()}
    # The URI of an image stands in its message.
    places = {"image": 'images[0].uri: "{}": ', "buffer": ""}
    calls = [(kind, ending) for kind in places for ending in ("glb", "gltf")]
    for i, (uri, name, why, is_there) in enumerate(OUTSIDERS):
        for kind, ending in calls:
            words = [f"in/{kind}{i}.gltf", f"out/o.{ending}"]
            ran = subprocess.run([convert, *words], **how)
            error = f"{name}: {places[kind].format(uri)}{why}; --outside reads it\n"
            good = (ran.returncode, ran.stdout, ran.stderr) == (1, "", error)
            good = good and not list(out.iterdir())
            yield programs.report(convert.name, words, good, ran)
            if is_there:
                words.append("--outside")
                ran = subprocess.run([convert, *words], **how)
                good = (ran.returncode, ran.stderr) == (0, "") and holds_picture(out)
                yield programs.report(convert.name, words, good, ran)
    for i in range(len(OUTSIDERS), len(OUTSIDERS) + len(INSIDERS)):
        for kind, ending in calls:
            words = [f"{room}/{kind}{i}.gltf", f"out/o.{ending}"]
            ran = subprocess.run([convert, *words], **how)
            good = (ran.returncode, ran.stderr) == (0, "") and holds_picture(out)
            yield programs.report(convert.name, words, good, ran)


# ---- What `inspect` says

# The files that two buffers name, those that are outside, with the reason, and which buffers are not
# read then, and which with `--outside`. `b.bin` is in the folder, `up` a link to the one above.
LOOKED_AT = [
    (["b.bin", "below/../b.bin"], [], [], []),
    (["../a.bin", "b.bin"], [("../a.bin", CLIMBS)], [0], []),
    (["..%2fa.bin", "..%2fa.bin"], [("../a.bin", CLIMBS)], [0, 1], []),
    (["up/a.bin", "below/../../a.bin"], [("up/a.bin", LINKED), ("below/../../a.bin", CLIMBS)],
     [0, 1], []),
    (["/nowhere/a.bin", "b.bin"], [("/nowhere/a.bin", ABSOLUTE)], [0], [0]),
    (["file:///no", "no.bin"], [("/no", SCHEME)], [0, 1], [0, 1]),
]


def is_found(program, names, told, unread, missing):
    """Whether a report has the buffers that are not read, and a line says why of each name that is
    outside; and whether with `--outside` only what cannot be read is missing."""
    with tempfile.TemporaryDirectory() as folder:
        room = pathlib.Path(folder) / "in"
        (room / "below").mkdir(parents=True)
        for file in ("../a.bin", "b.bin"):
            (room / file).write_bytes(b"1234")
        (room / "up").symlink_to("..")
        file = room / "file.gltf"
        file.write_bytes(programs.document(buffers=programs.buffers(*((4, it) for it in names))))
        for flags, lacking, lines in (([], unread, told), (["--outside"], missing, [])):
            ran = subprocess.run([*program, "inspect", "--json", file, *flags],
                                 capture_output=True, text=True)
            wanted = [f"/buffers/{i}/uri" for i in lacking]
            error = "".join(f"{file}: {name}: {why}; --outside reads it\n" for name, why in lines)
            messages = json.loads(ran.stdout)["issues"]["messages"]
            found = [it["pointer"] for it in messages if it["code"] == "IO_ERROR"]
            if (found, ran.stderr) != (wanted, error):
                print(f"{names} {flags}\n  expected {wanted} {error}\n  found {found} {ran.stderr}")
                return False
    return True
