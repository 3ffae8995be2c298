"""Tests of the Python package, over the library that GLTF_LIBRARY names: `make python`."""
import base64
import gc
import json
import os
import pathlib
import random
import resource
import shutil
import subprocess
import sys
import tempfile
import threading
import unittest
import weakref

import gltf
from gltf import _file, _native
from reader import Reader

try:
    import numpy
except ImportError:
    numpy = None

TOP = pathlib.Path(__file__).resolve().parents[2]
EXAMPLES = TOP / "examples"
FILES = [EXAMPLES / "box.glb", EXAMPLES / "triangle.gltf", EXAMPLES / "two files" / "square.gltf",
         TOP / "c" / "tests" / "surface.gltf"]
SPARSE = {
    "asset": {"version": "2.0"},
    "buffers": [{"byteLength": 8, "uri": "data:application/octet-stream;base64,AQAAAAcICQo="}],
    "bufferViews": [{"buffer": 0, "byteLength": 1}, {"buffer": 0, "byteOffset": 4,
                                                     "byteLength": 4}],
    "accessors": [{"componentType": 5121, "count": 3, "type": "VEC2", "normalized": True,
                   "sparse": {"count": 1, "indices": {"bufferView": 0, "componentType": 5121},
                              "values": {"bufferView": 1}}}]}
# Two matrices whose columns are padded, and zeros, since there is no view.
PADDED = {
    "asset": {"version": "2.0"},
    "buffers": [{"byteLength": 16,
                 "uri": "data:application/octet-stream;base64,AQL//wME//8FBv//Bwj//w=="}],
    "bufferViews": [{"buffer": 0, "byteLength": 16}],
    "accessors": [{"bufferView": 0, "componentType": 5121, "count": 2, "type": "MAT2"},
                  {"componentType": 5122, "count": 2, "type": "MAT3"}]}
# Accessors of no items, and an image of no bytes.
EMPTY = {
    "asset": {"version": "2.0"},
    "buffers": [{"byteLength": 4, "uri": "data:;base64,AAAAAA=="}],
    "bufferViews": [{"buffer": 0, "byteLength": 0}],
    "accessors": [{"bufferView": 0, "componentType": 5126, "count": 0, "type": "VEC3"},
                  {"componentType": 5121, "count": 0, "type": "SCALAR"}],
    "images": [{"bufferView": 0, "mimeType": "image/png"}]}
# How many mutated files are opened, and in how many rounds.
MUTATIONS, ROUNDS = int(os.environ.get("GLTF_MUTATIONS", "10000")), 6


def resident():
    """The memory that this process holds now, in KiB."""
    pages = int(pathlib.Path("/proc/self/statm").read_text().split()[1])
    return pages * resource.getpagesize() // 1024


def text_of(document):
    """The bytes of a file that is a document."""
    return json.dumps(document).encode()


class Layout(unittest.TestCase):
    """The structs are those of gltf.h."""

    @unittest.skipUnless(shutil.which("cc"), "there is no cc")
    def test_structs_are_those_of_the_header(self):
        lines, wanted = [], []
        for name, kind in _native.STRUCTS.items():
            for member, *_ in kind._fields_:
                lines.append('printf("%%zu %%zu\\n", offsetof(%s, %s), sizeof ((%s *)0)->%s);'
                             % (name, member, name, member))
                field = getattr(kind, member)
                wanted.append("%d %d" % (field.offset, field.size))
        code = ('#include <stdio.h>\n#include "gltf.h"\nint main(void) {\n%s\nreturn 0; }\n'
                % "\n".join(lines))
        with tempfile.TemporaryDirectory() as folder:
            source, program = pathlib.Path(folder, "a.c"), pathlib.Path(folder, "a")
            source.write_text(code)
            subprocess.run(["cc", "-I", str(TOP / "c"), str(source), "-o", str(program)],
                           check=True)
            shown = subprocess.run([str(program)], stdout=subprocess.PIPE, check=True)
        self.assertEqual(shown.stdout.decode().split("\n")[:-1], wanted)


class Extensions(unittest.TestCase):
    """Extensions of materials, textures, nodes and views, by their members."""

    ROOT = {
        "asset": {"version": "2.0"},
        "images": [{"uri": "a.png"}, {"uri": "b.ktx2"}],
        "textures": [{"source": 0, "extensions": {"KHR_texture_basisu": {"source": 1}}}],
        "materials": [
            {"extensions": {
                "KHR_materials_clearcoat": {
                    "clearcoatFactor": 0.5,
                    "clearcoatNormalTexture": {"index": 0, "texCoord": 2, "scale": 3}},
                "KHR_materials_iridescence": {}, "KHR_materials_dispersion": {"dispersion": 0.25}}},
            {"extensions": {"KHR_materials_sheen": {"sheenColorTexture": {"index": 1}},
                            "KHR_materials_anisotropy": {"anisotropyStrength": "1"}}}],
        "accessors": [{"componentType": 5126, "count": 2, "type": "VEC3"}],
        "nodes": [{"extensions": {
            "EXT_mesh_gpu_instancing": {"attributes": {"SCALE": 0}},
            "KHR_node_visibility": {"visible": False}}}, {}],
        "buffers": [{"byteLength": 4, "uri": "data:;base64,AAAAAA=="}],
        "bufferViews": [{"buffer": 0, "byteLength": 4, "extensions": {"EXT_meshopt_compression": {
            "buffer": 0, "byteLength": 3, "byteStride": 4, "count": 1, "mode": "TRIANGLES"}}}],
    }

    def test_extensions_are_those_of_the_file(self):
        with gltf.open(text_of(self.ROOT)) as document:
            coated, other = document.materials
            coat = coated.clearcoat
            self.assertEqual((coat.clearcoat_factor, coat.clearcoat_roughness_factor), (0.5, 0.0))
            self.assertIsNone(coat.clearcoat_texture)
            self.assertEqual(coat.clearcoat_normal_texture.tex_coord, 2)
            self.assertEqual(coat.clearcoat_normal_texture.scale, 3.0)
            self.assertEqual(coated.iridescence.iridescence_thickness_maximum, 400.0)
            self.assertEqual(coated.dispersion.dispersion, 0.25)
            self.assertIsNone(coated.sheen)
            self.assertIsNone(other.clearcoat)
            self.assertEqual(document.textures[0].basisu.uri, "b.ktx2")
            self.assertIsNone(document.textures[0].webp)
            drawn, plain = document.nodes
            self.assertEqual((drawn.visible, plain.visible), (False, True))
            self.assertEqual({name: it.index for name, it in drawn.instancing.items()},
                             {"SCALE": 0})
            self.assertIsNone(plain.instancing)
            self.assertEqual(document.buffer_views[0].meshopt.mode, 1)

    def test_what_is_not_of_its_form_is_an_error(self):
        with gltf.open(text_of(self.ROOT)) as document:
            for member in ("sheen", "anisotropy"):
                with self.assertRaises(gltf.BadExtensionError):
                    getattr(document.materials[1], member)


class Variants(unittest.TestCase):
    """The materials of KHR_materials_variants."""

    def test_a_material_that_is_not_there_is_an_error(self):
        mapped = {"attributes": {}, "material": 1, "extensions": {"KHR_materials_variants": {
            "mappings": [{"material": 0, "variants": [1]}, {"material": 2, "variants": [0, 1]}]}}}
        text = text_of({
            "asset": {"version": "2.0"}, "materials": [{"name": "Red"}, {"name": "Blue"}],
            "meshes": [{"primitives": []}, {"primitives": [{"attributes": {}}, mapped]}],
            "extensionsUsed": ["KHR_materials_variants"],
            "extensions": {"KHR_materials_variants": {
                "variants": [{"name": "Lost"}, {"name": "Day"}, {"name": "Night"}]}}})
        with gltf.open(text) as document:
            primitive = document.meshes[1].primitives[1]
            with self.assertRaises(gltf.BadExtensionError) as caught:
                primitive.material_of(0)
            self.assertEqual(
                (caught.exception.path, str(caught.exception)),
                ("/meshes/1/primitives/1/extensions/KHR_materials_variants/mappings/1/material",
                 "the document has no material with this index"))
            # The first mapping with the variant counts, and without one the primitive's own.
            self.assertEqual(primitive.material_of(1).name, "Red")
            self.assertEqual(primitive.material_of(2).name, "Blue")
        self.assertRaises(gltf.ClosedError, primitive.material_of, 0)


class Files(unittest.TestCase):
    """What is read of the examples is what an independent reader reads."""

    def items_are_those_of(self, path):
        """The number of accessors of a file, of which each has the items that the reader reads."""
        reader = Reader(path)
        with gltf.open(path) as document:
            for accessor in document.accessors:
                wanted = reader.accessor(accessor.index)
                found = [it if isinstance(it, tuple) else (it,) for it in accessor.items()]
                self.assertEqual(found, wanted, (path, accessor.index))
            return len(document.accessors)

    def test_items_are_those_of_the_file(self):
        for path in FILES:
            self.items_are_those_of(path)

    def test_items_of_every_kind_are_those_of_the_file(self):
        """Matrices with padding, sparse items, and zeros without a view."""
        with tempfile.TemporaryDirectory() as folder:
            subprocess.run([sys.executable, str(TOP / "c" / "tests" / "rich.py"), folder],
                           check=True)
            self.assertGreater(self.items_are_those_of(pathlib.Path(folder, "valid.glb")), 40)

    def test_records_are_those_of_the_file(self):
        for path in FILES:
            root = Reader(path).root
            with gltf.open(path) as document:
                for kind in ("meshes", "nodes", "materials", "scenes", "images", "textures"):
                    stated, shown = root.get(kind, []), getattr(document, kind)
                    self.assertEqual(len(stated), len(shown))
                    for one, other in zip(stated, shown):
                        self.assertEqual(one.get("name"), other.name)
                        self.assertEqual(one.get("extras"), other.extras)
                for mesh, shown in zip(root.get("meshes", []), document.meshes):
                    for one, other in zip(mesh["primitives"], shown.primitives):
                        found = {name: it.index for name, it in other.attributes.items()}
                        self.assertEqual(one["attributes"], found)
                        indices = None if other.indices is None else other.indices.index
                        self.assertEqual(one.get("indices"), indices)
                for one, other in zip(root.get("nodes", []), document.nodes):
                    self.assertEqual(tuple(one.get("translation", (0, 0, 0))), other.translation)
                    self.assertEqual(one.get("children", []), [it.index for it in other.children])
                for one, other in zip(root.get("materials", []), document.materials):
                    surface = one.get("pbrMetallicRoughness", {})
                    factor = surface.get("baseColorFactor", [1, 1, 1, 1])
                    self.assertEqual(tuple(factor), other.base_color_factor)
                    self.assertEqual(surface.get("metallicFactor", 1), other.metallic_factor)
                    self.assertEqual(one.get("alphaMode", "OPAQUE"), other.alpha_mode)
                    use = other.normal_texture
                    self.assertEqual(one.get("normalTexture", {}).get("index"),
                                     use and use.texture.index)

    def test_sparse_values_are_applied(self):
        accessor = gltf.open(text_of(SPARSE)).accessors[0]
        self.assertEqual(accessor.items(), [(0, 0), (7, 8), (0, 0)])
        self.assertEqual(accessor.floats()[1], (7 / 255, 8 / 255))
        self.assertIsNone(accessor.view())
        self.assertEqual((accessor.type, len(accessor), accessor.sparse), ("VEC2", 3, 1))

    def test_padding_is_skipped_and_zeros_need_no_view(self):
        with gltf.open(text_of(PADDED)) as document:
            matrices, zeros = document.accessors
            self.assertEqual((matrices.item_size, matrices.stride), (4, 8))
            self.assertIsNone(matrices.view())
            self.assertEqual(matrices.items(), [(1, 2, 3, 4), (5, 6, 7, 8)])
            self.assertEqual((zeros.view(), zeros.items()), (None, [(0,) * 9] * 2))
            if numpy is not None:
                wanted = [[[1, 2], [3, 4]], [[5, 6], [7, 8]]]
                self.assertEqual(matrices.array().tolist(), wanted)

    def test_an_image_has_its_bytes(self):
        document = gltf.open(EXAMPLES / "box.glb")
        image = document.images[0]
        self.assertEqual(bytes(image.bytes[:8]), b"\x89PNG\r\n\x1a\n")
        self.assertEqual(image.mime_type, "image/png")

    @unittest.skipUnless(numpy, "there is no NumPy")
    def test_arrays_are_the_items_without_a_copy(self):
        for path in FILES:
            with gltf.open(path) as document:
                for accessor in document.accessors:
                    array = accessor.array()
                    flat = array.reshape(accessor.count, accessor.components).tolist()
                    found = [tuple(it) for it in flat]
                    wanted = [it if isinstance(it, tuple) else (it,) for it in accessor.items()]
                    self.assertEqual(found, wanted)
                    if accessor.view() is not None:
                        self.assertFalse(array.flags.owndata or array.flags.writeable)

    @unittest.skipUnless(numpy, "there is no NumPy")
    def test_an_array_keeps_the_bytes_of_a_closed_document(self):
        document = gltf.open(EXAMPLES / "box.glb")
        points = document.accessors[0].array()
        wanted = points.copy()
        document.close()
        del document
        gc.collect()
        self.assertTrue((points == wanted).all())

    def test_a_view_keeps_the_bytes_of_a_closed_document(self):
        document = gltf.open(EXAMPLES / "box.glb")
        views = [document.accessors[0].view(), document.images[0].bytes, document.buffers[0].bytes]
        wanted = [bytes(view) for view in views]
        document.close()
        del document
        gc.collect()
        [gltf.open(EXAMPLES / "box.glb") for _ in range(50)]  # others take memory that was freed
        self.assertEqual([bytes(view) for view in views], wanted)
        self.assertTrue(all(view.readonly for view in views))


class Faults(unittest.TestCase):
    """Each fault has its class and its place."""

    def refused(self, kind, source, **how):
        with self.assertRaises(kind) as caught:
            gltf.open(source, **how)
        return caught.exception

    def test_faults_have_classes(self):
        self.refused(gltf.ContainerError, b"glTF\1\0\0\0")
        self.refused(gltf.DocumentError, b"{")
        asset = {"asset": {"version": "2.0"}}
        self.refused(gltf.DocumentError, text_of({}))
        fault = self.refused(gltf.RulesError, text_of({**asset, "nodes": [{"mesh": 3}]}))
        self.assertEqual((fault.path, fault.rules), ("/nodes/0/mesh", 1))

    def test_faults_of_buffers_have_their_index(self):
        asset, fine = {"asset": {"version": "2.0"}}, {"byteLength": 3, "uri": "data:;base64,AAAA"}
        for buffer, kind, path in (
                ({"uri": "data:;base64,!"}, gltf.Base64Error, "/buffers/1/uri"),
                ({"uri": "a.bin"}, gltf.ExternalReferenceError, "/buffers/1/uri"),
                ({"uri": "http://a"}, gltf.UnsupportedSchemeError, "/buffers/1/uri"),
                ({}, gltf.MissingBlobError, "/buffers/1"),
                ({"uri": fine["uri"]}, gltf.ShortBufferError, "/buffers/1")):
            text = text_of({**asset, "buffers": [fine, {"byteLength": 9, **buffer}]})
            fault = self.refused(kind, text)
            self.assertEqual((fault.buffer, fault.path), (1, path))
        self.assertEqual((fault.expected, fault.actual), (9, 3))

    def test_lengths_are_exact_where_that_is_asked_for(self):
        """Three bytes may be missing, as far as zeros are put after the others."""
        for there, declared, opens in ((5, 8, True), (5, 9, False), (4, 5, False), (8, 8, True)):
            data = base64.b64encode(bytes(there)).decode()
            for uri, how in ((f"data:;base64,{data}", {}),
                             ("a.bin", {"resolver": lambda uri: bytes(there)})):
                text = text_of({"asset": {"version": "2.0"},
                                "buffers": [{"byteLength": declared, "uri": uri}]})
                for exact in (False, True):
                    if opens and (there >= declared or not exact):
                        with gltf.open(text, exact_lengths=exact, **how) as document:
                            self.assertEqual(len(document.buffers), 1)
                        continue
                    fault = self.refused(gltf.ShortBufferError, text, exact_lengths=exact, **how)
                    self.assertEqual((fault.expected, fault.actual), (declared, there))
                    self.assertEqual((fault.buffer, fault.path), (0, "/buffers/0"))

    def test_there_are_no_items(self):
        with gltf.open(text_of(EMPTY)) as document:
            for accessor in document.accessors:
                self.assertEqual((len(accessor), accessor.view()), (0, None))
                for read in (accessor.bytes, accessor.items, accessor.floats):
                    self.assertRaises(gltf.UnreadableError, read)
            self.assertEqual(document.images[0].bytes, b"")

    def test_required_extensions_are_the_callers(self):
        text = text_of({"asset": {"version": "2.0"}, "extensionsUsed": ["EXT_mine"],
                        "extensionsRequired": ["EXT_mine"]})
        self.refused(gltf.RulesError, text)
        self.assertEqual(len(gltf.open(text, extensions=["EXT_mine"]).nodes), 0)
        with self.assertRaisesRegex(ValueError, "zero character"):
            gltf.open(text, extensions=["EXT_mine\0"])
        both = text_of({"asset": {"version": "2.0"}, "extensionsRequired": ["EXT_mine", "EXT_its"]})
        for name, place in (("EXT_mine", 1), ("EXT_its", 0)):
            fault = self.refused(gltf.RulesError, both, extensions=[name])
            self.assertEqual((fault.path, fault.rules), (f"/extensionsRequired/{place}", 1))

    def test_a_closed_document_raises(self):
        document = gltf.open(EXAMPLES / "box.glb")
        mesh = document.meshes[0]
        document.close()
        document.close()
        for use in (lambda: document.nodes, lambda: mesh.name, lambda: mesh.primitives[0]):
            self.assertRaises(gltf.ClosedError, use)

    def test_a_file_names_nothing_outside_of_its_folder(self):
        with tempfile.TemporaryDirectory() as folder:
            inner = pathlib.Path(folder, "inner")
            inner.mkdir()
            for place in (pathlib.Path(folder, "a.bin"), inner / "b.bin"):
                place.write_bytes(b"abcd")
            (inner / "link.bin").symlink_to(pathlib.Path(folder, "a.bin"))
            file = inner / "a.gltf"

            def write(uri):
                file.write_bytes(text_of({"asset": {"version": "2.0"},
                                          "buffers": [{"byteLength": 4, "uri": uri}]}))
                return file

            self.assertEqual(bytes(gltf.open(write("b.bin")).buffers[0].bytes), b"abcd")
            for uri in ("../a.bin", "link.bin", folder + "/a.bin", "%2e%2e/a.bin"):
                self.refused(gltf.ExternalReferenceError, write(uri))
                self.assertEqual(bytes(gltf.open(write(uri), outside=True).buffers[0].bytes),
                                 b"abcd")
            fault = self.refused(gltf.ExternalReferenceError, write("missing.bin"))
            self.assertEqual((fault.buffer, fault.path), (0, "/buffers/0/uri"))
            fault = self.refused(gltf.ShortBufferError, write("b.bin"), resolver=lambda uri: b"")
            self.assertEqual((fault.expected, fault.actual), (4, 0))


def mutated(data, random_):
    """The bytes of a file with a few changes."""
    data = bytearray(data)
    for _ in range(random_.choice((1, 1, 2, 4))):
        at = random_.randrange(len(data))
        if random_.random() < 0.5:
            data[at] ^= 1 << random_.randrange(8)
        else:
            data[at] = random_.choice(b"0123456789\"{}[],:")
    return bytes(data)


def read_all(document):
    """Reads everything that a document has."""
    for kind in ("scenes", "nodes", "meshes", "materials", "textures", "images", "skins",
                 "animations", "cameras", "lights", "variants", "samplers", "buffers"):
        for record in getattr(document, kind):
            getattr(record, "extras")
            for member in ("name", "children", "joints", "weights", "bytes", "channels"):
                getattr(record, member, None)
    for mesh in document.meshes:
        for primitive in mesh.primitives:
            primitive.attributes, primitive.targets, primitive.material
    for accessor in document.accessors:
        view = accessor.view()
        if view is not None:
            sum(view)
        if accessor.count < 100000:
            try:
                accessor.bytes()
            except gltf.GltfError:
                pass


class Strangers(unittest.TestCase):
    """Files of strangers, from several threads at once."""

    def test_mutated_files_from_four_threads(self):
        """No file crashes it, and memory does not grow with the number of files."""
        sources = [path.read_bytes() for path in FILES]
        faults, opened, held = [], [], []

        def work(seed):
            random_ = random.Random(seed)
            try:
                for turn in range(MUTATIONS // ROUNDS // 4 + 1):
                    data = mutated(sources[turn % len(sources)], random_)
                    try:
                        with gltf.open(data, resolver=lambda uri: b"\1" * 4096) as document:
                            read_all(document)
                            opened.append(turn)
                    except gltf.GltfError:
                        pass
            except BaseException as fault:  # all else is a fault of the package
                faults.append(fault)

        for number in range(ROUNDS):
            threads = [threading.Thread(target=work, args=(4 * number + it,)) for it in range(4)]
            for thread in threads:
                thread.start()
            for thread in threads:
                thread.join()
            gc.collect()
            held.append(resident())
        self.assertEqual(faults, [])
        self.assertGreater(len(opened), MUTATIONS // 20)
        self.assertLess(held[-1] - held[1], 2048, "KiB more after the rounds: %s" % held)

    def during_a_call(self, document, act):
        """Reads a document while something is done in each call of the library."""
        class Acting:
            def __getattr__(self, name):
                call = getattr(_native.library, name)

                def acting(*words):
                    act()
                    return call(*words)
                return acting

        _file.library = Acting()
        try:
            return document.scene
        finally:
            _file.library = _native.library

    def test_close_waits_for_the_calls_of_other_threads(self):
        document, order = gltf.open(EXAMPLES / "box.glb"), []
        closing = threading.Thread(target=lambda: (document.close(), order.append("closed")))

        def act():
            closing.start()
            closing.join(0.2)  # it does not end
            order.append("called")

        self.assertIsNotNone(self.during_a_call(document, act))
        closing.join()
        self.assertEqual(order, ["called", "closed"])
        with self.assertRaises(gltf.ClosedError):
            _ = document.scene

    def test_a_call_begins_no_more_while_another_thread_closes(self):
        document, raised = gltf.open(EXAMPLES / "box.glb"), []
        file = document._open()
        closing = threading.Thread(target=document.close)

        def act():
            closing.start()
            while not file._under_way._is_over:
                pass
            with self.assertRaises(gltf.ClosedError):
                file.count("nodes")
            raised.append(True)

        self.during_a_call(document, act)
        closing.join()
        self.assertEqual(raised, [True])

    def test_a_handler_of_a_signal_closes_during_a_call(self):
        """It does not wait for the call that it interrupts, which has the file to its end."""
        document = gltf.open(EXAMPLES / "box.glb")
        held, kept = weakref.ref(document._open()), []

        def act():
            document.close()
            kept.append(held() is not None)

        self.assertIsNotNone(self.during_a_call(document, act))
        self.assertEqual(kept, [True])
        with self.assertRaises(gltf.ClosedError):
            _ = document.scene

    def test_one_document_is_read_by_four_threads(self):
        with gltf.open(EXAMPLES / "box.glb") as document:
            wanted, found = document.accessors[0].items(), []

            def work():
                for _ in range(50):
                    if document.accessors[0].items() != wanted:
                        return
                found.append(True)

            threads = [threading.Thread(target=work) for _ in range(4)]
            for thread in threads:
                thread.start()
            for thread in threads:
                thread.join()
            self.assertEqual(len(found), 4)

    def test_memory_does_not_grow(self):
        data = (EXAMPLES / "box.glb").read_bytes()
        for _ in range(200):
            read_all(gltf.open(data))
        before = resource.getrusage(resource.RUSAGE_SELF).ru_maxrss
        for _ in range(800):
            read_all(gltf.open(data))
        grown = resource.getrusage(resource.RUSAGE_SELF).ru_maxrss - before
        self.assertLess(grown, 2000, "KiB more after 800 further files")


@unittest.skipUnless(os.environ.get("GLTF_SHOW"), "GLTF_SHOW names no program")
class Reports(unittest.TestCase):
    """`gltf.check` is the report of `gltf_show inspect --json`."""

    def test_a_report_has_the_findings(self):
        report = gltf.check(EXAMPLES / "dangling.gltf")
        codes = [it["code"] for it in report["issues"]["messages"]]
        self.assertIn("UNRESOLVED_REFERENCE", codes)
        self.assertEqual(gltf.check((EXAMPLES / "box.glb").read_bytes())["issues"]["numErrors"], 0)
        self.assertRaises(OSError, gltf.check, EXAMPLES / "missing.gltf")


if __name__ == "__main__":
    unittest.main()
