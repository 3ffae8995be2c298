//! A file that is broken gives the error of what is wrong, with its place.
use std::error::Error as _;
use std::io;
use std::path::Path;

use gltf_proved::{Document, Error, Folder, Options, Status};

mod support;
use support::{document_of, example};

/// The error of a document with these members.
fn refused(members: &str) -> Error {
    let text = format!(r#"{{"asset":{{"version":"2.0"}}{members}}}"#);
    Document::from_slice(text.as_bytes()).unwrap_err()
}

#[test]
fn each_fault_has_its_status_and_its_place() {
    let fine = r#"{"byteLength":3,"uri":"data:;base64,AAAA"}"#;
    let buffer =
        |member: &str| refused(&format!(r#","buffers":[{fine},{{"byteLength":9{member}}}]"#));
    for (why, status, pointer, at) in [
        (Document::from_slice(b"glTF\x01\0\0\0").unwrap_err(), Status::BadContainer, "", None),
        (Document::from_slice(b"{").unwrap_err(), Status::BadJson, "", None),
        (Document::from_slice(b"").unwrap_err(), Status::BadJson, "", None),
        (refused(r#","nodes":[{"mesh":3}]"#), Status::BrokenRules, "/nodes/0/mesh", None),
        (buffer(r#","uri":"data:;base64,!""#), Status::BadBase64, "/buffers/1/uri", Some(1)),
        (buffer(r#","uri":"data:;base64,AAAAAA==""#), Status::ShortBuffer, "/buffers/1", Some(1)),
        (buffer(""), Status::MissingBlob, "/buffers/1", Some(1)),
        (buffer(r#","uri":"a.bin""#), Status::ExternalReference, "/buffers/1/uri", Some(1)),
        (buffer(r#","uri":"http://a/b""#), Status::UnsupportedScheme, "/buffers/1/uri", Some(1)),
    ] {
        assert_eq!(why.status(), status, "{why:?}");
        assert_eq!((why.pointer().as_ref(), why.buffer()), (pointer, at), "{why:?}");
        assert!(!why.to_string().is_empty() && why.source().is_none());
    }
}

#[test]
fn variants_are_those_of_the_status() {
    match refused(r#","nodes":[{"mesh":3,"skin":0}]"#) {
        Error::Validation(fault) => {
            assert_eq!((fault.pointer.as_str(), fault.rules), ("/nodes/0/mesh", 2));
            assert!(fault.message.contains("nodes[0].skin"), "{fault:?}");
        }
        other => panic!("{other:?}"),
    }
    let why = refused(r#","buffers":[{"byteLength":9,"uri":"data:;base64,AAAAAA=="}]"#);
    assert!(matches!(why, Error::BufferLength { buffer: 0, expected: 9, actual: 4 }), "{why:?}");
    assert_eq!((why.expected(), why.actual()), (Some(9), Some(4)));
    assert_eq!(why.to_string(), "buffer 0: expected 9 bytes but received 4 bytes");
    assert!(matches!(refused(r#","buffers":[{"byteLength":1}]"#), Error::MissingBlob(_)));
}

#[test]
fn the_dangling_example_is_refused() {
    let why = Document::open(example("dangling.gltf")).unwrap_err();
    assert_eq!(
        why.to_string(),
        "invalid glTF: nodes[0].mesh: Index out of bounds; nodes[0].skin: Index out of bounds;"
    );
    assert_eq!((why.pointer().as_ref(), why.rules()), ("/nodes/0/mesh", 2));
}

#[test]
fn a_file_that_is_not_there_is_an_error_of_the_system() {
    let why = Document::open("no such file").unwrap_err();
    assert!(matches!(&why, Error::Io(it) if it.kind() == io::ErrorKind::NotFound), "{why:?}");
    assert_eq!((why.status(), why.pointer().as_ref()), (Status::CannotRead, ""));
    assert!(why.source().is_some());
}

#[test]
fn required_extensions_are_the_callers() {
    let text = r#"{"asset":{"version":"2.0"},"extensionsUsed":["EXT_mine"],
                   "extensionsRequired":["EXT_mine"]}"#;
    let why = Document::from_slice(text.as_bytes()).unwrap_err();
    assert_eq!(why.pointer(), "/extensionsRequired/0");
    let options = Options::new().extension("EXT_other").extension("EXT_mine");
    let document = options.from_slice(text.as_bytes()).unwrap();
    assert_eq!(document.extensions_used().collect::<Vec<_>>(), ["EXT_mine"]);
    assert_eq!(document.extensions_required().len(), 0);
    let both = br#"{"asset":{"version":"2.0"},"extensionsRequired":["EXT_mine","EXT_its"]}"#;
    let why = options.from_slice(both).unwrap_err();
    assert_eq!((why.pointer().as_ref(), why.rules()), ("/extensionsRequired/1", 1));
}

#[test]
fn bytes_that_are_given_may_be_too_few() {
    let text = br#"{"asset":{"version":"2.0"},"buffers":[{"byteLength":4,"uri":"a.bin"}]}"#;
    let options = Options::new();
    let open = |bytes: &[u8]| options.from_slice_with(text, |_| Ok(bytes.to_vec()));
    assert_eq!(open(b"abcd").unwrap().buffers().next().unwrap().bytes(), Some(&b"abcd"[..]));
    assert_eq!(open(b"a").unwrap().buffers().next().unwrap().bytes(), Some(&b"a\0\0\0"[..]));
    let why = open(b"").unwrap_err();
    assert!(matches!(why, Error::BufferLength { buffer: 0, expected: 4, actual: 0 }), "{why:?}");
    let why = options.from_slice_with(text, |_| Err(io::ErrorKind::TimedOut.into())).unwrap_err();
    assert!(matches!(&why, Error::ExternalFile(fault, _) if fault.pointer == "/buffers/0/uri"));
    assert!(why.to_string().contains("a.bin"), "{why}");
}

#[test]
fn lengths_are_exact_where_that_is_asked_for() {
    let exact = Options::new().exact_lengths(true);
    for uri in ["data:;base64,QUJDREU=", "a.bin"] {
        for declared in 4..10 {
            let buffer = format!(r#"{{"byteLength":{declared},"uri":"{uri}"}}"#);
            let text = format!(r#"{{"asset":{{"version":"2.0"}},"buffers":[{buffer}]}}"#);
            for (options, most) in [(Options::new(), 8), (exact.clone(), 5)] {
                match options.from_slice_with(text.as_bytes(), |_| Ok(b"ABCDE".to_vec())) {
                    Ok(document) => {
                        let bytes = document.buffers().next().unwrap().bytes();
                        assert_eq!((bytes, declared <= most), (Some(&b"ABCDE\0\0\0"[..]), true));
                    }
                    Err(why) => {
                        assert_eq!((why.expected(), why.actual()), (Some(declared), Some(5)));
                        assert_eq!((why.pointer().as_ref(), declared > most), ("/buffers/0", true));
                    }
                }
            }
        }
    }
}

/// A folder of its own for a test, which is removed at the end.
struct Room(std::path::PathBuf);

impl Room {
    fn new(name: &str) -> Room {
        let path = std::env::temp_dir().join(format!("gltf-proved-{name}-{}", std::process::id()));
        std::fs::create_dir_all(path.join("inner")).unwrap();
        Room(path)
    }

    fn write(&self, name: &str, bytes: &[u8]) {
        std::fs::write(self.0.join(name), bytes).unwrap();
    }

    /// The bytes of the buffer of a document in `inner`, whose URI is this.
    fn buffer_at(&self, uri: &str, options: &Options) -> Result<Vec<u8>, Error> {
        let text = format!(
            r#"{{"asset":{{"version":"2.0"}},"buffers":[{{"byteLength":4,"uri":"{uri}"}}]}}"#
        );
        self.write("inner/a.gltf", text.as_bytes());
        let document = options.open(self.0.join("inner/a.gltf"))?;
        let buffer = document.buffers().next().unwrap();
        Ok(buffer.bytes().unwrap().to_vec())
    }
}

impl Drop for Room {
    fn drop(&mut self) {
        let _ = std::fs::remove_dir_all(&self.0);
    }
}

#[test]
fn a_file_names_nothing_outside_of_its_folder() {
    let room = Room::new("folder");
    room.write("up.bin", b"abcd");
    room.write("inner/b c.bin", b"efgh");
    let up = room.0.join("up.bin");
    std::os::unix::fs::symlink(&up, room.0.join("inner/link.bin")).unwrap();
    let (options, outside) = (Options::new(), Options::new().outside(true));
    for uri in ["b c.bin", "b%20c.bin", "./b%20c.bin"] {
        assert_eq!(room.buffer_at(uri, &options).unwrap(), b"efgh", "{uri}");
    }
    let (path, link) = (up.to_str().unwrap().to_owned(), "link.bin".to_owned());
    let file = format!("file://{path}");
    for uri in ["../up.bin".to_owned(), "%2e%2e/up.bin".to_owned(), path, link, file] {
        let why = room.buffer_at(&uri, &options).unwrap_err();
        assert!(matches!(why, Error::ExternalReference(_)), "{uri}: {why:?}");
        assert_eq!((why.pointer().as_ref(), why.buffer()), ("/buffers/0/uri", Some(0)));
        assert_eq!(room.buffer_at(&uri, &outside).unwrap(), b"abcd", "{uri}");
    }
    let why = room.buffer_at("none.bin", &options).unwrap_err();
    assert!(matches!(&why, Error::ExternalFile(_, it) if it.kind() == io::ErrorKind::NotFound));
    assert!(Folder::new(Path::new(""), false).read("http://a/b").is_err());
}

#[test]
fn an_accessor_that_does_not_fit_is_told() {
    let members = r#","bufferViews":[{"buffer":0,"byteLength":8}],"accessors":[
        {"bufferView":0,"componentType":5126,"count":3,"type":"SCALAR"},
        {"bufferView":0,"componentType":5126,"count":2,"type":"SCALAR"},
        {"componentType":5126,"count":0,"type":"SCALAR"}]"#;
    let document = document_of(members, &[0; 8]).unwrap();
    let accessor = |index: usize| document.accessors().nth(index).unwrap();
    for index in [0, 2] {
        let why = accessor(index).read::<f32>().unwrap_err();
        assert!(matches!(&why, Error::Unreadable(_)), "{why:?}");
        assert_eq!(why.pointer(), format!("/accessors/{index}"));
        assert!(accessor(index).bytes().is_none() && accessor(index).items::<f32>().is_none());
    }
    assert_eq!(accessor(1).read::<f32>().unwrap(), [0.0, 0.0]);
    let why = accessor(1).read::<u32>().unwrap_err();
    assert_eq!((why.status(), why.pointer().as_ref()), (Status::OtherType, "/accessors/1"));
    assert_eq!(accessor(1).read_u32().unwrap_err().status(), Status::OtherType);
}

#[test]
fn a_count_without_bytes_is_no_memory() {
    for count in ["4503599627370496", "18446744073709551615"] {
        let members = format!(
            r#","bufferViews":[{{"buffer":0,"byteLength":4}},{{"buffer":0,"byteLength":4}}],
            "accessors":[{{"componentType":5126,"count":{count},"type":"MAT4","sparse":{{
            "count":1,"indices":{{"bufferView":0,"componentType":5121}},
            "values":{{"bufferView":1}}}}}}]"#
        );
        let document = document_of(&members, &[0; 4]).unwrap();
        let accessor = document.accessors().next().unwrap();
        assert!(accessor.bytes().is_none() && accessor.slice::<[f32; 16]>().is_none());
        assert!(matches!(accessor.read_bytes(), Err(Error::NoMemory)));
        assert!(matches!(accessor.read::<[f32; 16]>(), Err(Error::NoMemory)));
        assert!(matches!(accessor.read_u32(), Err(Error::NoMemory)));
        assert!(accessor.items::<[f32; 16]>().is_none());
    }
}
