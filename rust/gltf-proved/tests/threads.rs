//! A document is read by many threads, and files of strangers make no thread panic.
use std::thread;

use gltf_proved::Document;

mod support;
use support::{example, file, read_all};

#[test]
fn four_threads_read_one_document() {
    for name in ["box.glb", "triangle.gltf", "two files/square.gltf"] {
        let document = Document::open(example(name)).unwrap();
        // Read by one thread alone, from another file: nothing of this one is made yet.
        let wanted = read_all(&Document::open(example(name)).unwrap());
        thread::scope(|scope| {
            for _ in 0..4 {
                scope.spawn(|| {
                    for _ in 0..50 {
                        assert_eq!(read_all(&document), wanted);
                    }
                });
            }
        });
    }
}

#[test]
fn a_document_goes_to_another_thread() {
    let document = Document::open(example("box.glb")).unwrap();
    let kept = document.clone();
    let there = thread::spawn(move || read_all(&document)).join().unwrap();
    assert_eq!(there, read_all(&kept));
}

/// Numbers that look random (xorshift).
struct Numbers(u64);

impl Numbers {
    fn below(&mut self, end: usize) -> usize {
        self.0 ^= self.0 << 13;
        self.0 ^= self.0 >> 7;
        self.0 ^= self.0 << 17;
        (self.0 % end as u64) as usize
    }
}

/// The bytes of a file with a few changes.
fn mutated(bytes: &[u8], numbers: &mut Numbers) -> Vec<u8> {
    let mut bytes = bytes.to_vec();
    for _ in 0..1 + numbers.below(3) {
        let at = numbers.below(bytes.len());
        if numbers.below(2) == 0 {
            bytes[at] ^= 1 << numbers.below(8);
        } else {
            let letters = b"0123456789\"{}[],:";
            bytes[at] = letters[numbers.below(letters.len())];
        }
    }
    bytes
}

#[test]
fn mutated_files_are_read_from_four_threads() {
    let sources: Vec<Vec<u8>> =
        ["examples/box.glb", "examples/triangle.gltf", "c/tests/rig.gltf", "c/tests/surface.gltf"]
            .map(file)
            .into();
    let read: usize = thread::scope(|scope| {
        let work = |seed: u64| {
            let (sources, mut numbers) = (&sources, Numbers(seed * 7919 + 1));
            move || {
                let mut read = 0;
                for turn in 0..500 {
                    let bytes = mutated(&sources[turn % sources.len()], &mut numbers);
                    let options = gltf_proved::Options::new();
                    let opened = options.from_slice_with(&bytes, |_| Ok(vec![1; 4096]));
                    if let Ok(document) = opened {
                        read_all(&document);
                        read += 1;
                    }
                }
                read
            }
        };
        let threads: Vec<_> = (1..=4).map(|seed| scope.spawn(work(seed))).collect();
        threads.into_iter().map(|it| it.join().unwrap()).sum()
    });
    assert!(read > 200, "{read}");
}
