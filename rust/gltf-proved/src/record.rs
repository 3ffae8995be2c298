//! What the handles of all kinds of records have.

/// Makes the handle of a kind of records: its type, the struct of the library that it holds, and
/// the number of the kind.
macro_rules! record {
    ($(#[$about:meta])* $name:ident: $info:ident, $kind:ident) => {
        $(#[$about])*
        #[derive(Clone)]
        pub struct $name<'a> {
            pub(crate) document: &'a $crate::Document,
            index: usize,
            #[allow(dead_code)]
            info: $crate::sys::$info,
        }

        impl<'a> $name<'a> {
            pub(crate) fn new(document: &'a $crate::Document, index: usize) -> Self {
                $name { document, index, info: document.file().info(index) }
            }

            /// The index of the record, in the order of the file.
            pub fn index(&self) -> usize {
                self.index
            }

            /// The name, if the file states one.
            pub fn name(&self) -> Option<&'a str> {
                self.document.name($crate::sys::$kind, self.index)
            }

            /// The extras, as JSON text.
            pub fn extras(&self) -> Option<String> {
                self.document.file().json($crate::sys::$kind, self.index, 0, None)
            }

            /// What the record has of an extension that this crate has no member for, as JSON text.
            pub fn extension_value(&self, ext_name: &str) -> Option<String> {
                self.document.file().json($crate::sys::$kind, self.index, 0, Some(ext_name))
            }

            /// The packet of metadata that describes it (`KHR_xmp_json_ld`), by its position in the
            /// list of packets ([`extension`](crate::extension)).
            pub fn xmp_packet(&self) -> $crate::Result<Option<usize>> {
                self.document.file().xmp_packet($crate::sys::$kind, self.index, 0)
            }
        }

        impl std::fmt::Debug for $name<'_> {
            fn fmt(&self, f: &mut std::fmt::Formatter<'_>) -> std::fmt::Result {
                let mut shown = f.debug_struct(stringify!($name));
                shown.field("index", &self.index).field("name", &self.name()).finish()
            }
        }
    };
}
