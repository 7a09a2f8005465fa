//! The structs of the border lie alike in memory in the three places that
//! declare them: the C header, the package and the proved library.
//!
//! The header's layout is a C compiler's word, the package's is Rust's. That of
//! the library is laid out here, by the rules of C, from its declarations.

mod support;

use std::any::type_name_of_val;
use std::mem::{offset_of, size_of, size_of_val};

use ohakelm_answers::{Bitmap, Edited, Entry, Label, Listed, Logo};
use ohakelm_answers::{Pack, Salvage, Stretch, Tone, Written};
use support::{c, text};

#[derive(Debug, PartialEq, Eq)]
struct Field {
    name: String,
    kind: String,
    offset: usize,
    size: usize,
}

#[derive(Debug, PartialEq, Eq)]
struct Layout {
    name: String,
    size: usize,
    fields: Vec<Field>,
}

/// The names of one struct in the package, in the header and in the library.
const NAMES: [(&str, &str, &str); 11] = [
    ("Tone", "ohakelm_tone", "ToneAnswer"),
    ("Written", "ohakelm_written", "WrittenAnswer"),
    ("Label", "ohakelm_label_stretch", "LabelAnswer"),
    ("Listed", "ohakelm_listed", "ListAnswer"),
    ("Edited", "ohakelm_edited", "EditAnswer"),
    ("Pack", "ohakelm_pack", "PackAnswer"),
    ("Stretch", "ohakelm_stretch", "StretchAnswer"),
    ("Salvage", "ohakelm_salvage", "SalvageAnswer"),
    ("Bitmap", "ohakelm_bitmap", "BitmapAnswer"),
    ("Logo", "ohakelm_logo", "LogoAnswer"),
    ("Entry", "ohakelm_entry", "Entry"),
];

// ---- The package.

/// The layout of a struct. Its fields are all there: else the pattern would not
/// compile.
macro_rules! layout {
    ($struct:ident: $($field:ident)*) => {{
        let $struct { $($field),* } = $struct::default();
        Layout {
            name: stringify!($struct).to_string(),
            size: size_of::<$struct>(),
            fields: vec![$(Field {
                name: stringify!($field).to_string(),
                kind: type_name_of_val(&$field).to_string(),
                offset: offset_of!($struct, $field),
                size: size_of_val(&$field),
            }),*],
        }
    }};
}

fn package() -> [Layout; 11] {
    [
        layout!(Tone: refusal place song unicode characters patterns entries),
        layout!(Written: refusal place octets),
        layout!(Label: stand_in start length),
        layout!(Listed: refusal place entries mark),
        layout!(Edited: refusal place length entries mark change),
        layout!(Pack: refusal place messages),
        layout!(Stretch: refusal place start length),
        layout!(Salvage: refusal place messages octets skipped),
        layout!(Bitmap: refusal place width height black start length),
        layout!(Logo: refusal place width height black start length
            mcc_start mcc_length mnc_start mnc_length date_start date_length),
        layout!(Entry: note scale style volume microseconds header position),
    ]
}

// ---- The header.

/// The structs of the header, each with the names of its fields in order.
fn in_header() -> Vec<(String, Vec<String>)> {
    let header = text("include/ohakelm.h");
    let structs = header.split("\nstruct ").skip(1);
    // A call that answers a struct begins with that word too.
    let bodies = structs.filter_map(|text| text.split_once(" {\n"));
    let bodies = bodies.filter(|(name, _)| !name.contains(char::is_whitespace));
    bodies
        .map(|(name, text)| (name.to_string(), lines_of(text).map(c_field).collect()))
        .collect()
}

/// The lines up to the end of a struct.
fn lines_of(text: &str) -> impl Iterator<Item = &str> {
    text.lines().take_while(|line| !line.starts_with('}'))
}

/// The name of a field: a type, the name, and it may be a comment.
fn c_field(line: &str) -> String {
    let declared = line.split("/*").next().unwrap_or_default().trim();
    let words = declared.strip_suffix(';').and_then(|it| it.split_once(' '));
    match words {
        Some((_, name)) if name.chars().all(|c| c.is_alphanumeric() || c == '_') => {
            name.to_string()
        }
        _ => panic!("no field: {line}"),
    }
}

/// Names a type as Rust does, and prints a field.
const C_MACROS: &str = r#"
#define KIND(f) _Generic((f), bool: "bool", uint32_t: "u32", \
    int32_t: "i32", size_t: "usize", default: "another")
#define FIELD(s, f) printf("%s %s %zu %zu\n", #f, KIND(((struct s *)0)->f), \
    offsetof(struct s, f), sizeof(((struct s *)0)->f))
"#;

/// The layout that the C compiler gives a struct.
fn compiled(name: &str, fields: &[String]) -> Layout {
    let mut lines = format!("{C_MACROS}printf(\"%zu\\n\", sizeof(struct {name}));\n");
    for field in fields {
        lines += &format!("FIELD({name}, {field});\n");
    }
    let printed = c::printed_by(&format!("layout_of_{name}"), &lines);
    let mut printed = printed.lines();
    Layout {
        name: name.to_string(),
        size: number(printed.next()),
        fields: printed.map(printed_field).collect(),
    }
}

fn printed_field(line: &str) -> Field {
    let mut words = line.split(' ');
    let mut word = || words.next();
    Field {
        name: word().unwrap_or_default().to_string(),
        kind: word().unwrap_or_default().to_string(),
        offset: number(word()),
        size: number(word()),
    }
}

fn number(digits: Option<&str>) -> usize {
    match digits.and_then(|digits| digits.parse().ok()) {
        Some(number) => number,
        None => panic!("no number: {digits:?}"),
    }
}

#[test]
fn the_header_and_the_package_are_laid_out_alike() {
    let structs = in_header();
    let names: Vec<&str> = structs.iter().map(|it| &*it.0).collect();
    assert_eq!(names, NAMES.map(|names| names.1), "all of the header");
    for ((name, fields), package) in structs.iter().zip(package()) {
        assert_alike(compiled(name, fields), package);
    }
}

// ---- The library.

/// The structs that a source lays out as C does, each with its fields' names and
/// types in order.
fn declared(path: &str) -> Vec<(String, Vec<(String, String)>)> {
    let source = text(path);
    let structs = source.split("#[repr(C)]").skip(1);
    let bodies = structs.filter_map(|text| text.split_once("pub struct ")?.1.split_once(" {\n"));
    let fields = |text| lines_of(text).filter_map(declared_field).collect();
    bodies
        .map(|(name, text)| (name.to_string(), fields(text)))
        .collect()
}

/// The name and the type of a field. A comment has none.
fn declared_field(line: &str) -> Option<(String, String)> {
    let line = line.trim();
    if line.starts_with("//") {
        return None;
    }
    let field = line
        .strip_prefix("pub ")
        .and_then(|it| it.strip_suffix(','));
    match field.and_then(|field| field.split_once(": ")) {
        Some((name, kind)) => Some((name.to_string(), kind.to_string())),
        None => panic!("no field: {line}"),
    }
}

/// The layout by the rules of C: each field at the next multiple of its
/// alignment, and the whole a multiple of the largest one. The alignment of
/// these types is their size.
fn laid_out(name: &str, fields: &[(String, String)]) -> Layout {
    let (mut end, mut alignment) = (0_usize, 1);
    let mut laid = Vec::new();
    for (name, kind) in fields {
        let size = size(kind);
        let offset = end.next_multiple_of(size);
        laid.push(Field {
            name: name.to_string(),
            kind: kind.to_string(),
            offset,
            size,
        });
        end = offset + size;
        alignment = alignment.max(size);
    }
    Layout {
        name: name.to_string(),
        size: end.next_multiple_of(alignment),
        fields: laid,
    }
}

/// On x86-64 and on 64-bit Arm.
fn size(kind: &str) -> usize {
    match kind {
        "bool" => 1,
        "u32" | "i32" => 4,
        "usize" => 8,
        _ => panic!("a field of another type: {kind}"),
    }
}

#[test]
fn the_library_and_the_package_are_laid_out_alike() {
    let sources = SOURCES.map(|source| declared(&format!("crates/{source}/src/lib.rt")));
    let mut structs = sources.concat();
    // The library has them by its crates.
    let place = |name: &str| NAMES.iter().position(|names| names.2 == name);
    structs.sort_by_key(|it| place(&it.0));
    let names: Vec<&str> = structs.iter().map(|it| &*it.0).collect();
    assert_eq!(names, NAMES.map(|names| names.2), "all of the library");
    for ((name, fields), package) in structs.iter().zip(package()) {
        assert_alike(laid_out(name, fields), package);
    }
}

/// The crates that declare structs of the border.
const SOURCES: [&str; 5] = [
    "ohakelm",
    "written",
    "pack_answers",
    "bitmap_answers",
    "list_rules",
];

// ---- All of them.

#[test]
fn no_struct_of_the_package_is_left_out() {
    let structs = declared("rust/answers/src/lib.rs");
    let names: Vec<String> = structs.into_iter().map(|it| it.0).collect();
    assert_eq!(names, NAMES.map(|names| names.0));
    assert_eq!(names, package().map(|layout| layout.name));
}

/// Only the names of the two structs may differ.
fn assert_alike(other: Layout, package: Layout) {
    assert_eq!(other.fields, package.fields, "{}", other.name);
    assert_eq!(other.size, package.size, "{}", other.name);
}
