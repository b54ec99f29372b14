//! Finds what the host compares: taffy's float.rs, unchanged, with a reader, and counted, and the archives of the export crates.
//! Each is taken if it is there: cfg has_taffy, has_panel, has_probe.

use std::path::{Path, PathBuf};
use std::{env, fs};

/// Handed to both copies: the page's width, its band count, and a band's heights and insets.
const READER: &str = "
impl FloatContext {
    pub fn width(&self) -> f32 {
        self.available_width
    }

    pub fn band_count(&self) -> usize {
        self.segments.len()
    }

    #[inline]
    pub fn band(&self, number: usize) -> Option<(&Range<f32>, [f32; 2])> {
        self.segments.get(number).map(|band| (&band.y, band.insets))
    }
}
";

/// Handed to the counted copy: the step count, the changes of bands, and the private parts of the page.
const APPENDED: &str = include_str!("appended.rs");

fn main() {
    let here = PathBuf::from(env::var("CARGO_MANIFEST_DIR").unwrap());
    let root = here.parent().unwrap();
    println!("cargo:rerun-if-changed=build.rs");
    println!("cargo:rerun-if-changed=appended.rs");
    println!("cargo:rerun-if-env-changed=TAFFY_FLOAT_RS");
    for part in ["taffy", "panel", "probe"] {
        println!("cargo:rustc-check-cfg=cfg(has_{part})");
    }
    taffy(root);
    archive(root, "panel");
    archive(root, "probe");
}

/// Writes oracle.rs, which names float.rs where it lies and the copies beside it.
fn taffy(root: &Path) {
    let out = PathBuf::from(env::var("OUT_DIR").unwrap());
    let named = env::var_os("TAFFY_FLOAT_RS").map(PathBuf::from);
    let beside = root.join("../shared/docs/src/src/compute/float.rs");
    let mut modules = String::new();
    for place in named.into_iter().chain([beside]) {
        println!("cargo:rerun-if-changed={}", place.display());
        let Ok(text) = fs::read_to_string(&place) else { continue };
        let unchanged = place.canonicalize().unwrap();
        let [read, copy] = ["float_read.rs", "float_counted.rs"].map(|name| out.join(name));
        fs::write(&read, text.clone() + READER).unwrap();
        fs::write(&copy, counted(&text)).unwrap();
        for (name, path) in [("float", unchanged), ("float_read", read), ("float_counted", copy)] {
            modules += &format!("#[path = {path:?}]\n#[allow(dead_code, missing_docs)]\npub mod {name};\n");
        }
        println!("cargo:rustc-cfg=has_taffy");
        break;
    }
    fs::write(out.join("oracle.rs"), modules).unwrap();
}

/// Where a placement begins, and where it splits a band, adds one, or records the box: each line of float.rs, with what the counted copy
/// says after it.
const NOTED: [(&str, &str); 6] = [
    ("self.has_floats = true;", "begun();"),
    ("self.segments.splice((idx + 1)..(idx + 1), core::iter::once(new_segment));", "note(Change::Split(idx));"),
    (
        "self.segments.push(Segment { y: last_y_end..start_y, insets: [0.0, 0.0], has_float: [false; 2] });",
        "note(Change::Added);",
    ),
    (
        "self.segments.push(Segment { y: start_y..(start_y + floated_box.height), insets, has_float });",
        "note(Change::Added); let below = self.segments.len(); note(Change::Recorded(slot, below - 1..below));",
    ),
    ("self.segments.push(Segment { y: last_y_end..end_y, insets, has_float: [false; 2] });", "note(Change::Added);"),
    (
        "let placed_inset_plus_width = placed_inset + floated_box.width;",
        "note(Change::Recorded(slot, start_idx..end_idx + 1));",
    ),
];

/// How often float.rs splits and adds bands, and sets marks: all of it at or right after a line of NOTED.
const CHANGING: [(&str, usize); 4] = [
    ("self.segments.splice(", 1),
    ("self.segments.push(", 3),
    ("for segment in &mut self.segments[start_idx..=end_idx] {", 1),
    ("has_float[slot] = true;", 2),
];

/// The text with a count where the search gives up a start (twice) or an end (once), and nowhere else, and with the notes.
fn counted(text: &str) -> String {
    for (part, times) in NOTED.map(|(line, _)| (line, 1)).into_iter().chain(CHANGING) {
        assert_eq!(text.matches(part).count(), times, "float.rs has otherwise '{part}': it is not taffy 0.15.1");
    }
    let mut copy = String::new();
    let mut starts = 0;
    let mut ends = 0;
    let mut before = "";
    for line in text.lines() {
        let gives_up = matches!(line.trim(), "continue;" | "continue 'outer;");
        if gives_up {
            match before {
                "end_idx = end_idx.max(start_idx);" => starts += 1,
                "end_idx += 1;" => ends += 1,
                other => panic!("float.rs goes on after '{other}': it is not taffy 0.15.1"),
            }
            copy += "given_up();\n";
        }
        copy += line;
        copy += "\n";
        before = line.trim();
        if let Some((_, note)) = NOTED.iter().find(|(line, _)| *line == before) {
            copy += note;
            copy += "\n";
        }
    }
    assert_eq!(
        (starts, ends),
        (2, 1),
        "float.rs has other places where a start or an end is given up: it is not taffy 0.15.1"
    );
    copy + READER + APPENDED
}

/// Links crates/NAME/out/libNAME.a, where `rt lib` left it.
fn archive(root: &Path, name: &str) {
    let folder = root.join(format!("crates/{name}/out"));
    let file = folder.join(format!("lib{name}.a"));
    println!("cargo:rerun-if-changed={}", file.display());
    if file.exists() {
        println!("cargo:rustc-cfg=has_{name}");
        println!("cargo:rustc-link-search=native={}", folder.display());
        println!("cargo:rustc-link-lib=static={name}");
    }
}
