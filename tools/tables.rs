// Prints the tables of the crate `characters`: for each class its ranges as specs/ has them, and the array of them as src/ has it.
//
//     tables DIR      writes the files below DIR, the folder of the crate
//     tables sweep    prints the ranges of every class, as the program `sweep` is to print them
//
// Alphabetic, numeric and White_Space are rustc's own (char::UNICODE_VERSION, printed into each
// file). Marks and connectors are those of the crate unicode_categories 0.1.1, which is older.
use std::fmt::Write as _;
use std::fs;
use unicode_categories::UnicodeCategories;

type Range = (u32, u32);

struct Class {
    // As specs/, src/ and the definition name it, and what it is.
    file: &'static str,
    module: &'static str,
    definition: &'static str,
    what: &'static str,
    test: fn(char) -> bool,
    from: String,
}

fn classes() -> Vec<Class> {
    let (major, minor, patch) = char::UNICODE_VERSION;
    let rustc = format!("rustc's, Unicode {major}.{minor}.{patch}");
    let old = "those of the crate unicode_categories 0.1.1".to_string();
    let class = |file, module, definition, what, test, from: &String| Class {
        file,
        module,
        definition,
        what,
        test,
        from: from.clone(),
    };
    vec![
        class("WhiteSpace", "white_space", "white_space", "White_Space", char::is_whitespace, &rustc),
        class("Alphabetic", "alphabetic", "alphabetic", "Alphabetic", char::is_alphabetic, &rustc),
        class("Numeric", "numeric", "numeric", "Numeric: the categories Nd, Nl and No", char::is_numeric, &rustc),
        class("Mark", "mark", "mark", "Marks: the categories Mn, Mc and Me", |c| c.is_mark(), &old),
        class(
            "Connector",
            "connector",
            "connector",
            "Connector punctuation: the category Pc",
            |c| c.is_punctuation_connector(),
            &old,
        ),
    ]
}

fn ranges(test: impl Fn(char) -> bool) -> Vec<Range> {
    let mut found: Vec<Range> = Vec::new();
    for c in (0..=0x10FFFF).filter_map(char::from_u32).filter(|c| test(*c)) {
        let c = c as u32;
        match found.last_mut() {
            Some(range) if range.1 + 1 == c => range.1 = c,
            _ => found.push((c, c)),
        }
    }
    found
}

fn spec(class: &Class, ranges: &[Range]) -> String {
    let points: u32 = ranges.iter().map(|r| r.1 - r.0 + 1).sum();
    let mut out = String::new();
    writeln!(out, "-- {}: {}. Made by tools/tables.rs.", class.what, class.from).unwrap();
    writeln!(out, "-- {} ranges, {} code points; each range is its first and its last code point.", ranges.len(), points).unwrap();
    writeln!(out, "use Rattle.std.specs.Prelude.{{ℕ, List, [], ◌∷◌}}\n").unwrap();
    writeln!(out, "unfoldable pub {0} : List (ℕ × ℕ)\n{0} =", class.definition).unwrap();
    for (i, (first, last)) in ranges.iter().enumerate() {
        writeln!(out, "    {}({first:#06X}, {last:#06X})", if i == 0 { "" } else { "∷ " }).unwrap();
    }
    writeln!(out, "    ∷ []").unwrap();
    out
}

fn source(class: &Class, ranges: &[Range]) -> String {
    let mut out = String::new();
    writeln!(out, "// {}: {}. Made by tools/tables.rs.", class.what, class.from).unwrap();
    writeln!(out, "ghost use Rattle.std.specs.Prelude.{{◌≡◌}};").unwrap();
    writeln!(out, "ghost use Rattle.characters.specs.Ranges.{{in_ranges}};").unwrap();
    writeln!(out, "ghost use Rattle.characters.specs.{}.{{{}}};", class.file, class.definition).unwrap();
    writeln!(out, "\nuse crate::ranges::in_ranges;").unwrap();
    writeln!(out, "\n// Each range is its first and its last code point.").unwrap();
    writeln!(out, "const RANGES: [(u32, u32); {}] = [", ranges.len()).unwrap();
    for (first, last) in ranges {
        writeln!(out, "    ({first:#06X}, {last:#06X}),").unwrap();
    }
    writeln!(out, "];").unwrap();
    writeln!(out, "\npub fn contains(c: u32) -> bool").unwrap();
    writeln!(out, "    ensures {{ result ≡ in_ranges {} c }}\n{{", class.definition).unwrap();
    writeln!(out, "    in_ranges(&RANGES, c)\n}}").unwrap();
    out
}

// What the program `sweep` is to print, from the predicates that 000 itself calls.
fn sweep() {
    let word = |c: char| c.is_alphanumeric() || c.is_mark() || c.is_punctuation_connector();
    let name = |c: char| c.is_alphanumeric() || c == '.' || c == '_' || c == '$';
    let classes: [(&str, &dyn Fn(char) -> bool); 8] = [
        ("is_whitespace", &char::is_whitespace),
        ("is_alphabetic", &char::is_alphabetic),
        ("is_numeric", &char::is_numeric),
        ("is_mark", &|c| c.is_mark()),
        ("is_punctuation_connector", &|c| c.is_punctuation_connector()),
        ("is_alphanumeric", &char::is_alphanumeric),
        ("is_word_character", &word),
        ("is_placeholder_name_character", &name),
    ];
    for (class, test) in classes {
        println!("{class}");
        for (first, last) in ranges(test) {
            println!("{first:04x} {last:04x}");
        }
    }
}

fn main() {
    let target = std::env::args().nth(1).expect("tables DIR, or tables sweep");
    if target == "sweep" {
        return sweep();
    }
    for class in classes() {
        let ranges = ranges(class.test);
        fs::write(format!("{target}/specs/{}.antt", class.file), spec(&class, &ranges)).unwrap();
        fs::write(format!("{target}/src/{}.rt", class.module), source(&class, &ranges)).unwrap();
    }
}
