// Searches at random, the same for the same seed: pieces of SQL, quotes, backslashes, comments, line ends, placeholders,
// characters of every class and whitespace of every kind; some with ill-formed bytes.
#![allow(dead_code)]

// Splitmix64.
pub struct Chance(u64);

impl Chance {
    pub fn new(seed: u64) -> Chance {
        Chance(seed)
    }

    pub fn next(&mut self) -> u64 {
        self.0 = self.0.wrapping_add(0x9E37_79B9_7F4A_7C15);
        let mut z = self.0;
        z = (z ^ (z >> 30)).wrapping_mul(0xBF58_476D_1CE4_E5B9);
        z = (z ^ (z >> 27)).wrapping_mul(0x94D0_49BB_1331_11EB);
        z ^ (z >> 31)
    }

    pub fn below(&mut self, n: usize) -> usize {
        (self.next() % n as u64) as usize
    }

    pub fn one_in(&mut self, n: usize) -> bool {
        self.below(n) == 0
    }

    pub fn pick<T: Copy>(&mut self, items: &[T]) -> T {
        items[self.below(items.len())]
    }
}

#[rustfmt::skip]
const WORDS: &[&str] = &[
    "SELECT", "select", "SELECT DISTINCT", "FROM", "from", "WHERE", "AND", "and", "BETWEEN", "between", "USING", "using",
    "SET", "UPDATE", "update", "MERGE INTO", "MERGE", "INTO", "DELETE FROM", "DELETE", "EXCEPT", "ORDER", "BY", "GROUP BY",
    "LEFT", "OUTER", "JOIN", "CROSS APPLY", "CREATE", "OR", "REPLACE", "UNIQUE", "INDEX", "GLOBAL", "TEMPORARY", "TEMP",
    "TABLE", "VIEW", "DROP", "ALTER", "IF", "EXISTS", "EXISTSX", "CASE", "case", "END", "end", "WHEN", "FETCH FIRST", "FOR",
    "NO", "KEY", "SHARE", "NOW()", "ON", "CONFLICT", "UNION", "ALL", "$$", "BEGIN", "DECLARE", "VALUES", "N", "E", "x", "X",
    "a", "b1", "_", "gap", "stand", "coiler", "Z", "IN", "LIMIT", "GO", "SCHEMA", "CURRENT", "CHARACTER", "DO", "NOTHING",
];

#[rustfmt::skip]
const QUOTES: &[&str] = &[
    "'", "'", "'", "\"", "`", "[", "]", "''", "\"\"", "``", "]]", "\\", "\\", "\\'", "\\\"", "\\`", "\\]", "\\\\", "N'", "E'",
    "x'", "X'", "@'", ":'", "@\"", ":\"", "@`", "@[", ":[", "{", "}", "'a'", "'a\\'", "'a\\''", "[a]", "\"b\"", "`c`",
];

const COMMENTS: &[&str] = &["#", "--", "-", "/*", "*/", "/", "*", "# x", "-- y", "/* z */"];

const LINE_ENDS: &[&str] = &["\n", "\r\n", "\n", "\r\n", "\r"];

#[rustfmt::skip]
const PLACEHOLDERS: &[&str] = &[
    "?", "?", "?1", "?0", "$1", "$0", "$00", "$2a", "$a", ":a", "@b", "@a.b", ":$", "{c}", "{c d}", "{}", "${", "@''", "@'k'",
    "@'k\\'k'", "@\"k\\\"\"", "@`k``\\`", "@[k]", "@[k\\]]]", "@N'k'", "?18446744073709551615", "?18446744073709551616",
    "$18446744073709551615", "$4294967296", "@", ":", "$",
];

#[rustfmt::skip]
const MARKS: &[&str] = &[
    ".", ",", ";", "(", ")", "::", "[]", "=", "!=", "<=>", "||", "&&", "->>", "=?", "~", "^", "%", "!", "<", ">", "|", "&",
    "1", "-1", "1.5", "1.", "1e5", "2.e+3", "1e", "0", "007", "\0", "\x7f", "+",
];

// Letters, marks, connectors, numbers, signs and symbols beyond ASCII, at the ends of tables and of UTF-8's lengths.
#[rustfmt::skip]
const BEYOND: &[&str] = &[
    "é", "ß", "Ä", "я", "板", "坯", "\u{301}", "\u{203F}", "\u{FF3F}", "²", "½", "٣", "Ⅷ", "€", "😀", "\u{1CF2}", "\u{7FD}",
    "\u{200B}", "\u{200D}", "\u{FEFF}", "\u{7FF}", "\u{800}", "\u{FFFF}", "\u{10000}", "\u{10FFFF}", "\u{D7FF}", "\u{E000}",
    "\u{180E}", "ſ", "K", "\u{80}",
];

// White_Space, all of it, CR with its line feed.
#[rustfmt::skip]
const BLANKS: &[&str] = &[
    " ", " ", " ", "  ", "\t", "\n", "\u{B}", "\u{C}", "\r\n", "\u{85}", "\u{A0}", "\u{1680}", "\u{2000}", "\u{2001}",
    "\u{2002}", "\u{2003}", "\u{2004}", "\u{2005}", "\u{2006}", "\u{2007}", "\u{2008}", "\u{2009}", "\u{200A}", "\u{2028}",
    "\u{2029}", "\u{202F}", "\u{205F}", "\u{3000}",
];

const CLASSES: &[&[&str]] = &[WORDS, QUOTES, COMMENTS, LINE_ENDS, PLACEHOLDERS, MARKS, BEYOND, BLANKS];

// Pieces, at most so many. Two classes are met more often than the rest.
fn pieces(chance: &mut Chance, most: usize) -> String {
    let liked = [chance.below(CLASSES.len()), chance.below(CLASSES.len())];
    let mut text = String::new();
    for _ in 0..chance.below(most + 1) {
        let class = match chance.below(6) {
            0 | 1 => chance.pick(&liked),
            2 => CLASSES.len() - 1,
            _ => chance.below(CLASSES.len()),
        };
        text.push_str(chance.pick(CLASSES[class]));
    }
    text
}

// White space, now and then with a CR that has no line feed.
pub fn gap(chance: &mut Chance) -> String {
    (0..1 + chance.below(3)).map(|_| if chance.one_in(10) { "\r" } else { chance.pick(BLANKS) }).collect()
}

fn damage(chance: &mut Chance, text: &mut Vec<u8>) {
    let at = chance.below(text.len() + 1);
    let byte = chance.next() as u8 | 0x80;
    match chance.below(3) {
        0 => text.insert(at, byte),
        1 => text.truncate(at),
        _ => text.splice(at..(at + 1).min(text.len()), [byte]).for_each(drop),
    }
}

// A planner's search over and over, up to the longest text and beyond.
fn long(chance: &mut Chance) -> Vec<u8> {
    let part = "SELECT gap, 'F1' FROM stands -- зона\nWHERE minutes >= ? AND zone = :zone ";
    let mut text = part.repeat(65600 / part.len() + 1).into_bytes();
    text.truncate(65536 - 20 + chance.below(40));
    text
}

pub fn search(chance: &mut Chance) -> Vec<u8> {
    if chance.one_in(20000) {
        return long(chance);
    }
    let most = if chance.one_in(2000) { 400 } else { chance.pick(&[3, 8, 16, 32]) };
    let mut text = pieces(chance, most).into_bytes();
    if chance.one_in(20) {
        damage(chance, &mut text);
    }
    text
}

// The signs of the short texts: each decides something with its neighbours.
const SIGNS: &[u8] = b"a '\\#\r\n-?";
const LONGEST_SHORT: u32 = 5;

// All texts of up to five signs, one after the other, then none.
pub fn short(mut index: usize) -> Option<Vec<u8>> {
    for length in 0..=LONGEST_SHORT {
        let texts = SIGNS.len().pow(length);
        if index < texts {
            return Some((0..length).map(|k| SIGNS[index / SIGNS.len().pow(k) % SIGNS.len()]).collect());
        }
        index -= texts;
    }
    None
}

// Mostly accepted; else a number that is no setting.
pub fn settings(chance: &mut Chance) -> [u64; 3] {
    let mut settings = [chance.next() % 3, chance.next() % 2, chance.next() % 2];
    if chance.one_in(50) {
        let beyond = [2, 3, 256, 1 << 32, (1 << 32) + 1, 1 << 63, u64::MAX];
        settings[chance.below(3)] = chance.pick(&beyond);
    }
    settings
}

// Texts that could be slow or deep: a name, what is repeated, what is laid before and behind, and the dialect.
pub const HARD: &[(&str, &str, &str, &str, u64)] = &[
    ("{", "", "{", "", 0),
    ("'\\", "", "'\\", "", 0),
    ("\"\\", "", "\"\\", "", 0),
    ("# .. CR", "", "#", "\r", 0),
    ("#CR", "", "#\r", "", 0),
    ("--CR", "", "--\r", "", 0),
    ("@'", "", "@'", "", 0),
    ("@'\\", "", "@'\\", "", 0),
    ("[, SQLServer", "", "[", "", 2),
    ("@[, SQLServer", "", "@[", "", 2),
    ("`", "", "`", "", 0),
    ("` a", "", "` a ", "", 0),
    ("x'", "", "x'", "", 0),
    ("SELECT, wide gaps", "", "SELECT                                                          ", "", 0),
    ("CREATE, wide gaps", "", "CREATE                                                          ", "", 0),
    ("END, wide gaps", "", "END                                                             ", "", 0),
    ("DROP TABLE IF", "", "DROP TABLE IF\u{3000}", "", 0),
    ("a.", "", "a.", "", 0),
    ("a,", "", "a,", "", 0),
    ("?", "", "?", "", 0),
    ("?, apart", "", "? ", "", 0),
    ("$1", "", "$1", "", 0),
    ("$a", "", "$a", "", 0),
    ("? and digits", "?", "1", "", 0),
    ("1.", "", "1.", "", 0),
    ("/*", "", "/*", "", 0),
    ("a 板", "", "a板", "", 0),
    ("marks", "a", "\u{301}", "", 0),
    ("one wide gap", "a", "\u{3000}", "a", 0),
];

// A hard text of at most so many bytes, ending between two characters.
pub fn hard(before: &str, part: &str, behind: &str, most: usize) -> Vec<u8> {
    let room = most - before.len() - behind.len();
    format!("{before}{}{behind}", part.repeat(room / part.len())).into_bytes()
}
