// The searches that are measured: a short one, a long one made of many that differ, and one in several scripts.
#[path = "../tests/random/texts.rs"]
pub mod texts;

use texts::Chance;

const STANDS: [&str; 6] = ["furnace", "descaler", "roughing_stand", "finishing_stand_3", "coiler", "Zone_4"];
const WALZWERK: [&str; 6] = ["Länge", "зона", "板坯", "Gerüst", "печь", "卷取机"];

fn sentence(chance: &mut Chance, names: &[&str; 6]) -> String {
    let name = |chance: &mut Chance| chance.pick(names);
    let (a, b, c) = (name(chance), name(chance), name(chance));
    let (n, m) = (chance.below(500), chance.below(90));
    match chance.below(5) {
        0 => format!("SELECT gap.{a}, gap.{b}, MAX({c}) FROM free_gaps gap\n"),
        1 => format!("WHERE {a} >= ? AND {b} BETWEEN {n} AND {m}.5\n"),
        2 => format!("LEFT JOIN stands ON stands.{a} = gap.{b} -- {c}, {n}\n"),
        3 => format!("AND {a} IN ('{b}', '{c} {m}') AND ({b} <> :{c} OR {a} IS NULL)\n"),
        _ => format!("GROUP BY {a}, {b} HAVING MAX({c}) > ${} ORDER BY {a} /* {n} */;\n", m.max(1)),
    }
}

fn generated(most: usize, names: &[&str; 6]) -> Vec<u8> {
    let mut chance = Chance::new(4);
    let mut text = String::new();
    loop {
        let more = sentence(&mut chance, names);
        if text.len() + more.len() > most {
            return text.into_bytes();
        }
        text.push_str(&more);
    }
}

const SHORT: &str =
    "SELECT gap.stand, gap.starts_at, gap.minutes FROM free_gaps gap LEFT JOIN stands ON stands.id = gap.stand \
WHERE stands.line = ? AND gap.minutes >= ? AND stands.name IN ('furnace', 'coiler') ORDER BY gap.starts_at LIMIT $3";

pub fn all() -> [(&'static str, Vec<u8>); 5] {
    [
        ("short search", SHORT.as_bytes().to_vec()),
        ("long search", generated(65536, &STANDS)),
        ("mixed scripts, short", generated(260, &WALZWERK)),
        ("mixed scripts, long", generated(65536, &WALZWERK)),
        ("one word", super::timing::text("gap", 65536)),
    ]
}
