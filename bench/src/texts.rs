//! Classes of texts. No text makes the Rust panic.

pub struct Class {
    pub name: &'static str,
    pub texts: Vec<String>,
}

const TYPICAL: [&str; 24] = [
    "NM_004006.2:c.4375C>T",
    "NM_004006.2:c.4375_4379del",
    "NM_004006.2:c.4375_4385dup",
    "NM_004006.2:c.4375_4376insACCT",
    "NM_004006.2:c.4375_4376delinsAGTT",
    "NM_004006.2:c.2949_2957inv",
    "NM_000088.3:c.589-1G>T",
    "NM_000088.3:c.4072-1234_5155-246del",
    "NM_000088.3:c.*46T>A",
    "NM_000088.3(COL1A1):c.(589)(G>T)",
    "NC_000023.11:g.32389644G>A",
    "NC_000023.11:g.32343183dup",
    "NC_000023.11:g.33344590_33344592delinsT",
    "NC_000023.11:g.?_33344592del",
    "NC_012920.1:m.3243A>G",
    "NR_002196.1:n.601G>T",
    "NR_002196.1:n.345_354del",
    "NM_004006.3:r.76a>c",
    "NM_004006.3:r.123_127delinsag",
    "NP_003997.1:p.Trp24Cys",
    "NP_003997.1:p.(Trp24Cys)",
    "NP_003997.2:p.Val7del",
    "NP_003997.2:p.Lys23_Val25del",
    "NP_0123456.1:p.Arg97ProfsTer23",
];

fn letters(count: usize) -> String {
    "ACGTTGCA".chars().cycle().take(count).collect()
}

/// A text of exactly this many bytes: an insertion of many letters.
fn insertion(bytes: usize) -> String {
    let front = "NM_004006.2:c.4375_4376ins";
    format!("{front}{}", letters(bytes - front.len()))
}

/// The text with a zero in front of its first number: not its own shortest text.
fn with_zero(text: &str) -> String {
    let body = text.find(':').unwrap();
    let digit = body + text[body..].find(|c: char| c.is_ascii_digit()).unwrap();
    format!("{}0{}", &text[..digit], &text[digit..])
}

pub fn classes() -> Vec<Class> {
    let typical: Vec<String> = TYPICAL.iter().map(|t| t.to_string()).collect();
    let with_zeros = typical.iter().map(|t| with_zero(t)).collect();
    let refused = typical
        .iter()
        .flat_map(|t| [format!("{t} "), t.replacen(':', ";", 1), t.replace('.', ".x")])
        .collect();
    vec![
        Class { name: "typical lines", texts: typical },
        Class { name: "with a zero more", texts: with_zeros },
        Class { name: "long sequences", texts: (2..=10).map(|k| insertion(k * 100)).collect() },
        Class { name: "4,096 bytes", texts: vec![insertion(4096)] },
        Class { name: "refused", texts: refused },
    ]
}

/// Texts of 40 bytes and of 4,096 of one kind, to compare the cost of a byte.
pub fn short_and_long() -> (Vec<String>, Vec<String>) {
    (vec![insertion(40)], vec![insertion(4096)])
}
