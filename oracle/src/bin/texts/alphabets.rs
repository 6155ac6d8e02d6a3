//! The tokens that texts are put together from.

pub const KINDS: &[&str] = &["c", "g", "m", "n", "p", "r"];

pub const NUCLEOTIDES: &[&str] = &[
    "A", "C", "G", "T", "U", "R", "Y", "M", "K", "W", "S", "B", "D", "H", "V", "N", "a", "c", "g", "t", "u", "r", "y",
    "m", "k", "w", "s", "b", "d", "h", "v", "n",
];

pub const RESIDUES_OF_ONE: &[&str] = &[
    "A", "C", "D", "E", "F", "G", "H", "I", "K", "L", "M", "N", "P", "Q", "R", "S", "T", "V", "W", "Y", "B", "Z", "X",
    "U", "*",
];

pub const RESIDUES_OF_THREE: &[&str] = &[
    "Ala", "Cys", "Asp", "Glu", "Phe", "Gly", "His", "Ile", "Lys", "Leu", "Met", "Asn", "Pro", "Gln", "Arg", "Ser",
    "Thr", "Val", "Trp", "Tyr", "Asx", "Glx", "Xaa", "Sec", "Ter",
];

pub const TERMINALS: &[&str] = &["Ter", "X", "*"];

pub const NUCLEOTIDE_BODY: &[&str] = &[
    "0", "1", "76", "2147483648", "+", "-", "*", "_", "(", ")", "?", "A", "t", "=", ">", "del", "ins", "dup", "inv",
];

pub const PROTEIN_BODY: &[&str] = &[
    "Met", "Gly", "Ter", "A", "X", "*", "0", "1", "2147483648", "?", "=", "(", ")", "_", "-", "fs", "ext", "del",
    "ins", "dup",
];

pub const HEADER: &[&str] = &["A", "b", "7", "_", ".", "(", ")", ":", ":c.1=", ":p.=", ":x.1="];

pub fn body(kind: &str) -> &'static [&'static str] {
    match kind {
        "p" => PROTEIN_BODY,
        _ => NUCLEOTIDE_BODY,
    }
}
