//! Texts of an exact length around the limit of 4,096 bytes.

pub const LENGTHS: std::ops::RangeInclusive<usize> = 4095..=4097;
pub const FORMS: usize = 5;

pub fn text(form: usize, length: usize) -> String {
    let (before, filling, behind) = match form {
        0 => ("AB_12.3:c.", '0', "76_76del"),
        1 => ("AB_12.3:g.1delAins", 'T', ""),
        2 => ("AB_", '7', ":p.Met01?"),
        3 => ("AB_12.3:n.1+", '9', "del"),
        _ => ("AB_12.3:r.1ins", 'u', "?"),
    };
    let count = length - before.len() - behind.len();
    format!("{before}{}{behind}", filling.to_string().repeat(count))
}
