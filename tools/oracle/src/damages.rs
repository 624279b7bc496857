//! The list of damages: each replaces one text of the original, which must occur in it exactly once.
//!
//! An entry is a line `damage NAME`, the lines of the old text, a line `----`, the lines of the new text and a line `end`.
//! Outside entries, empty lines and lines that start with `#` are passed over.

pub struct Damage {
    pub name: String,
    pub old: String,
    pub new: String,
}

pub fn parse(list: &str) -> Result<Vec<Damage>, String> {
    let mut damages: Vec<Damage> = Vec::new();
    let mut lines = list.lines();
    while let Some(line) = lines.next() {
        if line.is_empty() || line.starts_with('#') {
            continue;
        }
        let name = line.strip_prefix("damage ").ok_or(format!("damages.txt: no entry starts with {line:?}"))?;
        let old = part(&mut lines, "----", name)?;
        let new = part(&mut lines, "end", name)?;
        if damages.iter().any(|other| other.name == name) {
            return Err(format!("damages.txt: {name} stands there twice"));
        }
        damages.push(Damage { name: name.to_string(), old, new });
    }
    Ok(damages)
}

/// The lines up to the closing one, joined.
fn part<'a>(lines: &mut impl Iterator<Item = &'a str>, closing: &str, name: &str) -> Result<String, String> {
    let mut taken = Vec::new();
    for line in lines {
        if line == closing {
            return Ok(taken.join("\n"));
        }
        taken.push(line);
    }
    Err(format!("damages.txt: {name} has no line {closing}"))
}

pub fn apply(original: &str, damage: &Damage) -> Result<String, String> {
    let found = original.matches(damage.old.as_str()).count();
    if found != 1 {
        return Err(format!("damages.txt: the old text of {} occurs {found} times, not once", damage.name));
    }
    Ok(original.replacen(damage.old.as_str(), &damage.new, 1))
}
