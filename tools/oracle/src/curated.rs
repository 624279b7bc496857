//! The jobs chosen by hand (curated.txt): a line `= NAME` or `= NAME: VALUES`, then the job's lines. VALUES is the second line of the
//! report as it is printed in the papers or follows from them.

use crate::report::report;

pub struct Curated {
    pub name: String,
    pub values: Option<String>,
    pub text: Vec<u8>,
}

/// Names have colons of their own (`3: cell row`), so the values are what follows the last one, if these are seven numbers.
fn titled(title: &str) -> (String, Option<String>) {
    if let Some((name, values)) = title.rsplit_once(": ") {
        let seven = values.split(' ').filter(|word| word.parse::<u64>().is_ok()).count() == 7;
        if seven && values.split(' ').count() == 7 {
            return (name.to_string(), Some(values.to_string()));
        }
    }
    (title.to_string(), None)
}

pub fn parse(source: &str) -> Result<Vec<Curated>, String> {
    let mut list: Vec<Curated> = Vec::new();
    for (index, line) in source.split_inclusive('\n').enumerate() {
        if let Some(title) = line.strip_prefix("= ") {
            let (name, values) = titled(title.trim_end());
            list.push(Curated { name, values, text: Vec::new() });
        } else {
            let last = list.last_mut().ok_or(format!("line {} of the curated jobs stands ahead of any name", index + 1))?;
            last.text.extend_from_slice(line.as_bytes());
        }
    }
    Ok(list)
}

/// The jobs whose report has other values than these.
pub fn contradicted(list: &[Curated]) -> Vec<String> {
    let mut wrong = Vec::new();
    for job in list {
        let report = String::from_utf8_lossy(&report(&job.text)).into_owned();
        let values = report.lines().nth(1).unwrap_or("").to_string();
        if job.values.as_ref().is_some_and(|expected| *expected != values) {
            wrong.push(format!("{}: expected {}, the oracle has {values}", job.name, job.values.clone().unwrap_or_default()));
        }
    }
    wrong
}

#[cfg(test)]
mod tests {
    use super::{contradicted, parse};
    use crate::report::report;

    fn curated() -> Vec<super::Curated> {
        parse(include_str!("../curated.txt")).unwrap()
    }

    #[test]
    fn the_oracle_gives_what_the_papers_print() {
        let list = curated();
        assert!(list.iter().filter(|job| job.values.is_some()).count() > 150);
        assert_eq!(contradicted(&list), Vec::<String>::new());
    }

    /// The worked job of document 01, whole.
    #[test]
    fn worked_report() {
        let list = curated();
        let expected = "number place count actual marks deferred simplified\n0 0 11 0 3 0 1\nregion rule kind colour ppm cells shape\n\
            2 1 1 ff0000 - - -\n0 0 3 00ff00 0 0 0\n1 0 3 00ff00 500000 20 0\nregion barrule ppm\n0 0 0\n1 0 500000\n";
        for limit in ["100", "11"] {
            let job = list.iter().find(|job| job.name == format!("worked job at limit {limit}")).unwrap();
            assert_eq!(String::from_utf8(report(&job.text)).unwrap(), expected);
        }
    }

    fn body(name: &str) -> Vec<String> {
        let list = curated();
        let job = list.iter().find(|job| job.name == name).unwrap_or_else(|| panic!("{name}"));
        String::from_utf8(report(&job.text)).unwrap().lines().skip(3).map(str::to_string).collect()
    }

    /// Marks that the papers print in words.
    #[test]
    fn printed_marks() {
        let bars = "region barrule ppm";
        assert_eq!(body("T6, P10: midpoint of n0000000000000001 twice"), ["0 0 1 0000ff - - 3", "1 0 1 0000ff - - 3", bars]);
        assert_eq!(body("T6, P10: midpoint of n0000000000000003 twice"), ["0 0 1 ff0000 - - 0", "1 0 1 ff0000 - - 0", bars]);
        assert_eq!(body("T6, P10: midpoint of n8000000000000003 twice"), ["0 0 1 0000ff - - 3", "1 0 1 0000ff - - 3", bars]);
        assert_eq!(body("differences 1.8: imported scale"), ["0 0 2 - - - 1", bars]);
        assert_eq!(body("differences 1.6: scale2 of one value"), ["0 0 1 0000ff - - 1", bars]);
        assert_eq!(body("differences 1.5: 41 of 640")[1], "1 0 3 00ff00 64062 2 0");
        assert_eq!(body("differences 1.4: largest span"), ["0 0 3 00ff00 0 0 2", "1 0 3 00ff00 0 0 2", bars, "0 0 0", "1 0 0"]);
        let kinds = ["0 0 1 000000 - - -", "0 1 2 - - - -", "0 2 3 00ff00 1000000 40 1", "0 3 4 0000ff 1000000 40 1", bars, "0 2 1000000"];
        assert_eq!(body("T5: kinds 1 to 4, black"), kinds);
        assert_eq!(body("T11: 0 goes ahead of 1")[3..], ["0 1 1000000"]);
    }

    /// The last fields of the marks, in the order of the report.
    fn shapes(name: &str) -> String {
        let marks = body(name).into_iter().take_while(|line| line != "region barrule ppm");
        marks.map(|line| line.rsplit(' ').next().unwrap().to_string()).collect::<Vec<_>>().join(" ")
    }

    #[test]
    fn printed_shapes() {
        assert_eq!(shapes("shape: P2, a flat bar"), "1 1");
        assert_eq!(shapes("shape: a bar over -0 and 0 is flat"), "1 1");
        assert_eq!(shapes("shape: a flat bar among what is no number or out of range"), "1 1");
        assert_eq!(shapes("shape: a bar that is too wide"), "2 2 2");
        assert_eq!(shapes("shape: bars too wide, and plain, by one bit"), "2 2 0 0");
        assert_eq!(shapes("shape: scale2, flat and too wide"), "1 1 2 2");
        assert_eq!(shapes("shape: scale3 over 1, 1, 2"), "1 1 3");
        assert_eq!(shapes("shape: scale3 over -F, -F, F"), "1 1 5");
        assert_eq!(shapes("shape: scale3, one half too wide, the other plain"), "2 2 3 0 0 5");
        assert_eq!(shapes("shape: scale3, a span too wide, both halves plain"), "0 3");
        assert_eq!(shapes("shape: marks of kind 2 by scale2, scale3 and cellis"), "0 0 0 1 1 3 - -");
        assert_eq!(shapes("shape: an imported bar that is too wide"), "2 2");
    }
}
