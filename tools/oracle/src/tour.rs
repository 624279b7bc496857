//! Counts what a run of generated jobs has reached.

use std::collections::BTreeMap;

use crate::answer::Outcome;
use crate::generate::CLASSES;
use crate::job::{Job, Kind};

#[derive(Default)]
pub struct Tour {
    pub jobs: u64,
    by_class: BTreeMap<usize, u64>,
    by_number: BTreeMap<u32, u64>,
    features: BTreeMap<String, u64>,
    bytes: u64,
}

impl Tour {
    fn seen(&mut self, feature: &str, times: u64) {
        if times > 0 {
            *self.features.entry(feature.to_string()).or_default() += times;
        }
    }

    pub fn job(&mut self, class: usize, text: &[u8], outcome: &Outcome) {
        self.jobs += 1;
        self.bytes += text.len() as u64;
        *self.by_class.entry(class).or_default() += 1;
        let number = outcome.as_ref().map_or_else(|refusal| refusal.number, |_| 0);
        *self.by_number.entry(number).or_default() += 1;
        let Ok(answer) = outcome else {
            return;
        };
        for mark in &answer.marks {
            self.seen(&format!("marks of kind {}", mark.kind), 1);
            self.seen(&mark.shape.map_or("marks without a shape".to_string(), |shape| format!("marks of shape {shape}")), 1);
            self.seen("marks of bars of 1 to 24,999 ppm", u64::from(mark.kind >= 3 && (1..25_000).contains(&mark.ppm)));
        }
        self.seen("bars", answer.bars.len() as u64);
        self.seen("bars of 0 ppm", answer.bars.iter().filter(|bar| bar.ppm == 0).count() as u64);
        self.seen("rules deferred", answer.deferred);
        self.seen("bar rules simplified", answer.simplified);
        self.seen("answers with exactly 1,024 marks", u64::from(answer.marks.len() == 1024));
        self.seen("answers without marks", u64::from(answer.marks.is_empty()));
    }

    /// What the rules of an answered job are.
    pub fn rules(&mut self, job: &Job) {
        for rule in &job.rules {
            let detail = match &rule.kind {
                Kind::CellIs { op, .. } | Kind::Expr { op, .. } => format!("rules {} {op}", rule.kind.word()),
                kind => format!("rules {}", kind.word()),
            };
            self.seen(&detail, 1);
        }
    }

    pub fn table(&self) -> String {
        let mut lines = vec![format!("{} jobs, {} bytes of text", self.jobs, self.bytes)];
        lines.push("| class | jobs |\n|---|---|".to_string());
        for (index, class) in CLASSES.iter().enumerate() {
            lines.push(format!("| {} | {} |", class.0, self.by_class.get(&index).copied().unwrap_or(0)));
        }
        lines.push("\n| number | reports |\n|---|---|".to_string());
        for (number, count) in &self.by_number {
            lines.push(format!("| {number} | {count} |"));
        }
        lines.push("\n| reached in answers | times |\n|---|---|".to_string());
        for (feature, count) in &self.features {
            lines.push(format!("| {feature} | {count} |"));
        }
        lines.join("\n") + "\n"
    }
}
