//! The tables of times. All of them are measured several times over, in the same order, and each figure is the best of its passes: a moment in
//! which the machine does something else then spoils no row.
use crate::measure::Figures;

/// A table's columns, or a row and its best times so far.
enum Line {
    Heading(String),
    RunHeading(String),
    Row(String, Figures),
}

#[derive(Default)]
pub struct Book {
    lines: Vec<Line>,
    /// How many lines this pass has come to.
    written: usize,
}

impl Book {
    /// A pass begins.
    pub fn begin(&mut self) {
        self.written = 0;
    }

    /// A table of calls begins, its first columns parted by bars.
    pub fn heading(&mut self, columns: &str) {
        self.once(Line::Heading(columns.to_string()));
    }

    /// A table of runs begins likewise.
    pub fn run_heading(&mut self, columns: &str) {
        self.once(Line::RunHeading(columns.to_string()));
    }

    /// A row, its first columns parted by bars.
    pub fn row(&mut self, columns: &str, figures: Figures) {
        match self.lines.get_mut(self.written) {
            Some(Line::Row(_, best)) => best.keep_least(&figures),
            _ => self.lines.push(Line::Row(columns.to_string(), figures)),
        }
        self.written += 1;
    }

    /// A line that is the same in every pass.
    fn once(&mut self, line: Line) {
        if self.written == self.lines.len() {
            self.lines.push(line);
        }
        self.written += 1;
    }

    /// With the earlier build's times where there is one.
    pub fn print(&self, has_earlier: bool) {
        let figures = if has_earlier {
            "now ns | before ns | twin ns | now/before | now/twin"
        } else {
            "now ns | twin ns | now/twin"
        };
        let of_runs =
            "twin, singly, ns | now/that | single call ns | run/single | ns an element | copy ns | of it an element";
        for line in &self.lines {
            match line {
                Line::Heading(columns) => print_heading(&format!("{columns} | {figures}")),
                Line::RunHeading(columns) => print_heading(&format!("{columns} | {figures} | {of_runs}")),
                Line::Row(columns, figures) => println!("| {columns} | {} |", figures.columns(has_earlier).join(" | ")),
            }
        }
    }
}

pub fn print_heading(columns: &str) {
    let bars = columns.split('|').map(|_| "---").collect::<Vec<_>>().join("|");
    println!("\n| {columns} |\n|{bars}|");
}

/// A figure, or a dash where there is none.
pub fn figure(number: f64, digits: usize) -> String {
    if number.is_finite() {
        return format!("{number:.digits$}");
    }
    "-".to_string()
}

/// How many times the second the first is, or a dash where one is missing.
fn ratio(first: f64, second: f64) -> String {
    figure(if second.is_finite() { first / second } else { second }, 2)
}

impl Figures {
    fn keep_least(&mut self, other: &Figures) {
        for (best, &time) in self.times.iter_mut().zip(&other.times) {
            *best = best.min(time);
        }
    }

    fn columns(&self, has_earlier: bool) -> Vec<String> {
        let (now, before, twin) = (self.times[0], self.times[1], self.times[2]);
        let mut columns = vec![figure(now, 0), figure(twin, 0), ratio(now, twin)];
        if has_earlier {
            columns.insert(1, figure(before, 0));
            columns.insert(3, ratio(now, before));
        }
        if let Some(elements) = self.elements {
            columns.extend(self.of_run(elements));
        }
        columns
    }

    /// What is told of a run besides: an element's time is that of all but the first, which is the single call's.
    fn of_run(&self, elements: usize) -> [String; 7] {
        let (now, singly, single, copy) = (self.times[0], self.times[3], self.times[4], self.times[5]);
        let element = if elements > 1 { (now - single) / (elements - 1) as f64 } else { f64::INFINITY };
        [
            figure(singly, 0),
            ratio(now, singly),
            figure(single, 0),
            ratio(now, single),
            figure(element, 2),
            figure(copy, 1),
            figure(copy / elements as f64, 2),
        ]
    }
}
