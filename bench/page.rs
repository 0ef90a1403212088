//! The table and the plot: the part of DOCS/BENCHMARKS.md between the two markers, and DOCS/benchmarks.svg; a run through libcapi.a has a
//! part of its own, and no plot.
use crate::{Measured, median};
use std::fmt::Write as _;
use std::fs;

const CAPI: bool = cfg!(through_capi);
const BEGIN: &str = if CAPI { "<!-- bench/run, LIBRARY=capi: written by the program -->" } else { "<!-- bench/run: written by the program -->" };
const END: &str = if CAPI { "<!-- bench/run, LIBRARY=capi: end -->" } else { "<!-- bench/run: end -->" };
const PLOT: &str = if CAPI { "" } else { "![Our time by the original's](benchmarks.svg)\n\n" };

pub fn write(docs: &str, rounds: usize, all: &[Measured]) {
    let page = format!("{docs}/BENCHMARKS.md");
    let old = fs::read_to_string(&page).unwrap_or_else(|_| "# Benchmarks\n".into());
    let new = match (old.find(BEGIN), old.find(END)) {
        (Some(a), Some(e)) => format!("{}{}{}", &old[..a], section(rounds, all), &old[e + END.len()..]),
        _ => format!("{}\n{}\n", old.trim_end(), section(rounds, all)),
    };
    fs::write(&page, new).expect("BENCHMARKS.md is written");
    if !CAPI {
        fs::write(format!("{docs}/benchmarks.svg"), plot(all)).expect("benchmarks.svg is written");
    }
}

fn machine() -> String {
    let info = fs::read_to_string("/proc/cpuinfo").unwrap_or_default();
    info.lines().find(|l| l.starts_with("model name")).and_then(|l| l.split(": ").nth(1)).unwrap_or("an unnamed processor").to_string()
}

fn section(rounds: usize, all: &[Measured]) -> String {
    let mut s = format!("{BEGIN}\n\n{}, {rounds} rounds. Times are the thread's processor time, medians in microseconds; the ratio is the median of the rounds' ratios.\n\n", machine());
    s.push_str(PLOT);
    s.push_str("| workload | what is timed | ours | Rust | ratio |\n|---|---|---:|---:|---:|\n");
    for m in all {
        let _ = writeln!(s, "| `{}` | {} | {:.0} | {:.0} | {:.2} |", m.name, m.what, median(m.ours.clone()), median(m.original.clone()), m.ratio());
    }
    s + "\n" + END
}

fn plot(all: &[Measured]) -> String {
    let (left, row, unit) = (230.0, 20.0, 220.0);
    let most = all.iter().map(Measured::ratio).fold(1.5, f64::max);
    let (width, height) = (left + most * unit + 60.0, all.len() as f64 * row + 50.0);
    let mut s = format!("<svg xmlns=\"http://www.w3.org/2000/svg\" width=\"{width:.0}\" height=\"{height:.0}\" font-family=\"sans-serif\" font-size=\"12\">\n");
    let _ = writeln!(s, "<rect width=\"100%\" height=\"100%\" fill=\"white\"/>\n<text x=\"{left}\" y=\"18\">our time by the original's (left of the line: faster)</text>");
    for (i, m) in all.iter().enumerate() {
        let (y, r) = (30.0 + i as f64 * row, m.ratio());
        let colour = if r <= 1.0 { "#4a7ebb" } else { "#c0504d" };
        let _ = writeln!(s, "<text x=\"{:.0}\" y=\"{:.0}\" text-anchor=\"end\">{}</text>", left - 8.0, y + 12.0, m.name);
        let _ = writeln!(s, "<rect x=\"{left}\" y=\"{y:.0}\" width=\"{:.1}\" height=\"14\" fill=\"{colour}\"/>", r * unit);
        let _ = writeln!(s, "<text x=\"{:.1}\" y=\"{:.0}\">{r:.2}</text>", left + r * unit + 5.0, y + 12.0);
    }
    let one = left + unit;
    let _ = writeln!(s, "<line x1=\"{one}\" y1=\"24\" x2=\"{one}\" y2=\"{:.0}\" stroke=\"black\"/>\n</svg>", height - 12.0);
    s
}
