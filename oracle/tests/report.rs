//! The reports: document 01's own, what the stored ones have in them, and that the comparison finds others.

use oracle::generate::{examples, samples, Generator};
use oracle::report::check::reports;
use oracle::report::{report, stored};
use std::collections::{BTreeMap, BTreeSet};
use std::process::Command;

#[test]
fn the_report_of_case_v() {
    let lines = [
        "rdef\t1024\t0\t-",
        "buf\t24476c6f62616c73\t1\t16\t0\t0",
        "var\t6b\t0\t4\t2\t-",
        "type\t0\t0\t3\t1\t1\t0\t0\t-",
    ];
    assert_eq!(report(&examples::case_v()), lines.join("\n") + "\n");
    assert_eq!(report(&[0; 27]), "refused\t1\n");
}

/// What the program `replay` must print after the heading of the reports.
fn stored_output() -> &'static str {
    let printed = include_str!("../../crates/replay/stdout");
    &printed[stored::reports_at(printed).expect("the heading is there")..]
}

/// `bin/make-report-cases crates/replay` writes what is there.
#[test]
fn the_stored_files_are_made_of_these_chunks() {
    let chunks = stored::chunks();
    assert!(samples::all().iter().all(|sample| chunks.contains(&sample.bytes)));
    assert!(stored::input(&chunks) == include_bytes!("../../crates/replay/stdin"));
    assert!(stored::output(&chunks) == stored_output());
}

/// The stored reports, each as its lines and each line as its keyword and fields.
fn stored_reports() -> Vec<Vec<Vec<&'static str>>> {
    let lines = |report: &'static str| report.lines().map(|line| line.split('\t').collect()).collect();
    stored_output().split_terminator("\n\n").map(lines).collect()
}

/// Each kind of line in major 4 and in major 5 with each stride, each name and default empty and not, and each
/// refusal.
#[test]
fn every_kind_of_line_is_stored() {
    let mut seen: BTreeSet<(&str, &str, usize, bool)> = BTreeSet::new();
    let mut refused = BTreeSet::new();
    for report in stored_reports() {
        if report[0][0] == "refused" {
            refused.insert(report[0][1].parse::<u32>().expect("a number"));
            continue;
        }
        let layout = report.iter().find(|line| line[0] == "rd11").map_or("major 4", |line| line[2]);
        for line in &report {
            seen.extend((1..line.len()).map(|column| (layout, line[0], column, line[column] == "-")));
        }
    }
    assert_eq!(refused, (1..=15).collect());
    for layout in ["major 4", "32", "40"] {
        let type_name = if layout == "major 4" { 8 } else { 12 };
        let texts = [("rdef", 3), ("bind", 1), ("buf", 1), ("var", 1), ("var", 5), ("mem", 1), ("type", type_name)];
        for (keyword, column) in texts {
            assert!(seen.contains(&(layout, keyword, column, true)), "{layout} {keyword}");
            // Types of major 4 have no name.
            let is_there = (keyword, layout) != ("type", "major 4");
            assert_eq!(seen.contains(&(layout, keyword, column, false)), is_there, "{layout} {keyword}");
        }
    }
    assert!(seen.contains(&("32", "rd11", 1, false)) && seen.contains(&("40", "rd11", 1, false)));
}

/// Any two fields of a kind of line, in either major, differ in some stored line: if they changed places, or
/// one stood for the other, it would be seen. In major 4 space and id are both 0.
#[test]
fn any_two_fields_are_told_apart() {
    let mut lines: BTreeMap<(bool, &str), Vec<Vec<&str>>> = BTreeMap::new();
    for report in stored_reports().into_iter().filter(|report| report[0][0] == "rdef") {
        let major_5 = report.iter().any(|line| line[0] == "rd11");
        report.into_iter().for_each(|line| lines.entry((major_5, line[0])).or_default().push(line));
    }
    for ((major_5, keyword), lines) in lines {
        let columns = lines[0].len();
        assert!(lines.iter().all(|line| line.len() == columns));
        for (a, b) in (1..columns).flat_map(|a| (1..a).map(move |b| (a, b))) {
            let space_and_id = !major_5 && keyword == "bind" && (a, b) == (10, 9);
            assert_eq!(lines.iter().any(|line| line[a] != line[b]), !space_and_id, "{keyword}: fields {a} and {b}");
        }
    }
}

/// A program that prints this file whatever it reads.
fn printing(name: &str, text: &str, ending: &str) -> Command {
    let file = std::path::Path::new(env!("CARGO_TARGET_TMPDIR")).join(name);
    std::fs::write(&file, text).expect("the file can be written");
    let mut program = Command::new("sh");
    program.arg("-c").arg(format!("cat >/dev/null; cat \"$0\"; exit {ending}")).arg(file);
    program
}

#[test]
fn the_comparison_finds_what_is_wrong() {
    let generator = Generator::new(9);
    let right: String = (0..400).map(|number| report(&generator.chunk(number).1) + "\n").collect();
    let different = |name: &str, text: &str, ending: &str| {
        let printed = format!("reading\nno file\n{}{text}", stored::HEADING);
        let tally = reports(&mut printing(name, &printed, ending), &generator, 0..400);
        assert_eq!(tally.compared, 400);
        tally.different
    };
    assert_eq!(different("right", &right, "0"), 0);
    assert_eq!(different("failed", &right, "1"), 1);
    let edited = |edit: &dyn Fn(&str) -> Option<String>| right.lines().filter_map(edit).collect::<String>();
    let no_members = edited(&|line| (!line.starts_with("mem\t")).then(|| format!("{line}\n")));
    assert!(different("no_members", &no_members, "0") > 20);
    let swapped = edited(&|line| {
        let mut fields: Vec<&str> = line.split('\t').collect();
        if fields[0] == "var" {
            fields.swap(2, 3);
        }
        Some(fields.join("\t") + "\n")
    });
    assert!(different("swapped", &swapped, "0") > 20);
    // All but the last report, and one more.
    let (cut, _) = right[..right.len() - 2].rsplit_once("\n\n").expect("there are many");
    assert_eq!(different("cut", &format!("{cut}\n\n"), "0"), 1);
    assert_eq!(different("more", &format!("{right}rdef\n\n"), "0"), 1);
    // All of them, with no heading before them.
    assert_eq!(reports(&mut printing("no_heading", &right, "0"), &generator, 0..400).different, 400);
}
