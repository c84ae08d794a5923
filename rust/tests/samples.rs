//! The samples are answered as samples/README.md says.

use kusillaqe::{Answer, Entries, Report, test};

/// The numbers that `circ` uses.
const LIMIT: u32 = 1_000_000;
const ROOM: usize = 1024;

#[test]
fn as_the_readme_says() {
    let readme = std::fs::read_to_string("../samples/README.md").expect("the samples have a README");
    let rows: Vec<Vec<&str>> = readme.lines().filter(|line| line.starts_with("| `")).map(cells).collect();
    assert!(!rows.is_empty());
    for row in rows {
        let [file, bytes, answer, counts @ .., circle] = &row[..] else {
            panic!("{row:?} has too few cells")
        };
        let table = sample(file.trim_matches('`'));
        let mut entries = Entries::new(ROOM);
        let report = test(&table, LIMIT, &mut entries).expect("no sample is refused");
        let told = [report.closures, report.entries().len() as u32, report.passes.into()];
        assert_eq!(table.len(), number(bytes) as usize, "{file}");
        assert_eq!(word(report.answer), *answer, "{file}");
        assert_eq!(
            told.to_vec(),
            counts.iter().map(|count| number(count)).collect::<Vec<_>>(),
            "{file}"
        );
        if *file != "`ring.table`" {
            assert_eq!(links(&report).join(" "), *circle, "{file}");
        }
    }
}

/// Its links are told below the table.
#[test]
fn the_ring() {
    let table = sample("ring.table");
    let mut entries = Entries::new(ROOM);
    let links = links(&test(&table, LIMIT, &mut entries).expect("no sample is refused"));
    assert_eq!(links.len(), 64);
    assert_eq!(links[..6].join(" "), "0 edge 1 edge 56 pair 60 edge 48 pair 52 edge");
    assert_eq!(links[62..].join(" "), "11 pair 15 edge");
    assert_eq!(links.iter().filter(|link| link.ends_with("pair")).count(), 28);
}

fn sample(file: &str) -> Vec<u8> {
    std::fs::read(format!("../samples/{file}")).expect("the sample is there")
}

fn links(report: &Report) -> Vec<String> {
    report.circle().map(|link| link.to_string()).collect()
}

fn cells(line: &str) -> Vec<&str> {
    line.trim_matches('|').split('|').map(str::trim).collect()
}

fn number(cell: &str) -> u32 {
    cell.replace(',', "").parse().expect("a number")
}

fn word(answer: Answer) -> &'static str {
    match answer {
        Answer::Noncircular => "noncircular",
        Answer::Circular(_) => "circular",
        Answer::OutOfSteps => "out-of-steps",
        Answer::OutOfRoom => "out-of-room",
    }
}
