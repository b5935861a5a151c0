//! Records are read and written in the form of `calls.txt`, and a wrong one is told.

use compare::text::{Line, read_line, write_files, write_record};
use compare::vectors;
use model::planner::Model;

/// Two junctions and a road of (3,4), once with right labels and once without any bytes.
const RECORDS: &str = "\
net 54524e010000020001000000070000000000010003000400 | lab 544c42010000020001000000070000000100ffff01000300000004000000
check | 0
batch | 0 1 4 1 0 3 0 2 9 | 7 7 7 7 7 7 7 7 7 | 0 | 0 3 4 23 0 0 21 0 0
route | 0 1 4 | 90 91 92 | 0 3 4 2 | 0 1 92
route | 0 1 4 | 90 | 24 0 0 0 | 90
list | 1 0 | 90 91 | 80 | 0 1 | 3 91 | 4
list | 1 0 |  | 80 | 24 0 |  | 80
show | 0 1 | 20 30
show | 1 0 | 0 0
join | 5 4 | 1 2 |  |  | 90 | 80 | 0 0 | 90 | 80
ljoin | 5 4 | 1 2 | 0 | 0 | 1 | 0 5 1
net  | lab 
check | 1
batch |  |  | 1 | ";

#[test]
fn records_come_out_as_written() {
    let run = vectors::run(RECORDS, &mut Model::default());
    assert_eq!(run, Ok(12));
}

#[test]
fn reading_and_writing_undo_each_other() {
    for line in RECORDS.lines() {
        let again = match read_line(line) {
            Ok(Line::Files(files)) => write_files(&files),
            Ok(Line::Record(call, outcome)) => write_record(&call, &outcome),
            Err(wrong) => panic!("{line}: {wrong}"),
        };
        assert_eq!(again, line);
    }
}

#[test]
fn a_wrong_record_is_told_by_its_line() {
    let wrong = RECORDS.replace("show | 0 1 | 20 30", "show | 0 1 | 22 30");
    let difference = vectors::run(&wrong, &mut Model::default()).unwrap_err();
    assert!(difference.starts_with("line 8: show"), "{difference}");
}
