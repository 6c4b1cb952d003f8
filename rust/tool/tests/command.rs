//! The command as a person calls it: its files, its words and its status.

mod common;

use common::{Drawn, Folder};
use oracle::log::marks_to_log;
use oracle::mark::write_marks;
use oracle::sample::Generator;
use rollmap::{check, counts, judge, part, schedule_to_vec, take_out_to_vec, Code, Refusal};

/// Two marks that touch at zoom 5, and one on the first that it outlives no zoom with.
const TABLE: &str = "x,y,radius,priority,kind,tag\n0,0,10,9,150,1\n100,0,10,5,10,2\n0,3,5,1,0,3\n";

/// A folder with the table, and with its sheet.
fn folder(name: &str) -> Folder {
    let folder = Folder::new(name);
    folder.write("reel.csv", TABLE);
    folder.call("make reel.csv").ended(0);
    folder
}

/// A folder whose sheet is scheduled.
fn scheduled(name: &str) -> Folder {
    let folder = folder(name);
    folder.call("schedule reel.sheet").ended(0);
    folder
}

#[test]
fn a_table_becomes_a_sheet_and_comes_back() {
    let folder = folder("there-and-back");
    assert_eq!(check(&folder.read("reel.sheet")), Ok(()));
    assert_eq!(folder.call("list reel.sheet").ended(0).out, TABLE);
    folder.call("list reel.sheet --output again.csv").ended(0);
    assert_eq!(folder.read("again.csv"), TABLE.as_bytes());
    assert_eq!(folder.names(), ["again.csv", "reel.csv", "reel.sheet"]);
}

#[test]
fn random_sheets_come_back_from_their_tables_byte_for_byte() {
    let folder = Folder::new("random-tables");
    let mut generator = Generator::new(1);
    for n in [0, 1, 2, 17, 300] {
        let drawn = Drawn::new(&mut generator, n);
        folder.write("a.sheet", drawn.sheet());
        folder.call("list a.sheet --output a.csv").ended(0);
        let edition = drawn.edition.write()[0];
        let shape = drawn.shape.write()[0];
        let call = format!("make a.csv --edition {edition} --shape {shape} --output b.sheet");
        folder.call(&call).ended(0);
        let (one, other) = (folder.read("a.sheet"), folder.read("b.sheet"));
        for code in [Code::Marks, Code::Popups] {
            assert_eq!(part(&one, code), part(&other, code));
        }
        assert_eq!(part(&other, Code::Edition), Some(&[edition][..]));
        assert_eq!(part(&other, Code::Shape), Some(&[shape][..]));
    }
}

#[test]
fn a_wrong_line_is_named_and_nothing_is_written() {
    let folder = Folder::new("wrong-line");
    folder.write("reel.csv", TABLE.replace("100,0,10", "100,0,ten"));
    let called = folder.call("make reel.csv").ended(2);
    let words = "rollmap: reel.csv: line 3, column radius: a whole number from 0 to 16383 is \
                 wanted, and not ten\n";
    assert_eq!((called.out.as_str(), called.err.as_str()), ("", words));
    folder.write("reel.csv", TABLE.replace("10,5,10,2", "10,5,200,2"));
    let called = folder.call("make reel.csv").ended(2);
    assert!(called
        .err
        .contains("line 3, column kind: refused by question 5: "));
    assert_eq!(folder.names(), ["reel.csv"]);
}

#[test]
fn a_sheet_has_at_most_4096_marks_and_a_list_may_have_more() {
    let folder = Folder::new("too-many");
    let row = "0,0,1,1,0,0\n";
    let table = format!("x,y,radius,priority,kind,tag\n{}", row.repeat(4_096));
    folder.write("most.csv", &table);
    folder.write("more.csv", table + row);
    folder.call("make most.csv").ended(0);
    let called = folder.call("make more.csv").ended(2);
    assert!(called
        .err
        .contains("more.csv: line 4098: a sheet has at most 4096 marks"));
    let called = folder
        .call("hold more.csv most.sheet --unexplained")
        .ended(1);
    assert_eq!(called.last(), "unexplained: 1 row");
    folder.call("schedule most.sheet").ended(0);
    let full = folder.read("most.sheet");
    let called = folder
        .call("add most.sheet --x 0 --y 0 --priority 1 --kind 0")
        .ended(3);
    assert!(called
        .err
        .starts_with("rollmap: most.sheet: refused by question 18: "));
    assert_eq!(folder.read("most.sheet"), full);
}

#[test]
fn scheduling_replaces_the_sheet_by_the_scheduled_one() {
    let folder = folder("schedule");
    let given = folder.read("reel.sheet");
    let called = folder
        .call("schedule reel.sheet --output other.sheet")
        .ended(0);
    assert_eq!(called.out, "other.sheet: 3 marks scheduled: 2 go, 1 stay\n");
    assert_eq!(folder.read("reel.sheet"), given);
    folder.call("schedule reel.sheet").ended(0);
    assert_eq!(Ok(folder.read("reel.sheet")), schedule_to_vec(&given));
    assert_eq!(folder.read("reel.sheet"), folder.read("other.sheet"));
}

#[test]
fn a_refused_sheet_stays_as_it_is() {
    let folder = Folder::new("refused");
    folder.write("reel.sheet", [9, 0, 1]);
    let calls = [
        "schedule reel.sheet",
        "judge reel.sheet",
        "add reel.sheet --x 0 --y 0 --priority 1 --kind note",
        "take-out reel.sheet 0",
        "counts reel.sheet --output reel.sheet",
        "list reel.sheet",
        "list reel.sheet --removals",
        "log-out reel.sheet",
        "why reel.sheet 0",
    ];
    for call in calls {
        let called = folder.call(call).ended(3);
        let words = "rollmap: reel.sheet: refused by question 1: are there 2 bytes, 1 to 7 parts, and the whole contents?\n";
        assert_eq!(
            (called.out.as_str(), called.err.as_str()),
            ("", words),
            "{call}"
        );
    }
    assert_eq!(folder.read("reel.sheet"), [9, 0, 1]);
    assert_eq!(folder.names(), ["reel.sheet"]);
}

#[test]
fn the_judge_tells_ours_from_others_and_from_none() {
    let folder = folder("judge");
    let called = folder.call("judge reel.sheet").ended(3);
    assert!(called
        .err
        .starts_with("rollmap: reel.sheet: refused by question 10: "));
    folder.call("schedule reel.sheet").ended(0);
    let called = folder.call("judge reel.sheet").ended(0);
    assert_eq!(called.out, "reel.sheet: scheduled here, byte for byte\n");

    folder.write("foreign.sheet", foreign(&folder.read("reel.sheet")));
    let called = folder.call("judge foreign.sheet").ended(1);
    let words = "foreign.sheet: the schedule is not ours, refused by question 22: ";
    assert!(called.out.starts_with(words));
}

/// The same sheet with a schedule that another made: one mark, which goes first, stays.
fn foreign(scheduled: &[u8]) -> Vec<u8> {
    let mut schedule = part(scheduled, Code::Schedule).unwrap().to_vec();
    let goes = schedule.len() - 14;
    schedule[goes..].copy_from_slice(&[255, 255, 0, 0, 0, 0, 0, 0, 0, 0, 0, 0, 0, 0]);
    let marks = part(scheduled, Code::Marks).unwrap();
    // Which index fits is found by trying all six.
    let trees = ["012", "021", "102", "120", "201", "210"];
    let mut sheets = trees.into_iter().map(|tree| {
        let index: Vec<u8> = tree.bytes().flat_map(|it| [it - b'0', 0]).collect();
        let [schedule, index] = [&schedule[..], &index];
        let parts = [
            (Code::Marks, marks),
            (Code::Schedule, schedule),
            (Code::Index, index),
        ];
        rollmap::assemble_to_vec(&parts)
    });
    let sheet = sheets
        .find_map(Result::ok)
        .expect("one of them is the tree");
    assert_eq!(judge(&sheet), Err(Refusal::Judgement));
    sheet
}

#[test]
fn a_schedule_that_is_not_ours_is_held_only_afresh() {
    let folder = scheduled("foreign");
    let sheet = foreign(&folder.read("reel.sheet"));
    folder.write("foreign.sheet", &sheet);
    for call in [
        "hold reel.csv foreign.sheet",
        "why foreign.sheet 2",
        "list foreign.sheet --removals",
    ] {
        let called = folder.call(call).ended(3);
        assert!(called
            .err
            .starts_with("rollmap: foreign.sheet: refused by question 22: "));
    }
    folder.call("hold reel.csv foreign.sheet --afresh").ended(0);
    let called = folder.call("why foreign.sheet 2 --afresh").ended(0);
    assert!(called
        .out
        .contains("Mark 2 goes at about zoom 0.203125 (z² = 9/225)"));
    assert_eq!(folder.read("foreign.sheet"), sheet);

    // Without its index there is nothing for the judge, but the schedule is still not ours.
    let [marks, schedule] =
        [Code::Marks, Code::Schedule].map(|code| (code, part(&sheet, code).unwrap()));
    folder.write(
        "two.sheet",
        rollmap::assemble_to_vec(&[marks, schedule]).unwrap(),
    );
    let called = folder.call("hold reel.csv two.sheet").ended(3);
    assert!(called.err.contains("refused by question 22: "));
}

#[test]
fn a_sheet_is_held_scheduled_or_not() {
    let folder = folder("hold");
    let given = folder.read("reel.sheet");
    let called = folder.call("hold reel.csv reel.sheet --zoom 5").ended(0);
    let words = "held by x, y, radius, priority, kind and tag at zoom 5, all places, no turn\n line  \
                 mark  where it is\n    2     0  shown: break (kind 150) at 0, 0, radius 10, \
                 priority 9, tag 1\n    3     1  hidden since zoom 5 by mark 0, which lives: spot \
                 (kind 10) at 100, 0, radius 10, priority 5, tag 2\n    4     2  hidden since about \
                 zoom 0.203125 (z² = 9/225) by mark 0, which lives: note (kind 0) at 0, 3, radius 5, \
                 priority 1, tag 3\nthe list: 3 = 3 on the reel + 0 not on the reel\nthe reel: 3 = 3 \
                 in the list + 0 not in the list\nin both:  3 = 1 shown + 2 hidden + 0 not yet popped \
                 up + 0 outside the view\nnothing unexplained\n";
    assert_eq!(called.out, words);
    assert_eq!(folder.read("reel.sheet"), given);
    folder.call("schedule reel.sheet").ended(0);
    assert_eq!(
        folder
            .call("hold reel.csv reel.sheet --zoom 5")
            .ended(0)
            .out,
        words
    );
    let wheel = folder
        .call("hold reel.csv reel.sheet --zoom 320/64")
        .ended(0);
    assert_eq!(wheel.out, words);
}

#[test]
fn the_screen_is_a_view() {
    let folder = scheduled("screen");
    let numbers = |options: &str| {
        let called = folder
            .call(&format!("hold reel.csv reel.sheet {options}"))
            .ended(0);
        let line = called
            .out
            .lines()
            .find(|line| line.starts_with("in both:"))
            .unwrap();
        line.to_owned()
    };
    let told = |shown, outside| {
        format!("in both:  3 = {shown} shown + 0 hidden + 0 not yet popped up + {outside} outside the view")
    };
    assert_eq!(numbers("--stop 0"), told(3, 0));
    assert_eq!(numbers("--stop 0 --view 50,200,-5,5"), told(1, 2));
    assert_eq!(numbers("--stop 0 --view -5,5,50,200"), told(0, 3));
    assert_eq!(numbers("--stop 0 --view -5,5,50,200 --turn 1"), told(1, 2));
}

#[test]
fn a_view_that_is_not_taken_is_refused_by_its_question() {
    let folder = scheduled("views");
    let refused = [
        ("--view 5,1,0,0", 11),
        ("--zoom 0.3", 12),
        ("--stop 17", 12),
        ("--stop 300", 12),
        ("--view -40000,0,0,0", 20),
        ("--turn 4", 20),
    ];
    for (options, question) in refused {
        let called = folder
            .call(&format!("hold reel.csv reel.sheet {options}"))
            .ended(3);
        assert!(
            called
                .err
                .contains(&format!("refused by question {question}: ")),
            "{called:?}"
        );
    }
    folder.call("make reel.csv --shape square").ended(0);
    let called = folder.call("hold reel.csv reel.sheet --turn 1").ended(3);
    assert!(called.err.contains("refused by question 20: "));
}

#[test]
fn a_mark_that_was_moved_is_two_rows_that_its_tag_joins() {
    let folder = scheduled("moved");
    folder.write("list.csv", TABLE.replace("100,0,10,5", "101,0,10,6"));
    let called = folder
        .call("hold list.csv reel.sheet --unexplained")
        .ended(1);
    let rows: Vec<&str> = called.out.lines().skip(2).take(2).collect();
    let words = [
        "    3     -  in the list and not on the reel: spot (kind 10) at 101, 0, radius 10, \
         priority 6, tag 2; mark 1 of the reel has the same tag, with x 100 for 101 and priority 5 \
         for 6",
        "    -     1  on the reel and not in the list: spot (kind 10) at 100, 0, radius 10, \
         priority 5, tag 2; line 3 of the list has the same tag, with x 101 for 100 and priority 6 \
         for 5",
    ];
    assert_eq!(rows, words);
}

#[test]
fn a_mark_is_added_and_taken_out_again() {
    let folder = scheduled("change");
    let before = folder.read("reel.sheet");
    let called = folder
        .call("add reel.sheet --x 200 --y 0 --radius 10 --priority 5 --kind spot")
        .ended(0);
    let words = "reel.sheet: mark 3 added. Mark 3 goes at zoom 10, where it meets mark 0, which ranks higher.\n";
    assert_eq!(called.out, words);
    assert_eq!(judge(&folder.read("reel.sheet")), Ok(()));
    let called = folder.call("take-out reel.sheet 3").ended(0);
    assert_eq!(called.out, "reel.sheet: 1 mark taken out, 3 marks left\n");
    assert_eq!(folder.read("reel.sheet"), before);
}

#[test]
fn several_marks_are_taken_out_by_the_numbers_that_they_have() {
    let folder = scheduled("several");
    let before = folder.read("reel.sheet");
    folder
        .call("take-out reel.sheet 0 2 --output left.sheet")
        .ended(0);
    let left = take_out_to_vec(&take_out_to_vec(&before, 2).unwrap(), 0);
    assert_eq!(Ok(folder.read("left.sheet")), left);
    for (words, status) in [("", 2), ("0 0", 2), ("one", 2), ("-1", 2), ("0 3", 3)] {
        folder
            .call(&format!("take-out reel.sheet {words}"))
            .ended(status);
    }
    assert_eq!(folder.read("reel.sheet"), before);
}

#[test]
fn a_new_mark_is_refused_by_its_question() {
    let folder = scheduled("new-mark");
    let before = folder.read("reel.sheet");
    let mark = "add reel.sheet --x 0 --y 0 --priority 1";
    for (options, question) in [
        ("--kind 200", 5),
        ("--kind 0 --radius 16384", 6),
        ("--kind 0 --popup 1", 21),
    ] {
        let called = folder.call(&format!("{mark} {options}")).ended(3);
        assert!(called
            .err
            .contains(&format!("refused by question {question}: ")));
    }
    let called = folder.call(mark).ended(2);
    assert_eq!(
        called.err,
        "rollmap: --kind is missing (see rollmap help add)\n"
    );
    let called = folder
        .call("add reel.sheet --x far --y 0 --priority 1 --kind 0")
        .ended(2);
    assert!(called
        .err
        .starts_with("rollmap: --x: a whole number from -32768 to 32767 is wanted"));
    assert_eq!(folder.read("reel.sheet"), before);
}

#[test]
fn counts_are_printed_and_kept_where_it_is_asked_for() {
    let folder = scheduled("counts");
    let before = folder.read("reel.sheet");
    let called = folder.call("counts reel.sheet").ended(0);
    let lines: Vec<&str> = called.out.lines().collect();
    assert_eq!(lines.len(), 18);
    assert_eq!(
        lines[0],
        "stop      zoom  note  spot  streak  moisture patch  break    all"
    );
    assert_eq!(
        lines[1],
        "   0  0.015625     1     1       0               0      1      3"
    );
    assert_eq!(
        lines[17],
        "  16      1024     0     0       0               0      1      1"
    );
    assert_eq!(folder.read("reel.sheet"), before);
    assert_eq!(
        folder
            .call("counts reel.sheet --output reel.sheet")
            .ended(0)
            .out,
        called.out
    );
    assert!(counts(&folder.read("reel.sheet")).is_some());
}

#[test]
fn a_winders_log_comes_in_and_goes_out_byte_for_byte() {
    let folder = Folder::new("logs");
    let mut generator = Generator::new(2);
    let marks = write_marks(&Drawn::new(&mut generator, 40).marks);
    let log = marks_to_log(&marks, usize::MAX).unwrap();
    folder.write("winder.log", &log);
    let called = folder.call("log-in winder.log").ended(0);
    assert_eq!(called.out, "winder.sheet: 40 marks\n");
    assert_eq!(
        part(&folder.read("winder.sheet"), Code::Marks),
        Some(&marks[..])
    );
    folder
        .call("log-out winder.sheet --output again.log")
        .ended(0);
    assert_eq!(folder.read("again.log"), log);

    folder.call("log-in winder.log --edition 2").ended(0);
    let called = folder.call("log-out winder.sheet").ended(0);
    assert!(called
        .out
        .contains("a log has no place for the sheet's edition"));
    folder.write("winder.log", &log[1..]);
    let called = folder.call("log-in winder.log").ended(3);
    assert!(called
        .err
        .starts_with("rollmap: winder.log: refused by question 4: "));
}

#[test]
fn an_edition_and_a_shape_are_named_or_refused() {
    let folder = folder("choices");
    folder
        .call("make reel.csv --edition 2 --shape square")
        .ended(0);
    let sheet = folder.read("reel.sheet");
    assert_eq!(part(&sheet, Code::Edition), Some(&[2][..]));
    assert_eq!(part(&sheet, Code::Shape), Some(&[2][..]));
    for (options, question) in [("--edition 3", 19), ("--shape 0", 24)] {
        let called = folder.call(&format!("make reel.csv {options}")).ended(3);
        assert!(called
            .err
            .contains(&format!("refused by question {question}: ")));
    }
    folder.call("make reel.csv --shape round").ended(2);
    assert_eq!(folder.read("reel.sheet"), sheet);
}

#[test]
fn why_tells_the_whole_chain() {
    let folder = Folder::new("why");
    let table = "x,y,radius,priority,kind,tag,popup\n0,0,10,9,0,0,1280\n100,0,10,5,10,0,0\n200,0,10,1,50,0,0\n";
    folder.write("reel.csv", table);
    folder.call("make reel.csv").ended(0);
    let called = folder.call("why reel.sheet 2").ended(0);
    let words = "Mark 2 is a streak (kind 50) at 200, 0, radius 10, priority 1, tag 0.\n\
                 Mark 2 goes at zoom 5, where it meets mark 1, which ranks higher.\n\
                 Mark 1 is a spot (kind 10) at 100, 0, radius 10, priority 5, tag 0.\n\
                 Mark 1 goes at zoom 20, where it meets mark 0, which ranks higher.\n\
                 Mark 0 is a note (kind 0) at 0, 0, radius 10, priority 9, tag 0.\n\
                 Mark 0 pops up at zoom 20.\n\
                 Mark 0 is never removed.\n";
    assert_eq!(called.out, words);
    let called = folder.call("hold reel.csv reel.sheet --zoom 20").ended(0);
    let row = called
        .out
        .lines()
        .find(|line| line.starts_with("    4 "))
        .unwrap();
    assert!(
        row.contains("hidden since zoom 5 by mark 1, through it to mark 0, which lives there now")
    );
    let called = folder.call("hold reel.csv reel.sheet --zoom 19").ended(0);
    let row = called
        .out
        .lines()
        .find(|line| line.starts_with("    2 "))
        .unwrap();
    assert!(row.contains("not yet popped up, there from zoom 20 on"));
    folder.call("why reel.sheet 3").ended(2);
    folder.call("why reel.sheet three").ended(2);
}

#[test]
fn files_that_cannot_be_read_or_written_are_named() {
    let folder = scheduled("files");
    for call in [
        "make nowhere.csv",
        "schedule nowhere.sheet",
        "hold reel.csv nowhere.sheet",
    ] {
        let called = folder.call(call).ended(2);
        assert!(called.err.starts_with("rollmap: nowhere."), "{called:?}");
    }
    folder
        .call("make reel.csv --output nowhere/reel.sheet")
        .ended(2);
    folder.call("make reel.csv --output .").ended(2);
    assert_eq!(folder.names(), ["reel.csv", "reel.sheet"]);
}

#[test]
fn a_file_is_not_taken_for_what_is_made_from_it() {
    let folder = Folder::new("endings");
    folder.write("table.sheet", TABLE);
    let called = folder.call("make table.sheet").ended(2);
    assert!(called
        .err
        .contains("table.sheet: the ending is .sheet already"));
    assert_eq!(folder.read("table.sheet"), TABLE.as_bytes());
    folder.call("make table.sheet --output reel.log").ended(0);
    folder.call("log-out reel.log").ended(2);
    assert_eq!(check(&folder.read("reel.log")), Ok(()));
}

#[test]
fn standard_input_and_output_stand_for_files() {
    use std::process::{Command, Stdio};
    let folder = scheduled("standard");
    let run = |words: &[&str], name: &str| {
        let file = std::fs::File::open(folder.path().join(name)).unwrap();
        let mut command = Command::new(env!("CARGO_BIN_EXE_rollmap"));
        command
            .args(words)
            .current_dir(folder.path())
            .stdin(Stdio::from(file));
        command.output().unwrap()
    };
    let made = run(&["make", "-"], "reel.csv");
    assert_eq!(Ok(folder.read("reel.sheet")), schedule_to_vec(&made.stdout));
    let listed = run(&["list", "-"], "reel.sheet");
    assert_eq!(listed.stdout, TABLE.as_bytes());
    let held = run(&["hold", "-", "reel.sheet"], "reel.csv");
    assert!(held.status.success());
    let wrong = run(&["judge", "-"], "reel.csv");
    assert!(String::from_utf8(wrong.stderr)
        .unwrap()
        .starts_with("rollmap: standard input: refused"));
}

#[test]
fn nobody_who_reads_the_answer_is_no_message() {
    use std::process::{Command, Stdio};
    let folder = scheduled("pipe");
    let mut command = Command::new(env!("CARGO_BIN_EXE_rollmap"));
    command
        .args(["list", "reel.sheet"])
        .current_dir(folder.path());
    let mut child = command
        .stdout(Stdio::piped())
        .stderr(Stdio::piped())
        .spawn()
        .unwrap();
    drop(child.stdout.take());
    let output = child.wait_with_output().unwrap();
    assert!(output.stderr.is_empty());
}
