//! The program `schedule`, run as it was built, compared with the oracle.

mod common;

use std::fs::{self, File};
use std::io::{ErrorKind, Write};
use std::os::fd::OwnedFd;
use std::os::unix::net::UnixStream;
use std::path::Path;
use std::process::{Command, Output, Stdio};
use std::thread;

use common::{
    foreign_records, one_part, rivals, scheduled, scheduled_with, some_sheet, three_parts,
    with_named, with_part, with_part_4, with_part_7, with_popups, Beyond, NAMED, PROGRAM, SHAPED,
};
use oracle::mark::{write_marks, Mark};
use oracle::rank::Edition::{First, Second};
use oracle::record::{write_records, Record};
use oracle::report::{LONGEST_INPUT, MOST_PRINTED};
use oracle::sample::{marks, popups, Generator, Layout, Popups, DIAGONAL, P1};
use oracle::sheet::join;

/// The sheet that `rt` runs the program on, and the text that it must write.
const KEPT_RUN: &str = concat!(env!("CARGO_MANIFEST_DIR"), "/../../crates/schedule");

/// The script that tells by its status how the program went.
const SCRIPT: &str = concat!(env!("CARGO_MANIFEST_DIR"), "/../../print-schedule");

/// What the program says of a read that failed, and of a write.
const UNREAD: &str = "schedule: standard input cannot be read; nothing is printed\n";
const UNWRITTEN: &str =
    "schedule: standard output cannot be written; what is printed is not whole\n";

/// What the program writes on an input that comes in pieces of at most so many
/// bytes.
fn run_in_pieces(input: &[u8], piece: usize) -> String {
    let mut program = Command::new(PROGRAM)
        .stdin(Stdio::piped())
        .stdout(Stdio::piped())
        .stderr(Stdio::piped())
        .spawn()
        .expect("the program is built: run `./build`");
    let mut stdin = program.stdin.take().unwrap();
    let output = thread::scope(|scope| {
        scope.spawn(move || {
            for bytes in input.chunks(piece) {
                // The program stops reading an input that is too long.
                match stdin.write_all(bytes) {
                    Err(error) if error.kind() == ErrorKind::BrokenPipe => return,
                    written => written.unwrap(),
                }
            }
        });
        program.wait_with_output().unwrap()
    });
    assert!(output.status.success());
    assert!(output.stderr.is_empty());
    String::from_utf8(output.stdout).unwrap()
}

/// What the program writes on an input, once it is seen to be the oracle's text.
fn run(input: &[u8]) -> String {
    let text = run_in_pieces(input, usize::MAX);
    assert_eq!(text, oracle::report::print(input), "{input:02x?}");
    text
}

/// The sheet of these marks with one more that is refused for its kind.
fn with_unknown_kind(mut marks: Vec<Mark>) -> Vec<u8> {
    marks.push(Mark {
        kind: 200,
        ..Mark::plain(0, 0, 1, 0)
    });
    one_part(&marks)
}

#[test]
fn the_kept_run_is_p1() {
    let text = "marks 4\n0 -\n1 0 10000 400 320\n2 0 40000 400 640\n3 0 9 225 13\n";
    assert_eq!(run(&one_part(&P1)), text);
    assert_eq!(
        fs::read(format!("{KEPT_RUN}/stdin")).unwrap(),
        one_part(&P1)
    );
    assert_eq!(
        fs::read_to_string(format!("{KEPT_RUN}/stdout")).unwrap(),
        text
    );
}

#[test]
fn a_sheet_without_marks() {
    assert_eq!(run(&one_part(&[])), "marks 0\n");
    assert_eq!(run(&scheduled(&[])), "marks 0\n");
}

#[test]
fn the_largest_and_the_smallest_zoom() {
    let ends = [
        Mark::plain(-32_768, -32_768, 1, 0),
        Mark::plain(32_767, 32_767, 1, 0),
        Mark::plain(-32_768, -32_768, 1, 0),
    ];
    let text = "marks 3\n0 -\n1 0 8589672450 4 2965776\n2 0 0 4 0\n";
    assert_eq!(run(&one_part(&ends)), text);
}

#[test]
fn halves_go_to_the_even_number() {
    // Two marks so far apart touch at d²/128², where 64 times the zoom is d/2.
    for d in 0..400 {
        let pair = [Mark::plain(0, 0, 64, 1), Mark::plain(d, 0, 64, 0)];
        let d = u32::from(d.unsigned_abs());
        let zoom = d / 2 + u32::from(d % 4 == 3);
        let text = format!("marks 2\n0 -\n1 0 {} 16384 {zoom}\n", d * d);
        assert_eq!(run(&one_part(&pair)), text);
    }
}

#[test]
fn refusals() {
    assert_eq!(run(&[]), "refused 1\n");
    assert_eq!(run(&one_part(&P1)[..13]), "refused 3\n");
    assert_eq!(run(&with_unknown_kind(P1.to_vec())), "refused 5\n");
    let mut sheet = scheduled(&P1);
    *sheet.last_mut().unwrap() = 1;
    assert_eq!(run(&sheet), "refused 9\n");
}

#[test]
fn a_long_input_gets_14_before_all_else() {
    assert_eq!(run(&vec![0; LONGEST_INPUT]), "refused 1\n");
    assert_eq!(run(&vec![0; LONGEST_INPUT + 1]), "refused 14\n");
    assert_eq!(run(&vec![0; 4 * LONGEST_INPUT]), "refused 14\n");
}

#[test]
fn many_marks_get_14_after_all_else() {
    let many = |n| marks(Layout::Extreme, n, 3);
    assert!(run(&one_part(&many(MOST_PRINTED))).starts_with("marks 2000\n"));
    assert_eq!(run(&one_part(&many(MOST_PRINTED + 1))), "refused 14\n");
    assert_eq!(run(&with_unknown_kind(many(MOST_PRINTED))), "refused 5\n");
    assert_eq!(run(&one_part(&many(4_097))), "refused 4\n");
}

#[test]
fn sheets_of_every_layout() {
    for layout in Layout::ALL {
        for n in [1, 2, 3, 10, 100, 600] {
            run(&one_part(&marks(layout, n, n as u64)));
        }
    }
}

#[test]
fn sheets_with_and_without_faults() {
    let mut generator = Generator::new(14);
    for _ in 0..400 {
        run(&some_sheet(&mut generator));
    }
}

#[test]
fn the_schedule_is_worked_out_afresh() {
    let mut generator = Generator::new(15);
    for layout in Layout::ALL {
        let marks = marks(layout, 40, 2);
        let records = foreign_records(&mut generator, First.reel(&marks));
        let text = run(&three_parts(&marks, &records));
        assert_eq!(text, run(&one_part(&marks)));
    }
}

#[test]
fn a_sheet_is_printed_by_its_own_edition() {
    let larger_second = [Mark::plain(0, 0, 10, 5), Mark::plain(90, 0, 20, 5)];
    let sheet = one_part(&larger_second);
    let first = "marks 2\n0 -\n1 0 8100 900 192\n";
    assert_eq!(run(&sheet), first);
    assert_eq!(run(&with_named(sheet.clone(), Some(First))), first);
    let second = "marks 2\n0 1 8100 900 192\n1 -\n";
    assert_eq!(run(&with_named(sheet, Some(Second))), second);
    let mut generator = Generator::new(16);
    for named in NAMED {
        for n in [0, 1, 2, 9, 200, MOST_PRINTED] {
            let marks = rivals(&mut generator, n);
            let text = run(&with_named(one_part(&marks), named));
            assert_eq!(text, run(&scheduled_with(named, &marks)));
        }
    }
}

#[test]
fn a_sheet_of_another_edition_is_refused() {
    for sheet in [one_part(&P1), scheduled(&P1), one_part(&[])] {
        for part_4 in [&[][..], &[0], &[3], &[255], &[1, 1]] {
            assert_eq!(run(&with_part_4(&sheet, part_4)), "refused 19\n");
        }
    }
    let many = one_part(&marks(Layout::Grid, MOST_PRINTED + 1, 1));
    assert_eq!(run(&with_part_4(&many, &[0])), "refused 19\n");
    assert_eq!(run(&with_part_4(&many, &[2])), "refused 14\n");
}

#[test]
fn a_sheet_is_printed_by_its_own_popups() {
    let sheet = with_popups(&one_part(&P1), &[640, 0, 0, 0]);
    let text = "marks 4\n0 -\n1 0 409600 4096 640\n2 1 10000 400 320\n3 1 10009 225 427\n";
    assert_eq!(run(&sheet), text);
    let last = with_popups(&one_part(&P1[..2]), &[65_536, 0]);
    assert_eq!(run(&last), "marks 2\n0 -\n1 0 4294967296 4096 65536\n");
    let zeros = with_popups(&one_part(&P1), &[0; 4]);
    assert_eq!(run(&zeros), run(&one_part(&P1)));
    let mut generator = Generator::new(17);
    for how in Popups::ALL {
        for n in [0, 1, 2, 9, 200, MOST_PRINTED] {
            let marks = rivals(&mut generator, n);
            let popups = Some(popups(how, &marks, 1));
            let beyond = Beyond::uncounted(generator.choose(&NAMED), popups);
            let text = run(&beyond.bare(&marks));
            assert_eq!(text, run(&beyond.scheduled(&marks)));
        }
    }
}

#[test]
fn a_sheet_with_a_damaged_part_5_is_refused() {
    for sheet in [one_part(&P1), scheduled(&P1)] {
        for part_5 in [&[][..], &[0; 15], &[0; 17], &[1; 16]] {
            assert_eq!(run(&with_part(&sheet, 5, part_5)), "refused 21\n");
        }
    }
    let many = one_part(&marks(Layout::Grid, MOST_PRINTED + 1, 1));
    assert_eq!(run(&with_part(&many, 5, &[])), "refused 21\n");
    let popups = [9; MOST_PRINTED + 1];
    assert_eq!(run(&with_popups(&many, &popups)), "refused 14\n");
    assert_eq!(
        run(&with_part_4(&with_part(&many, 5, &[]), &[0])),
        "refused 19\n"
    );
}

#[test]
fn nothing_is_printed_of_the_counts() {
    let mut generator = Generator::new(18);
    for n in [0, 1, 2, 9, 200, MOST_PRINTED] {
        let marks = rivals(&mut generator, n);
        let beyond = Beyond::draw(&mut generator, &marks);
        let plain = Beyond {
            counted: false,
            ..beyond.clone()
        };
        let text = run(&plain.scheduled(&marks));
        let counted = beyond.counted();
        assert_eq!(run(&counted.scheduled(&marks)), text);
        // With a schedule that is not ours, and its counts, too.
        assert_eq!(run(&counted.bare(&marks)), text);
    }
    // All seven parts of the most marks that are printed.
    let marks = marks(Layout::Uniform, MOST_PRINTED, 8);
    let popups = Some(vec![9; MOST_PRINTED]);
    let all = Beyond::uncounted(NAMED[2], popups).counted();
    let sheet = all.with_shape(SHAPED[2]).scheduled(&marks);
    assert_eq!(sheet.len(), 62_244);
    assert!(run(&sheet).starts_with("marks 2000\n"));
}

#[test]
fn a_sheet_with_a_damaged_part_6_is_refused() {
    let two_parts = |marks: &[Mark]| {
        let never = vec![Record::NEVER; marks.len()];
        join(&[&write_marks(marks), &write_records(&never)])
    };
    for sheet in [two_parts(&P1), scheduled(&P1), scheduled(&[])] {
        for part_6 in [&[][..], &[0; 168], &[0; 169], &[1; 170], &[0; 171]] {
            assert_eq!(run(&with_part(&sheet, 6, part_6)), "refused 23\n");
        }
    }
    // Questions 8 and 9 come before it.
    for (mut sheet, refused) in [
        (two_parts(&P1), "refused 8\n"),
        (scheduled(&P1), "refused 9\n"),
    ] {
        *sheet.last_mut().unwrap() ^= 1;
        assert_eq!(run(&with_part(&sheet, 6, &[])), refused);
    }
    assert_eq!(run(&with_part(&one_part(&P1), 6, &[0; 170])), "refused 2\n");
    // Too many marks come after all else.
    let many = marks(Layout::Grid, MOST_PRINTED + 1, 1);
    let sheet = two_parts(&many);
    assert_eq!(run(&with_part(&sheet, 6, &[0; 170])), "refused 23\n");
    let counted = Beyond::default().counted().bare(&many);
    assert_eq!(run(&counted), "refused 14\n");
}

#[test]
fn a_sheet_is_printed_by_its_own_shape() {
    let sheet = one_part(&DIAGONAL);
    let disks = "marks 3\n0 -\n1 0 7200 400 272\n2 1 4225 400 208\n";
    assert_eq!(run(&sheet), disks);
    assert_eq!(run(&with_part_7(&sheet, &[1])), disks);
    let squares = "marks 3\n0 -\n1 0 3600 400 192\n2 0 15625 400 400\n";
    assert_eq!(run(&with_part_7(&sheet, &[2])), squares);
    let mut generator = Generator::new(19);
    for shaped in SHAPED {
        for n in [0, 1, 2, 9, 200, MOST_PRINTED] {
            let marks = rivals(&mut generator, n);
            let beyond = Beyond::draw(&mut generator, &marks).with_shape(shaped);
            let text = run(&beyond.bare(&marks));
            assert_eq!(text, run(&beyond.scheduled(&marks)));
        }
    }
}

#[test]
fn a_sheet_with_a_damaged_part_7_is_refused() {
    for sheet in [one_part(&P1), scheduled(&P1), one_part(&[])] {
        for part_7 in [&[][..], &[0], &[3], &[255], &[1, 1]] {
            assert_eq!(run(&with_part_7(&sheet, part_7)), "refused 24\n");
        }
    }
    // Question 21 comes before it, and 8 and 14 after it.
    let late = with_part(&one_part(&P1), 5, &[]);
    assert_eq!(run(&with_part_7(&late, &[0])), "refused 21\n");
    let unfit = join(&[&write_marks(&P1), &[0; 56]]);
    assert_eq!(run(&with_part_7(&unfit, &[0])), "refused 24\n");
    assert_eq!(run(&with_part_7(&unfit, &[2])), "refused 8\n");
    let many = one_part(&marks(Layout::Grid, MOST_PRINTED + 1, 1));
    assert_eq!(run(&with_part_7(&many, &[0])), "refused 24\n");
    assert_eq!(run(&with_part_7(&many, &[2])), "refused 14\n");
}

#[test]
fn an_input_that_comes_in_pieces() {
    let sheet = one_part(&marks(Layout::Clustered, 1_500, 4));
    let text = run(&sheet);
    for piece in [1, 11, 4_095, 4_096, 4_097] {
        assert_eq!(run_in_pieces(&sheet, piece), text);
    }
}

// ---- what fails

/// Runs a command of the shell in which `$0` is the program, and `$1` the sheet of the
/// kept run.
fn run_by_shell(command: &str) -> Output {
    let kept = format!("{KEPT_RUN}/stdin");
    let output = Command::new("sh")
        .args(["-c", command, PROGRAM, &kept])
        .output();
    output.expect("there is a shell")
}

/// Asserts that a run printed this, said that on standard error, and ended with 0.
fn assert_ended(output: &Output, printed: &str, said: &str) {
    assert_eq!(String::from_utf8_lossy(&output.stdout), printed);
    assert_eq!(String::from_utf8_lossy(&output.stderr), said);
    assert!(output.status.success());
}

#[test]
fn a_read_that_fails_is_told_and_nothing_is_printed() {
    assert_ended(&run_by_shell("exec \"$0\" <&-"), "", UNREAD);
    assert_ended(&run_by_shell("exec \"$0\" </"), "", UNREAD);
}

#[test]
fn an_input_that_would_block_is_not_taken_for_a_short_one() {
    let (mut writer, reader) = UnixStream::pair().unwrap();
    reader.set_nonblocking(true).unwrap();
    // The sheet is there whole, but its end is not.
    writer.write_all(&one_part(&P1)).unwrap();
    let output = Command::new(PROGRAM)
        .stdin(OwnedFd::from(reader))
        .output()
        .unwrap();
    assert_ended(&output, "", UNREAD);
}

#[test]
fn a_write_that_fails_is_told() {
    let full = "exec \"$0\" <\"$1\" >/dev/full";
    assert_ended(&run_by_shell(full), "", UNWRITTEN);
    let closed = "exec \"$0\" <\"$1\" >&-";
    assert_ended(&run_by_shell(closed), "", UNWRITTEN);
    // A refusal is written like any text.
    let refusal = "exec \"$0\" </dev/null >/dev/full";
    assert_ended(&run_by_shell(refusal), "", UNWRITTEN);
}

#[test]
fn a_write_that_is_cut_short_is_told() {
    let folder = Path::new(env!("CARGO_TARGET_TMPDIR"));
    let (sheet, out) = (folder.join("cut_short_sheet"), folder.join("cut_short"));
    let input = one_part(&marks(Layout::Uniform, 500, 6));
    fs::write(&sheet, &input).unwrap();
    // The file takes one block, and the signal that goes with it is ignored.
    let output = Command::new("sh")
        .args(["-c", "trap '' XFSZ; ulimit -f 1; exec \"$0\""])
        .arg(PROGRAM)
        .stdin(File::open(sheet).unwrap())
        .stdout(File::create(&out).unwrap())
        .output()
        .unwrap();
    assert_ended(&output, "", UNWRITTEN);
    let (written, text) = (fs::read_to_string(out).unwrap(), run(&input));
    assert!(!written.is_empty() && written.len() < text.len());
    assert!(text.starts_with(&written));
}

#[test]
fn the_script_tells_by_its_status() {
    let status = |command: &str| {
        let output = Command::new("sh")
            .args(["-c", command, SCRIPT, &format!("{KEPT_RUN}/stdin")])
            .output();
        let output = output.expect("there is a shell");
        (
            output.status.code(),
            String::from_utf8(output.stdout).unwrap(),
        )
    };
    let printed = fs::read_to_string(format!("{KEPT_RUN}/stdout")).unwrap();
    assert_eq!(status("exec \"$0\" <\"$1\""), (Some(0), printed));
    let refused = String::from("refused 1\n");
    assert_eq!(status("exec \"$0\" </dev/null"), (Some(1), refused));
    let nothing = String::new();
    assert_eq!(status("exec \"$0\" </"), (Some(2), nothing.clone()));
    assert_eq!(status("exec \"$0\" <\"$1\" >/dev/full"), (Some(2), nothing));
}

#[test]
fn the_stack_that_the_readme_names_is_enough() {
    let sheet = Path::new(env!("CARGO_TARGET_TMPDIR")).join("stack_sheet");
    let input = one_part(&marks(Layout::Extreme, MOST_PRINTED, 7));
    fs::write(&sheet, &input).unwrap();
    let output = Command::new("sh")
        .args(["-c", "ulimit -s 512; exec \"$0\""])
        .arg(PROGRAM)
        .stdin(File::open(sheet).unwrap())
        .output()
        .unwrap();
    assert_ended(&output, &run(&input), "");
}
