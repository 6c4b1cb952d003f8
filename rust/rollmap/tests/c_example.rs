//! The C header: programs in C are compiled against it, linked with the archive and
//! run, one of them as C++ too; and what the header says of numbers and of the stack is
//! seen to be so.

mod common;

use std::io::Write;
use std::path::{Path, PathBuf};
use std::process::{Command, Stdio};

use common::{one_part, scheduled, scheduled_of, some_room, some_sheet, with_part_7, SomeBodies};
use oracle::map::map_bytes;
use oracle::sample::{each_list, marks, refused_sheets, Generator, Layout, CODES_TAKEN, P1};
use oracle::view::{view, Edges, Window};
use oracle::zoom::Zoom;

use rollmap::{Code, Edition, Refusal, Shape, Turn, FARTHEST_EDGE, LARGEST_POPUP, NO_POPUP};

/// The archive that this crate was built with.
const ARCHIVE: &str = env!("ROLLMAP_ARCHIVE");

/// What the program prints.
const EXPECTED: &str = "\
assemble: 0 56
short work: 13 0, then ee
schedule: 0 140, then ee
check: 0 0
part 2 at 76, 56 bytes
0: 65535 0 0
1: 0 10000 400
2: 0 40000 400
3: 0 9 225
part 3 at 132, 8 bytes: 0 1 3 2
part 4 at 0, 0 bytes
wheel 1: 0, count 2, map 06 ee, marks 1 2
wheel 5: 0, count 2, map 05 ee, marks 0 2
stop 0: 0, count 4, map 0f ee, marks 0 1 2 3
stop 17: 12, count 0, map 0f ee, marks 0 1 2 3
turn 1: 0, count 2, map 06 ee, marks 1 2
turn 2: 0, count 2, map 06 ee, marks 1 2
turn 3: 0, count 2, map 06 ee, marks 1 2
turn 1, the place of 3: 0, count 1, map 08 ee, marks 3
turn 4: 20, count 0, map 08 ee, marks 3
edge 32769: 20, count 0, map 08 ee, marks 3
cut short: 3 0
its part 1 at 0, 0 bytes
crossed edges: 11 0, map ee
short map: 13 65535
add in short work: 13 0, then ee
add an unknown kind: 5 0, then ee
add a popup without part 5: 21 0, then ee
add: 0 167, then ee, mark d4 fe 01 04 00 00 01 02 95 fe ff
take it out: 0 140, the same 1, then ee
take out 4 of 4: 17 0
take out 65536: 17 0, the same 1
take out 0: 0 113, 1: 0 10000 400
judge: 0 0
judge marks alone: 10 0
nobody goes: 0 86, check 0 0, judge 22 0, schedule 0 86, judge that 0 0
part 1 of three: 0 56
parts 1, 2 and 4: 0 133
two rows for three codes: 1 0
no part 1: 2 0
no parts: 1 0
edition 1: 0 67, in a short buffer 13 0, scheduled 0 151, then ee, part 4 at 150: 1, 1 by 0, 2 by 1
edition 2: 0 67, in a short buffer 13 0, scheduled 0 151, then ee, part 4 at 150: 2, 1 by 2, 2 by 0
edition 3: 19 0
popups: 0 82, in a short buffer 13 0, scheduled 0 166, then ee, part 5 at 150, 16 bytes
1: 0 409600 4096
2: 1 10000 400
stop 0: 0, count 3, map 0e ee, marks 1 2 3
wheel 10: 0, count 1, map 01 ee, marks 0
add a popup of 65537: 21 0, then ee
add a popup of 65536: 0 197, then ee, part 5 ends in 00 00 01 00
take it out: 0 166, the same 1, then ee
a popup of 66176: 21 0
short fill: 13 0, then ee
fill: 0 11, radius 120, tag 7, then ee
marks to log: 0 13, x 12 34 5d, then ee
log to marks: 0 11, the same 1, then ee
minus zero: 15 0
short columns: 13 0, then ee
no whole mark: 4 0, then ee
to columns: 0 22, 05 00 fe ff 02 00 00 01 ff ff 0a 00 07 00 08 00 04 fa 01 02 03 04 ee
short marks: 13 0, then ee
no whole column: 4 0, then ee
from columns: 0 22, the same 1, then ee
count in a short buffer: 13 0, then ee
count: 0 320, then ee, part 6 at 150, 170 bytes
notes: 4 4 4 4 3 3 3 3 3 2 1 1 1 1 1 1 1, others 0
count again: 0 320, the same 1, then ee
schedule: 0 320, the same 1, then ee
add a break: 0 347, then ee, breaks: 1 1 1 1 1 1 1 1 1 0 0 0 0 0 0 0 0
take it out: 0 320, the same 1, then ee
count without an index: 0 302, its part 3 at 0, 0 bytes
count marks alone: 10 0
another count: check 23 0, count 23 0
part 6 without part 2: 2 0
shape 1: 0 45, in a short buffer 13 0, scheduled 0 97, then ee, part 7 at 96: 1
1: 0 2500 400
wheel 5, the corner: 0, count 0, map 00 ee, marks
wheel 1, turn 1: 0, count 2, map 03 ee, marks 0 1
add: 0 124, then ee, part 7 at 123: 1, take it out: 0 97, the same 1
count: 0 277, then ee, part 6 at 106, part 7 at 276: 1
shape 2: 0 45, in a short buffer 13 0, scheduled 0 97, then ee, part 7 at 96: 2
1: 0 1600 400
wheel 5, the corner: 0, count 1, map 01 ee, marks 0
wheel 1, turn 1: 20, count 0, map 01 ee, marks 0
add: 0 124, then ee, part 7 at 123: 2, take it out: 0 97, the same 1
count: 0 277, then ee, part 6 at 106, part 7 at 276: 2
shape 3: 24 0
";

const HEADER: &str = include_str!("../../../include/rollmap.h");

/// A path in this crate's folder.
fn in_crate(path: &str) -> PathBuf {
    Path::new(env!("CARGO_MANIFEST_DIR")).join(path)
}

/// Runs a command with this input, which must succeed, and answers what it prints.
fn run(command: &mut Command, input: &[u8]) -> String {
    let pipes = command.stdin(Stdio::piped()).stdout(Stdio::piped());
    let mut child = pipes.spawn().expect("the command is there");
    let mut to_child = child.stdin.take().expect("it has an input");
    let output = std::thread::scope(|scope| {
        scope.spawn(move || to_child.write_all(input).expect("it reads its input"));
        child.wait_with_output().expect("it ends")
    });
    assert!(output.status.success(), "{command:?} {}", output.status);
    String::from_utf8(output.stdout).expect("it prints text")
}

/// Compiles a program of this folder with these words, and answers where it is.
fn compile(source: &str, name: &str, compiler: &str, words: &[&str]) -> PathBuf {
    let program = Path::new(env!("CARGO_TARGET_TMPDIR")).join(name);
    let mut compile = Command::new(compiler);
    compile
        .args(words)
        .args(["-O1", "-Wall", "-Wextra", "-Wpedantic", "-Werror", "-I"])
        .arg(in_crate("../../include"))
        .arg(in_crate("tests").join(source))
        .args(["-x", "none", ARCHIVE, "-o"])
        .arg(&program);
    run(&mut compile, &[]);
    program
}

#[test]
fn a_c_program_uses_the_library() {
    let program = compile("example.c", "example_c", "cc", &["-std=c99"]);
    assert_eq!(run(&mut Command::new(program), &[]), EXPECTED);
}

#[test]
fn a_cpp_program_uses_the_library() {
    let words = ["-std=c++11", "-x", "c++"];
    let program = compile("example.c", "example_cpp", "c++", &words);
    assert_eq!(run(&mut Command::new(program), &[]), EXPECTED);
}

/// The numbers that the header defines with this beginning of a name, by the rest of it.
fn defined(beginning: &str) -> Vec<(&'static str, u32)> {
    let number = |line: &'static str| {
        let (name, number) = line.strip_prefix(beginning)?.split_once(' ')?;
        Some((name, number.strip_suffix('u')?.parse().ok()?))
    };
    HEADER.lines().filter_map(number).collect()
}

#[test]
fn the_header_names_every_refusal_of_a_call() {
    let own = |refusal: &Refusal| (format!("{refusal:?}").to_uppercase(), refusal.number());
    let asked = Refusal::ALL
        .iter()
        .filter(|&&refusal| refusal != Refusal::Program);
    let named = defined("#define ROLLMAP_REFUSED_").into_iter();
    assert!(named
        .map(|(name, number)| (name.to_owned(), number))
        .eq(asked.map(own)));
}

#[test]
fn the_header_names_every_code_every_edition_and_every_shape() {
    let codes = Code::ALL.iter();
    let own = codes.map(|code| (format!("{code:?}").to_uppercase(), code.number().into()));
    let named = defined("#define ROLLMAP_CODE_").into_iter();
    assert!(named
        .map(|(name, number)| (name.to_owned(), number))
        .eq(own));
    for (name, edition) in [("FIRST", Edition::First), ("SECOND", Edition::Second)] {
        let [number] = edition.to_bytes();
        assert!(defined("#define ROLLMAP_EDITION_").contains(&(name, number.into())));
    }
    for (name, shape) in [("DISK", Shape::Disk), ("SQUARE", Shape::Square)] {
        let [number] = shape.to_bytes();
        assert!(defined("#define ROLLMAP_SHAPE_").contains(&(name, number.into())));
    }
}

#[test]
fn the_header_names_no_popup_no_turn_and_the_farthest_edge() {
    assert_eq!(
        defined("#define ROLLMAP_NO_"),
        [
            ("POPUP", NO_POPUP),
            ("MARK", 65_535),
            ("TURN", Turn::None.quarters().into()),
        ]
    );
    // It has a sign.
    let edge = format!("#define ROLLMAP_FARTHEST_EDGE {FARTHEST_EDGE}\n");
    assert!(HEADER.contains(&edge));
}

#[test]
fn the_header_has_the_sizes_and_the_version_of_this_crate() {
    let sizes = [
        ("MOST_MARKS", rollmap::MOST_MARKS),
        ("MARK_BYTES", rollmap::MARK_BYTES),
        ("RECORD_BYTES", rollmap::RECORD_BYTES),
        ("POPUP_BYTES", rollmap::POPUP_BYTES),
        ("LOG_RECORD_BYTES", rollmap::LOG_RECORD_BYTES),
        ("EDITION_BYTES", rollmap::EDITION_BYTES),
        ("LARGEST_POPUP", LARGEST_POPUP as usize),
        ("STOPS", rollmap::STOPS),
        ("GROUPS", rollmap::GROUPS),
        ("COUNTS_BYTES", rollmap::COUNTS_BYTES),
        ("COUNTED_BYTES", rollmap::COUNTED_BYTES),
        ("SHAPE_BYTES", rollmap::SHAPE_BYTES),
    ];
    for (name, size) in sizes {
        assert!(
            defined("#define ROLLMAP_").contains(&(name, size as u32)),
            "{name}"
        );
    }
    let version = concat!(
        "#define ROLLMAP_VERSION \"",
        env!("CARGO_PKG_VERSION"),
        "\"\n"
    );
    assert!(HEADER.contains(version));
}

#[test]
fn the_archive_needs_of_others_what_the_header_says() {
    assert!(HEADER.contains("needs of other libraries only\n * memcpy and memset."));
    let listed = Command::new("nm").args(["-u", ARCHIVE]).output();
    let listed = listed.expect("nm lists the archive");
    assert!(listed.status.success());
    let text = String::from_utf8(listed.stdout).expect("names");
    let names: Vec<&str> = text
        .lines()
        .filter_map(|line| line.trim().strip_prefix("U "))
        .collect();
    assert!(!names.is_empty());
    for name in names {
        assert!(["memcpy", "memset"].contains(&name), "{name} is needed");
    }
}

/// The most bytes of stack that the header says a call takes.
fn most_stack(call: &str) -> usize {
    match call {
        "judge" => 16 * 1024,
        _ => 8 * 1024,
    }
}

#[test]
fn every_call_takes_less_stack_than_the_header_says() {
    let words = ["-std=c99", "-pthread"];
    let program = compile("stack.c", "stack", "cc", &words);
    for shape in [Shape::Disk, Shape::Square] {
        let printed = run(&mut Command::new(&program), &shape.to_bytes());
        let calls = printed.lines().map(|line| {
            let (name, bytes) = line.split_once(": ").expect("a name and a number");
            (name, bytes.parse::<usize>().expect("a number"))
        });
        let calls: Vec<(&str, usize)> = calls.collect();
        assert_eq!(calls.len(), 18);
        for (name, bytes) in calls {
            assert!(
                bytes < most_stack(name),
                "{name} takes {bytes} of {shape:?}"
            );
        }
    }
}

/// A view as the program `stops.c` reads it, and what it is to print: the oracle's answer
/// at the stops 0 to 17, with a byte behind the map that nobody writes.
fn stops_case(sheet: &[u8], window: Window, map_length: usize) -> (Vec<u8>, String) {
    let Edges { x0, x1, y0, y1 } = window.edges;
    let lengths = [sheet.len(), map_length].map(four);
    let edges = [x0, x1, y0, y1].map(i32::to_ne_bytes);
    let turn = four(window.turn.into());
    let input = [lengths.as_flattened(), edges.as_flattened(), &turn, sheet].concat();
    let line = |stop| {
        let (number, (written, count)) = match view(sheet, window, Zoom::Stop(stop), map_length) {
            Ok(answered) => (0, answered),
            Err(number) => (number, (Vec::new(), 0)),
        };
        let mut map = vec![0xee; map_length + 1];
        map[..written.len()].copy_from_slice(&written);
        let hex: String = map.iter().map(|byte| format!("{byte:02x}")).collect();
        format!("{number} {count} {hex}\n")
    };
    (input, (0..=17).map(line).collect())
}

/// Sees that a program prints the lines that are expected for each case.
fn assert_prints(source: &str, name: &str, cases: Vec<(Vec<u8>, String)>) {
    let (inputs, expected): (Vec<_>, Vec<_>) = cases.into_iter().unzip();
    let program = compile(source, name, "cc", &["-std=c99"]);
    let printed = run(&mut Command::new(program), &inputs.concat());
    let expected = expected.concat();
    let lines = printed.lines().zip(expected.lines()).enumerate();
    let differing = lines.into_iter().find(|(_, (ours, theirs))| ours != theirs);
    assert_eq!(differing, None);
    assert_eq!(printed.len(), expected.len());
}

/// These edges.
const fn edges(x0: i32, x1: i32, y0: i32, y1: i32) -> Edges {
    Edges { x0, x1, y0, y1 }
}

#[test]
fn every_stop_is_its_wheel_value_through_c() {
    let mut cases = Vec::new();
    for layout in Layout::ALL {
        for n in [0, 1, 9, 40] {
            let sample = marks(layout, n, 11);
            let (sheet, needed) = (scheduled(&sample), map_bytes(n));
            let near = edges(-900, 900, 0, 0);
            for turn in 0..=3 {
                cases.push(stops_case(&sheet, near.of_turned(turn), needed + 1));
            }
            let crossed = edges(1, 0, 0, 0).unturned();
            cases.push(stops_case(&sheet, Window::WHOLE, needed));
            cases.push(stops_case(&sheet, crossed, needed));
            cases.push(stops_case(&sheet, Window::WHOLE, needed.saturating_sub(1)));
            cases.push(stops_case(&one_part(&sample), Window::WHOLE, needed));
        }
    }
    let mut generator = Generator::new(50);
    for _ in 0..500 {
        let sheet = some_sheet(&mut generator);
        cases.push(stops_case(&sheet, Window::WHOLE, 6));
    }
    assert_prints("stops.c", "stops", cases);
}

#[test]
fn every_turn_through_c() {
    let (sheet, bare) = (scheduled(&P1), one_part(&P1));
    let (whole, crossed) = (Edges::WHOLE, edges(1, 0, 0, 0));
    let far = edges(-32_769, 0, 0, 0);
    let squares = with_part_7(&sheet, &[2]);
    let bare_squares = with_part_7(&bare, &[2]);
    let mut cases = Vec::new();
    for turn in 0..=255 {
        // Of squares every turn but 0 gets 20.
        cases.push(stops_case(&squares, whole.of_turned(turn), 1));
        cases.push(stops_case(&squares, crossed.of_turned(turn), 0));
        cases.push(stops_case(&bare_squares, crossed.of_turned(turn), 0));
        let disks = with_part_7(&sheet, &[1]);
        cases.push(stops_case(&disks, whole.of_turned(turn), 1));
        cases.push(stops_case(&sheet, whole.of_turned(turn), 1));
        cases.push(stops_case(&sheet, edges(-3, 0, 0, 100).of_turned(turn), 1));
        // 20 is asked before 11 and 13, and after 10.
        cases.push(stops_case(&sheet, crossed.of_turned(turn), 0));
        cases.push(stops_case(&sheet, far.of_turned(turn), 0));
        cases.push(stops_case(&bare, crossed.of_turned(turn), 0));
    }
    // A refused sheet gets its own number, whatever the turn.
    for (_, sheet) in refused_sheets() {
        for turn in [0, 3, 4, 5, 128, 255] {
            cases.push(stops_case(&sheet, crossed.of_turned(turn), 0));
        }
    }
    let mut generator = Generator::new(53);
    for _ in 0..500 {
        let sheet = some_sheet(&mut generator);
        let turn = generator.draw() as u8;
        cases.push(stops_case(&sheet, whole.of_turned(turn), 6));
    }
    assert_prints("stops.c", "turns", cases);
}

#[test]
fn every_bit_of_an_edge_counts_through_c() {
    let sheet = scheduled(&P1);
    let mut cases = Vec::new();
    for bit in 0..32 {
        // 0 with one bit set, and -1 with one cleared.
        for edge in [1_i32 << bit, !(1 << bit)] {
            for edges in [
                edges(edge, 32_768, -32_768, 32_768),
                edges(-32_768, edge, -32_768, 32_768),
                edges(-32_768, 32_768, edge, 32_768),
                edges(-32_768, 32_768, -32_768, edge),
            ] {
                cases.push(stops_case(&sheet, edges.of_turned(bit % 4), 1));
            }
        }
    }
    assert_prints("stops.c", "edges", cases);
}

/// A number as the program `parts.c` reads it.
fn four(number: usize) -> [u8; 4] {
    u32::to_ne_bytes(number as u32)
}

/// Putting together as the program `parts.c` reads it, and what it is to print: the
/// oracle's answer, with a byte behind the written buffer that nobody writes.
fn assemble_case(codes: &[u16], bodies: &[&[u8]], out_length: usize) -> (Vec<u8>, String) {
    let numbers = [0, codes.len(), bodies.len(), out_length].map(four);
    let code_bytes: Vec<[u8; 2]> = codes.iter().map(|code| code.to_ne_bytes()).collect();
    let mut input = [numbers.as_flattened(), code_bytes.as_flattened()].concat();
    for body in bodies {
        input.extend(four(body.len()));
        input.extend(*body);
    }
    let (number, written) = match oracle::sheet::assemble(codes, bodies, out_length) {
        Ok(sheet) => (0, sheet),
        Err(number) => (number, Vec::new()),
    };
    let mut out = vec![0xee; out_length + 1];
    out[..written.len()].copy_from_slice(&written);
    let hex: String = out.iter().map(|byte| format!("{byte:02x}")).collect();
    (input, format!("{number} {} {hex}\n", written.len()))
}

/// Reading a part as the program `parts.c` reads it, and what it is to print.
fn part_case(sheet: &[u8], code: u32) -> (Vec<u8>, String) {
    let numbers = [1, sheet.len(), code as usize].map(four);
    let (offset, length) = oracle::sheet::part_extent(sheet, code);
    let input = [numbers.as_flattened(), sheet].concat();
    (input, format!("{offset} {length}\n"))
}

#[test]
fn every_list_of_codes_through_c() {
    let bodies: [&[u8]; 8] = [&[], &[], &[], &[2], &[], &[0; 170], &[1], &[0xff; 5]];
    let body = |&code: &u16| bodies[usize::from(code).saturating_sub(1)];
    let mut cases = Vec::new();
    let mut try_list = |codes: &[u16]| {
        let own: Vec<&[u8]> = codes.iter().map(body).collect();
        cases.push(assemble_case(codes, &own, 250));
    };
    for length in 0..=4 {
        each_list(&[0, 1, 2, 3, 4, 5, 6, 7, 8], length, &mut try_list);
    }
    for length in [5, 6] {
        each_list(&[1, 2, 3, 7], length, &mut try_list);
    }
    CODES_TAKEN.iter().for_each(|codes| try_list(codes));
    // As many as there are, and one more.
    for length in [7, 8] {
        each_list(&[1, 2, 7], length, &mut try_list);
    }
    try_list(&[1, 2, 3, 4, 5, 6, 8]);
    try_list(&[1, 2, 3, 4, 5, 6, 7, 8]);
    // Both bytes of a code count.
    for code in [256, 257, 258, 260, 261, 262, 263, 1_028, 65_281, 65_535] {
        cases.push(assemble_case(&[code], &[&[]], 50));
        cases.push(assemble_case(&[1, code], &[&[], &[1]], 50));
    }
    assert_prints("parts.c", "codes", cases);
}

#[test]
fn other_numbers_of_bodies_than_of_codes_through_c() {
    let mut generator = Generator::new(51);
    let mut cases = Vec::new();
    for _ in 0..4_000 {
        let drawn = SomeBodies::draw(&mut generator);
        let mut codes = drawn.codes.to_vec();
        if generator.below(20) == 0 {
            codes.resize(generator.choose(&[0, 8, 16]), 4);
        }
        let own: Vec<&[u8]> = drawn.parts().into_iter().map(|(_, body)| body).collect();
        // Further bodies are junk, and some lack.
        let mut bodies = own;
        let given = generator.below(17) as usize;
        bodies.resize(
            given,
            generator.choose(&[&[][..], &[0xff; 5], &[2], &[0; 300]]),
        );
        let needed = 2 + codes.len() * 10 + bodies.iter().map(|body| body.len()).sum::<usize>();
        let length = some_room(&mut generator, needed.min(4_000));
        cases.push(assemble_case(&codes, &bodies, length));
    }
    assert_prints("parts.c", "bodies", cases);
}

#[test]
fn every_code_of_a_part_through_c() {
    let mut generator = Generator::new(52);
    let popups = [640, 0, 5, 65_536];
    let mut sheets = CODES_TAKEN
        .map(|codes| scheduled_of(codes, &P1, &popups))
        .to_vec();
    sheets.extend((0..300).map(|_| some_sheet(&mut generator)));
    let mut cases = Vec::new();
    for sheet in sheets {
        let wide = [256, 257, 258, 263, 65_536, 65_537, 65_543, u32::MAX];
        for code in (0..10).chain(wide) {
            cases.push(part_case(&sheet, code));
        }
    }
    assert_prints("parts.c", "parts", cases);
}
