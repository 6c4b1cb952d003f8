//! What `docs/GUARDS.md` says of looking by eye, run row by row. That every row names a test
//! which is there is seen in `rust/rollmap/tests/guards.rs`.

mod common;

use common::{Drawn, Folder};
use oracle::sample::{marks, Generator, Layout};
use rollmap::{View, Zoom};
use rollmap_tool::hold::{hold, Fate};
use rollmap_tool::why::chain;

/// A reel of 4,000 marks, of which nobody sees at once what is missing.
fn large() -> Drawn {
    let mut generator = Generator::new(1);
    let mut drawn = Drawn::new(&mut generator, 0);
    drawn.marks = marks(Layout::Clustered, 4_000, 1);
    drawn.popups = None;
    drawn.records = oracle::process::schedule_in_rank_order(drawn.reel());
    drawn
}

#[test]
fn the_defect_list_is_held_and_not_ticked_off() {
    let folder = Folder::new("guard-hold");
    let drawn = large();
    folder.write("reel.sheet", drawn.sheet());
    folder.call("list reel.sheet --output defects.csv").ended(0);
    let called = folder
        .call("hold defects.csv reel.sheet --stop 10")
        .ended(0);
    let rows = called
        .out
        .lines()
        .filter(|line| line.contains(" hidden since "));
    assert!(rows.count() > 3_000, "most marks are rightly hidden");
    assert_eq!(called.last(), "nothing unexplained");

    // One line of 4,000 is dropped, and it is that one which is told.
    let list = String::from_utf8(folder.read("defects.csv")).unwrap();
    let kept: Vec<&str> = list
        .lines()
        .enumerate()
        .filter(|(at, _)| *at != 2_345)
        .map(|(_, line)| line)
        .collect();
    folder.write("defects.csv", kept.join("\n"));
    let called = folder
        .call("hold defects.csv reel.sheet --stop 10 --unexplained")
        .ended(1);
    assert_eq!(called.last(), "unexplained: 1 row");
    assert!(called
        .out
        .contains("\n    -  2344  on the reel and not in the list: "));
}

#[test]
fn why_a_mark_is_hidden_is_read_and_not_zoomed_for() {
    // A mark that is removed where it would pop up is in no view: zooming finds it nowhere.
    let folder = Folder::new("guard-why");
    let table = "x,y,radius,priority,kind,tag,popup\n0,0,10,9,0,0,0\n100,0,10,5,0,0,320\n";
    folder.write("reel.csv", table);
    folder.call("make reel.csv").ended(0);
    for k in [1, 319, 320, 321, 65_536] {
        let call = format!("hold reel.csv reel.sheet --zoom {k}/64");
        let called = folder.call(&call).ended(0);
        assert!(!called.out.contains("    3     1  shown"));
    }
    let called = folder.call("why reel.sheet 1").ended(0);
    assert!(called
        .out
        .contains("Mark 1 pops up at zoom 5.\nMark 1 goes at zoom 5, where it meets mark 0"));

    // Of each hidden mark the chain leads to one that lives, which is the one that is told.
    let (drawn, view) = (large(), View::whole(Zoom::Stop(12)));
    let reel = drawn.open();
    let living = reel.living(view.zoom).unwrap();
    for row in hold(&drawn.listed(false), &reel, view).unwrap().rows {
        if let Fate::Hidden { through, now, .. } = row.fate {
            let links = chain(&reel, row.mark.unwrap());
            assert_eq!(links[through + 1].mark, now);
            assert!(living.contains(now as u32));
        }
    }
}

#[test]
fn the_offices_zooms_are_held_and_not_sampled() {
    let folder = Folder::new("guard-removals");
    folder.write("reel.sheet", large().sheet());
    folder
        .call("list reel.sheet --removals --output office.csv")
        .ended(0);
    folder
        .call("hold office.csv reel.sheet --removals")
        .ended(0);
    let list = String::from_utf8(folder.read("office.csv")).unwrap();
    let line = list.lines().rfind(|line| !line.ends_with("never")).unwrap();
    let (number, _) = line.split_once(',').unwrap();
    folder.write("office.csv", list.replace(line, &format!("{number},never")));
    let called = folder
        .call("hold office.csv reel.sheet --removals")
        .ended(1);
    assert!(called
        .out
        .contains("not ours: 1 of 4000 marks differ\nthe first rule is broken for marks "));

    // A zoom that was rounded is another value: the squared zoom is asked for, exactly.
    folder.write("office.csv", list.replace(line, &format!("{number},1.0")));
    folder
        .call("hold office.csv reel.sheet --removals")
        .ended(2);
}

#[test]
fn a_job_that_is_refused_or_cut_short_leaves_the_file() {
    let folder = Folder::new("guard-file");
    folder.write("reel.sheet", large().sheet());
    folder.call("schedule reel.sheet").ended(0);
    let before = folder.read("reel.sheet");
    folder.call("take-out reel.sheet 3999 4000").ended(3);
    folder
        .call("add reel.sheet --x 0 --y 0 --priority 1 --kind 200")
        .ended(3);
    folder
        .call("counts reel.sheet --output nowhere/reel.sheet")
        .ended(2);
    assert_eq!(folder.read("reel.sheet"), before);
    assert_eq!(folder.names(), ["reel.sheet"]);
}
