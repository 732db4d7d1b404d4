//! The examples of the rules (docs/RULES.md): the worked steps, the small examples of refusals, the printed run and
//! the traps.

use reference::cue::Cue;
use reference::desk::{Desk, EDITS};
use reference::replay;
use reference::script::{self, LONGEST_TEXT};
use reference::session;
use std::collections::BTreeSet;

/// A desk that was given these steps, each a line and the answer that must come.
struct Worked {
    desk: Desk,
}

impl Worked {
    fn new(start: &str) -> Worked {
        Worked { desk: Desk::new(read(start)) }
    }

    fn step(&mut self, line: &str, expected: &str) -> &mut Worked {
        let mut answer = Vec::new();
        self.desk.step(line.as_bytes()).write_line(&mut answer);
        assert_eq!(String::from_utf8_lossy(&answer), format!("{expected}\n"), "{line}");
        self
    }

    /// So many steps alike, for the times from 0.
    fn steps(&mut self, count: usize, call: &str, expected: &str) -> &mut Worked {
        for time in 0..count {
            self.step(&format!("{call},{time},1,1"), expected);
        }
        self
    }

    /// Begins these edits.
    fn begin(&mut self, edits: impl IntoIterator<Item = usize>) -> &mut Worked {
        for edit in edits {
            self.step(&format!("begin,{edit}"), "ok");
        }
        self
    }

    /// The cue lines of the script, or of the queue, must be these.
    fn script(&mut self, lines: &str) -> &mut Worked {
        assert_eq!(String::from_utf8_lossy(&script::write(self.desk.script())), lines);
        self
    }

    fn queue(&mut self, lines: &str) -> &mut Worked {
        let mut text = Vec::new();
        self.desk.queue().iter().for_each(|cue| cue.write_line(&mut text));
        assert_eq!(String::from_utf8_lossy(&text), lines);
        self
    }

    /// The lines of the lock sheet, in any order, must be these.
    fn locks<const N: usize>(&mut self, mut lines: [&str; N]) -> &mut Worked {
        let sheet = String::from_utf8(self.desk.lock_sheet()).expect("only ASCII is written");
        let mut found: Vec<&str> = sheet.lines().collect();
        found.sort();
        lines.sort();
        assert_eq!(found, lines);
        self
    }
}

fn empty() -> Worked {
    Worked::new("")
}

/// A desk with the 256 cues `0,1,1` to `255,1,1`.
fn full() -> Worked {
    Worked::new(&different(256))
}

fn different(count: usize) -> String {
    (0..count).map(|time| format!("{time},1,1\n")).collect()
}

fn read(text: &str) -> BTreeSet<Cue> {
    script::read(text.as_bytes()).expect("a script text")
}

fn run(input: &str) -> String {
    String::from_utf8(session::run(input.as_bytes())).expect("only ASCII is written")
}

mod worked_steps {
    use super::*;

    #[test]
    fn a_lock_for_no() {
        empty().begin([1, 2]).step("has,1,0,1,1", "no").step("add,2,0,1,1", "refused,8,1");
    }

    #[test]
    fn ranges() {
        let mut desk = empty();
        desk.begin([1]).step("add,1,3599999,99,32", "yes");
        for cue in ["3600000,99,32", "0,0,1", "0,100,1", "0,1,0", "0,1,33"] {
            desk.step(&format!("add,1,{cue}"), "refused,7");
        }
    }

    #[test]
    fn the_same_add_twice() {
        let mut desk = empty();
        desk.begin([1]).step("add,1,0,1,1", "yes").step("add,1,0,1,1", "no");
        desk.step("undo,1", "ok").step("back,1", "left,0").script("");
    }

    #[test]
    fn removed_and_added_again_in_a_full_script() {
        let mut desk = full();
        desk.begin([1]).step("remove,1,7,1,1", "yes").step("add,1,7,1,1", "yes").script(&different(256));
    }

    #[test]
    fn the_place_of_a_removed_cue() {
        let mut desk = full();
        desk.begin([1, 2]).step("remove,1,7,1,1", "yes").step("add,2,256,1,1", "refused,11");
        desk.step("commit,1", "ok").step("add,2,256,1,1", "yes");
    }

    #[test]
    fn two_pushes_and_a_take_undone() {
        let mut desk = empty();
        desk.begin([1]).step("push,1,0,1,1", "ok").step("push,1,0,1,1", "ok").step("take,1", "cue,0,1,1");
        desk.step("undo,1", "ok").step("back,1", "left,2").step("back,1", "left,1").step("back,1", "left,0").queue("");
    }

    #[test]
    fn a_lock_for_empty() {
        empty().begin([1, 2]).step("take,1", "empty").step("push,2,0,1,1", "refused,8,1");
    }

    #[test]
    fn a_take_among_pushes() {
        let mut desk = empty();
        desk.begin([1, 2]).step("push,1,0,1,1", "ok").step("push,2,0,1,1", "ok").step("take,1", "refused,8,2");
    }

    #[test]
    fn twenty_four_locks() {
        let mut desk = empty();
        desk.begin([1]).steps(24, "has,1", "no").step("has,1,7,1,1", "no").step("has,1,24,1,1", "refused,9");
    }

    #[test]
    fn sixteen_entries() {
        let mut desk = Worked::new("0,1,1");
        desk.begin([1]).step("has,1,0,1,1", "yes").step("has,1,0,2,1", "no").steps(16, "push,1", "ok");
        desk.step("add,1,0,1,1", "no").step("add,1,0,2,1", "refused,10");
    }

    #[test]
    fn an_undo_of_nothing() {
        empty().begin([1]).step("undo,1", "ok").step("back,1", "left,0").step("back,1", "refused,4");
    }

    #[test]
    fn the_first_row_decides() {
        let mut desk = empty();
        desk.step("add,9,0,1,0", "refused,2").step("add,1,0,1,0", "refused,4");
        desk.begin([1, 2]).step("has,2,0,2,1", "no").steps(16, "push,1", "ok").step("add,1,0,2,1", "refused,8,2");
    }
}

mod refusals {
    use super::*;

    #[test]
    fn row_13() {
        assert_eq!(run(&"x".repeat(LONGEST_TEXT + 1)), "start,13,0\n");
        assert_eq!(run(&"x".repeat(LONGEST_TEXT)), "start,1,1\n");
        assert_eq!(run(&format!("steps\n{}", "x".repeat(LONGEST_TEXT - 5))), "start,13,0\n");
    }

    #[test]
    fn rows_1_to_7() {
        empty().step("add,1,05,1,1", "refused,1");
        empty().step("begin,9", "refused,2").step("begin,0", "refused,2");
        empty().begin([1]).step("begin,1", "refused,3");
        empty().step("commit,1", "refused,4");
        empty().begin([1]).step("undo,1", "ok").step("commit,1", "refused,5");
        empty().begin([1]).step("back,1", "refused,6");
        empty().begin([1]).step("add,1,0,1,33", "refused,7");
    }

    #[test]
    fn unwinding_edits() {
        let mut desk = empty();
        desk.begin([1]).step("undo,1", "ok").step("begin,1", "refused,3").step("undo,1", "refused,5");
        for call in ["add,1,0,1,0", "remove,1,0,1,1", "has,1,0,1,1", "push,1,0,1,1", "min,1", "take,1"] {
            desk.step(call, "refused,5");
        }
    }

    #[test]
    fn row_9() {
        let mut desk = empty();
        desk.begin([1]).steps(24, "has,1", "no").step("has,1,24,1,1", "refused,9").step("min,1", "empty");
    }

    #[test]
    fn row_10() {
        let mut desk = empty();
        desk.begin([1]).steps(16, "push,1", "ok").step("push,1,16,1,1", "refused,10").step("take,1", "refused,10");
    }

    #[test]
    fn row_11() {
        assert_eq!(run(&different(257)), "start,11,257\n");
        full().begin([1]).step("add,1,256,1,1", "refused,11").step("add,1,255,1,1", "no");
    }

    #[test]
    fn row_12() {
        let mut desk = empty();
        for edit in 1..=4 {
            desk.begin([edit]).steps(16, &format!("push,{edit}"), "ok").step(&format!("commit,{edit}"), "ok");
        }
        desk.begin([5, 6]).step("push,5,0,1,1", "refused,12").step("push,6,0,1,1", "refused,12");
        desk.step("take,5", "cue,0,1,1").step("push,5,0,1,1", "refused,12").step("commit,5", "ok");
        desk.step("push,6,0,1,1", "ok");
    }

    #[test]
    fn places_of_added_cues() {
        // Taken out again, the cue has its place until the add is undone: the place moves only then.
        let mut desk = Worked::new(&different(255));
        desk.begin([1, 2]).step("add,1,300,1,1", "yes").step("remove,1,300,1,1", "yes");
        desk.step("add,2,301,1,1", "refused,11").step("undo,1", "ok").step("back,1", "left,1");
        desk.step("add,2,301,1,1", "refused,11").step("back,1", "left,0").step("add,2,301,1,1", "yes");
    }

    #[test]
    fn places_of_cues_half_undone() {
        let mut desk = full();
        desk.begin([1, 2]).step("remove,1,7,1,1", "yes").step("add,1,7,1,1", "yes").step("undo,1", "ok");
        desk.step("back,1", "left,1").step("add,2,256,1,1", "refused,11").step("back,1", "left,0");
        desk.script(&different(256));
    }
}

mod locks {
    use super::*;

    #[test]
    fn modes_of_the_queue() {
        let calls = ["push", "min", "take"];
        for (held, wanted) in calls.iter().flat_map(|held| calls.map(|wanted| (*held, wanted))) {
            let line = |call, edit| format!("{call},{edit}{}", if call == "push" { ",0,1,1" } else { "" });
            let mut desk = Desk::new(BTreeSet::new());
            desk.step(b"begin,1");
            desk.step(b"begin,2");
            assert!(!desk.step(line(held, 1).as_bytes()).is_refused());
            let goes = held == wanted && held != "take";
            assert_eq!(desk.step(line(wanted, 2).as_bytes()).is_refused(), !goes, "{held} and {wanted}");
            assert!(!desk.step(line(wanted, 1).as_bytes()).is_refused(), "{held} and {wanted} of one edit");
        }
    }

    #[test]
    fn the_lowest_edit_in_the_way() {
        let mut desk = empty();
        desk.begin([3, 5, 7, 8]).step("push,7,0,1,1", "ok").step("push,5,0,1,1", "ok").step("push,8,0,1,1", "ok");
        desk.step("take,8", "refused,8,5").step("min,3", "refused,8,5").step("take,5", "refused,8,7");
    }

    #[test]
    fn the_lock_sheet() {
        let mut desk = empty();
        desk.locks([]).begin([1, 2, 3]).locks([]);
        desk.step("has,2,0,1,1", "no").step("add,2,0,1,1", "yes").step("has,1,5,2,3", "no");
        desk.step("min,3", "empty").step("take,3", "empty").step("push,3,0,1,1", "ok").step("push,3,0,1,1", "ok");
        desk.locks(["lock,2,0,1,1", "lock,1,5,2,3", "mode,3,look", "mode,3,take", "mode,3,push"]);
        desk.step("undo,3", "ok").step("back,3", "left,1").step("commit,1", "ok");
        desk.locks(["lock,2,0,1,1", "mode,3,look", "mode,3,take", "mode,3,push"]);
        desk.step("back,3", "left,0").locks(["lock,2,0,1,1"]);
        desk.desk.recover(1..=EDITS);
        desk.locks([]);
    }
}

mod program {
    use super::*;

    const INPUT: &str = "1500,4,12\n1500,2,7\nsteps\nbegin,1\nbegin,2\nadd,1,1500,2,9\nadd,2,1500,2,9\n\
                         push,2,900,1,1\npush,1,900,1,1\nremove,2,1500,4,12\ncommit,1\nmin,2\nundo,2\nback,2\n";
    const OUTPUT: &str = "ok\nok\nyes\nrefused,8,1\nok\nok\nyes\nok\ncue,900,1,1\nok\nleft,1\n\
                          script,3\n1500,2,7\n1500,2,9\n1500,4,12\nqueue,1\n900,1,1\n";

    #[test]
    fn the_printed_run() {
        assert_eq!(run(INPUT), OUTPUT);
        assert_eq!(run(INPUT.strip_suffix('\n').unwrap()), OUTPUT);
    }

    #[test]
    fn the_replay_tells_wrong_outputs() {
        let check = |output: &str| replay::check(INPUT.as_bytes(), output.as_bytes());
        assert_eq!(check(OUTPUT), Ok(2));
        let wrong_answer = OUTPUT.replacen("yes", "no", 1);
        let wrong_script = OUTPUT.replace("1500,2,9\n", "");
        let no_queue = OUTPUT.strip_suffix("900,1,1\n").unwrap();
        for wrong in [&wrong_answer, &wrong_script, no_queue, "ok\n", ""] {
            assert!(check(wrong).is_err(), "{wrong:?}");
        }
    }

    #[test]
    fn the_line_of_the_steps() {
        let settled = "script,1\n0,1,1\nqueue,0\n";
        for input in ["0,1,1", "0,1,1\n", "0,1,1\nsteps", "0,1,1\nsteps\n"] {
            assert_eq!(run(input), settled, "{input:?}");
        }
        assert_eq!(run(""), "script,0\nqueue,0\n");
        assert_eq!(run("0,1,1\nsteps\nsteps\n\nbegin,1\n"), format!("refused,1\nrefused,1\nok\n{settled}"));
        assert_eq!(run("0,1,1\nsteps \nbegin,1\n"), "start,1,2\n");
        assert_eq!(run("0,1,1\n0,1,33\nsteps\nbegin,1\n"), "start,7,2\n");
        assert_eq!(run("\nsteps\n"), "start,1,1\n");
    }

    #[test]
    fn equal_cues_of_the_queue_are_printed_each() {
        let steps = "steps\nbegin,1\npush,1,5,1,1\npush,1,0,1,1\npush,1,5,1,1\ncommit,1\n";
        assert_eq!(run(steps), "ok\nok\nok\nok\nok\nscript,0\nqueue,3\n0,1,1\n5,1,1\n5,1,1\n");
    }
}

mod traps {
    use super::*;

    #[test]
    fn a_lock_is_kept_for_no_and_empty() {
        for (call, answer) in [("has,1,0,1,1", "no"), ("remove,1,0,1,1", "no")] {
            empty().begin([1, 2]).step(call, answer).step("add,2,0,1,1", "refused,8,1");
        }
        Worked::new("0,1,1").begin([1, 2]).step("add,1,0,1,1", "no").step("remove,2,0,1,1", "refused,8,1");
        for call in ["min,1", "take,1"] {
            empty().begin([1, 2]).step(call, "empty").step("push,2,0,1,1", "refused,8,1");
        }
    }

    #[test]
    fn locks_are_kept_until_the_last_back() {
        let mut desk = empty();
        desk.begin([1, 2]).step("add,1,0,1,1", "yes").step("add,1,5,1,1", "yes").step("undo,1", "ok");
        desk.step("has,2,0,1,1", "refused,8,1").step("back,1", "left,1").step("has,2,5,1,1", "refused,8,1");
        desk.step("back,1", "left,0").step("has,2,0,1,1", "no").step("has,2,5,1,1", "no");
    }

    #[test]
    fn a_removed_cue_comes_back_to_its_place() {
        let mut desk = full();
        desk.begin([1, 2]).step("remove,1,7,1,1", "yes").step("add,2,256,1,1", "refused,11");
        desk.step("undo,1", "ok").step("add,2,256,1,1", "refused,11").step("back,1", "left,0");
        desk.step("add,2,256,1,1", "refused,11").script(&different(256));
    }

    #[test]
    fn the_newest_entry_is_undone_first() {
        let mut desk = empty();
        desk.begin([1]).step("add,1,0,1,1", "yes").step("remove,1,0,1,1", "yes").step("undo,1", "ok");
        desk.step("back,1", "left,1").script("0,1,1\n").step("back,1", "left,0").script("");
    }

    #[test]
    fn refused_calls_are_not_fed_to_the_replay() {
        let lines = ["begin,1", "begin,2", "add,1,300,1,1", "add,2,301,1,1", "undo,1", "back,1", "commit,2"];
        let mut desk = Desk::new(read(&different(255)));
        let fed: Vec<(&[u8], bool)> =
            lines.iter().map(|line| (line.as_bytes(), desk.step(line.as_bytes()).is_refused())).collect();
        assert_eq!(fed.iter().position(|&(_, refused)| refused), Some(3));
        let replay = replay::replay(read(&different(255)), fed);
        assert_eq!(&replay.script, desk.script());
        assert_eq!((replay.queue, replay.answers), (vec![], vec![]));
    }

    #[test]
    fn recovery_comes_to_the_same_in_any_order() {
        let mut desk = Worked::new("0,1,1");
        desk.begin([1, 2, 3]).step("push,3,9,1,1", "ok").step("commit,3", "ok").step("take,1", "cue,9,1,1");
        desk.step("push,1,2,1,1", "ok").step("remove,2,0,1,1", "yes").step("add,2,4,1,1", "yes");
        desk.step("undo,2", "ok").step("back,2", "left,1");
        let [mut other, mut stepped] = [0, 1].map(|_| Worked { desk: desk.desk.clone() });
        let lines = stepped.desk.recovery((1..=EDITS).rev());
        assert_eq!(String::from_utf8_lossy(&lines), "back,2\nundo,1\nback,1\nback,1\n");
        script::lines(&lines).for_each(|line| assert!(!stepped.desk.step(line).is_refused()));
        desk.desk.recover(1..=EDITS);
        other.desk.recover((1..=EDITS).rev());
        for settled in [&mut desk, &mut other, &mut stepped] {
            settled.script("0,1,1\n").queue("9,1,1\n").locks([]);
        }
    }
}
