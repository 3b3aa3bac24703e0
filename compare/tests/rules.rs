//! The worked examples of docs/RULES.md, through both relays.

use second_relay::action::{Action, Answer, PlayFault};
use second_relay::counting::Counting;
use second_relay::generate::case;
use second_relay::listing::{listing, organ, Relay};
use second_relay::naive::Naive;

const ONE_STOP: &str = "(keys 0 61)\n(rank 0 73)\n(knob 0 2 0)\n\n\
    (wire 1 0 0 60 0 0 64 0)\n\n(wire 2 0 0 60 0 0 0 1)\n";

/// One division of 61 keys on one rank of 73 pipes, always coupled.
fn with_stops(stops: &str) -> String {
    format!(
        "(keys 0 61)\n(rank 0 73)\n(knob 0 2 0)\n(piston 0 0 0)\n(piston 1 0 0)\n\
        (wire 1 0 0 60 0 0 64 0)\n{stops}"
    )
}

fn with_shift(shift: i32) -> String {
    with_stops(&format!("(wire 2 0 0 60 0 {shift} 64 0)\n"))
}

fn press(key: u8) -> Action {
    Action::Press { division: 0, key }
}

fn lift(key: u8) -> Action {
    Action::Lift { division: 0, key }
}

fn sustain(on: bool) -> Action {
    Action::Sustain { division: 0, on }
}

/// Plays the calls on both relays.
fn check(book: &str, calls: &[(Action, Answer)]) {
    let organ = organ(book.as_bytes()).expect("a good book");
    let mut naive = Naive::new(organ.clone());
    let mut counting = Counting::new(organ);
    for (number, &(action, answer)) in calls.iter().enumerate() {
        assert_eq!(naive.call(action), answer, "naive, call {number}: {action:?}");
        assert_eq!(counting.call(action), answer, "counting, call {number}: {action:?}");
    }
}

fn both(book: &str, line: &[u8]) -> String {
    let naive = listing(book.as_bytes(), line, Naive::new);
    assert_eq!(naive, listing(book.as_bytes(), line, Counting::new));
    String::from_utf8(naive).expect("a listing is ASCII")
}

#[test]
fn the_short_line() {
    let line = [0xBF, 0x00, 0x01, 0x90, 0x24, 0x40, 0x80, 0x24, 0x40, 0x24, 0x40];
    assert_eq!(both(ONE_STOP, &line), "(done 0)\n(done 1)\n(done 1)\n(fault 4)\n");
}

#[test]
fn books_without_an_organ() {
    let line = [0x90, 0x24, 0x40, 0x23, 0x40, 0x9F, 0x7F, 0x01];
    assert_eq!(both("", &line), "(fault 2)\n(fault 2)\n(done 0)\n");
    assert_eq!(both("(keys 0 61)\n(keys 0 61)\n", &line), "(fault 36 2)\n");
    assert_eq!(both("\n(wire 1 9999 0 0 0 0 0 0)\n", &line), "(fault 37 2)\n");
    assert_eq!(both(&"\n".repeat(65_537), &line), "(fault 31 0)\n");
}

#[test]
fn real_time_and_system_bytes() {
    let book = with_shift(0);
    assert_eq!(both(&book, &[0x90, 0xF8, 0x24, 0x40]), "(done 1)\n");
    assert_eq!(both(&book, &[0x90, 0xF1, 0x24, 0x40]), "");
}

#[test]
fn the_console_example() {
    let calls = [
        (press(5), Ok(1)),
        (press(5), Err(PlayFault::KeyDown)),
        (sustain(true), Ok(0)),
        (lift(5), Ok(0)),
        (press(5), Ok(0)),
        (lift(5), Ok(0)),
        (sustain(false), Ok(1)),
        (lift(5), Err(PlayFault::KeyUp)),
        (press(61), Err(PlayFault::Key)),
        (Action::Press { division: 16, key: 200 }, Err(PlayFault::Division)),
        (Action::Lift { division: 16, key: 200 }, Err(PlayFault::Division)),
        (Action::Sustain { division: 16, on: true }, Err(PlayFault::Division)),
        (Action::Clear { division: 255 }, Err(PlayFault::Division)),
        (press(60), Ok(1)),
    ];
    check(&with_shift(0), &calls);
}

#[test]
fn shifts_at_the_edges() {
    check(&with_shift(12), &[(press(60), Ok(1))]);
    check(&with_shift(13), &[(press(60), Ok(0)), (press(59), Ok(1))]);
    check(&with_shift(-12), &[(press(11), Ok(0)), (press(12), Ok(1))]);
    check(&with_shift(96), &[(press(0), Ok(0)), (press(60), Ok(0))]);
    check(&with_shift(-96), &[(press(0), Ok(0)), (press(60), Ok(0))]);
}

#[test]
fn two_stops_on_one_rank() {
    let book = with_stops("(wire 2 0 0 60 0 0 64 0)\n(wire 2 0 0 60 0 12 64 0)\n");
    let calls = [(press(0), Ok(2)), (press(12), Ok(1)), (lift(12), Ok(1)), (lift(0), Ok(2))];
    check(&book, &calls);
}

#[test]
fn pistons() {
    let book = with_stops("(wire 2 0 0 60 0 0 0 0)\n(wire 2 0 0 60 0 0 0 1)\n");
    let turn = |position| Action::Turn { knob: 0, position };
    let calls = [
        (Action::Recall { piston: 0 }, Err(PlayFault::NeverCaptured)),
        (Action::Recall { piston: 2 }, Err(PlayFault::Piston)),
        (Action::Capture { piston: 40 }, Err(PlayFault::Piston)),
        (Action::Capture { piston: 0 }, Ok(0)),
        (press(7), Ok(1)),
        (turn(1), Ok(0)),
        (Action::Capture { piston: 1 }, Ok(0)),
        (Action::Recall { piston: 0 }, Ok(0)),
        (Action::Recall { piston: 1 }, Ok(0)),
        (turn(2), Err(PlayFault::Position)),
        (Action::Turn { knob: 1, position: 200 }, Err(PlayFault::Knob)),
        (Action::Turn { knob: 64, position: 0 }, Err(PlayFault::Knob)),
        (Action::Cancel, Ok(0)),
        (Action::Clear { division: 0 }, Ok(1)),
    ];
    check(&book, &calls);
}

#[test]
fn sustain_and_clear() {
    let calls = [
        (press(1), Ok(1)),
        (sustain(true), Ok(0)),
        (press(2), Ok(1)),
        (lift(1), Ok(0)),
        (lift(2), Ok(0)),
        (sustain(true), Ok(0)),
        (press(2), Ok(0)),
        (sustain(false), Ok(1)),
        (sustain(true), Ok(0)),
        (Action::Clear { division: 0 }, Ok(1)),
        (lift(2), Err(PlayFault::KeyUp)),
        (press(3), Ok(1)),
        (lift(3), Ok(1)),
    ];
    check(&with_shift(0), &calls);
}

#[test]
fn without_a_coupler_nothing_speaks() {
    let book = "(keys 0 61)\n(rank 0 73)\n(wire 2 0 0 60 0 0 64 0)\n";
    check(book, &[(press(0), Ok(0))]);
}

#[test]
fn an_undefined_knob_stands_at_0() {
    let book = with_stops("(wire 2 0 0 60 0 0 9 0)\n(wire 2 0 0 60 0 1 9 1)\n");
    let turn = Action::Turn { knob: 9, position: 1 };
    check(&book, &[(press(0), Ok(1)), (turn, Err(PlayFault::Knob)), (Action::Cancel, Ok(0))]);
}

#[test]
fn the_relays_agree() {
    for seed in 0..150 {
        let case = case(seed);
        let naive = listing(&case.book, &case.line, Naive::new);
        let counting = listing(&case.book, &case.line, Counting::new);
        assert!(naive == counting, "seed {seed}");
    }
}
