use crate::common::{in_edition, readings, run_text};
use rivandoze_check::reference::i2c::{Failure, I2c, State, GO};

const STATES: [State; 3] = [State::Idle, State::TxIdle, State::RxIdle];

/// Patterns of R/S, ACK, STOP, START, TX/RX, `-` for either, and where they end.
const START_ROWS: [(&str, State); 5] = [
    ("0-011", State::TxIdle),
    ("0-111", State::Idle),
    ("10011", State::RxIdle),
    ("10111", State::Idle),
    ("11011", State::RxIdle),
];
const TX_ROWS: [(&str, State); 3] = [
    ("0-001", State::TxIdle),
    ("--100", State::Idle),
    ("0-101", State::Idle),
];
const RX_ROWS: [(&str, State); 4] = [
    ("10001", State::RxIdle),
    ("--100", State::Idle),
    ("10101", State::Idle),
    ("11001", State::RxIdle),
];

fn rows(state: State) -> Vec<(&'static str, State)> {
    let own: &[(&str, State)] = match state {
        State::Idle => &[],
        State::TxIdle => &TX_ROWS,
        State::RxIdle => &RX_ROWS,
    };
    [own, &START_ROWS].concat()
}

fn row_end(state: State, receive: u8, cntl: u8) -> Option<State> {
    let bits = format!("{receive}{cntl:04b}");
    let fits = |row: &str| {
        row.chars()
            .zip(bits.chars())
            .all(|(r, b)| r == '-' || r == b)
    };
    let found: Vec<State> = rows(state)
        .into_iter()
        .filter(|(row, _)| fits(row))
        .map(|(_, end)| end)
        .collect();
    assert!(found.len() <= 1, "rows overlap");
    found.first().copied()
}

fn combinations() -> impl Iterator<Item = (State, u8, u8)> {
    STATES.into_iter().flat_map(|state| {
        (0..2).flat_map(move |receive| (0..16).map(move |cntl| (state, receive, cntl)))
    })
}

fn sequencer((state, receive, cntl): (State, u8, u8), acknowledged: bool) -> I2c {
    I2c {
        addr: receive,
        cntl,
        state,
        acknowledged,
        ..I2c::default()
    }
}

/// How many codes are allowed in each state.
fn allowed(acknowledged: bool) -> [usize; 3] {
    STATES.map(|wanted| {
        combinations()
            .filter(|&(state, ..)| state == wanted)
            .filter(|&code| sequencer(code, acknowledged).after_go().is_ok())
            .count()
    })
}

#[test]
fn thirty_six_of_ninety_six_are_allowed() {
    assert_eq!(combinations().count(), 96);
    assert_eq!(allowed(false), [7, 15, 14]);
    assert_eq!(allowed(false).iter().sum::<usize>(), 36);
}

#[test]
fn thirty_two_after_an_acknowledged_byte() {
    assert_eq!(allowed(true), [7, 15, 10]);
    assert_eq!(allowed(true).iter().sum::<usize>(), 32);
    let fallen: Vec<(State, u8, u8)> = combinations()
        .filter(|&code| sequencer(code, true).after_go() == Err(16))
        .collect();
    // STOP alone: TX/RX 0, START 0, STOP 1, with either ACK and R/S.
    let stops_alone = [(0, 0b0100), (0, 0b1100), (1, 0b0100), (1, 0b1100)];
    assert_eq!(
        fallen,
        stops_alone.map(|(receive, cntl)| (State::RxIdle, receive, cntl))
    );
}

#[test]
fn each_combination_ends_as_its_table_row_says() {
    for (state, receive, cntl) in combinations() {
        for addr in [receive, 0xFE | receive] {
            let i2c = sequencer((state, addr, cntl), false);
            let wanted = row_end(state, receive, cntl).ok_or(11);
            assert_eq!(i2c.after_go(), wanted, "{i2c:?}");
        }
    }
}

/// What is recalled after a GO: the ACK of a byte received without STOP, and otherwise nothing.
#[test]
fn each_combination_recalls_its_acknowledgment() {
    for code in combinations() {
        for before in [false, true] {
            let mut i2c = sequencer(code, before);
            let (ends, (_, receive, cntl)) = (i2c.after_go(), code);
            let answer = i2c.write(GO, 1, true);
            assert_eq!(answer, ends.map(|_| ()));
            if ends.is_ok() {
                let received = receive == 1 && cntl & 0b0101 == 0b0001;
                assert_eq!(i2c.acknowledged, received && cntl & 0b1000 != 0, "{code:?}");
            } else {
                assert_eq!(i2c, sequencer(code, before));
            }
        }
    }
}

fn text_into(state: State) -> &'static str {
    match state {
        State::Idle => "write select 0xF0000000\n",
        State::TxIdle => {
            "write select 0xF0000000\nwrite i2c addr 0\nwrite i2c cntl 3\nwrite i2c go 1\n"
        }
        State::RxIdle => {
            "write select 0xF0000000\nwrite i2c addr 1\nwrite i2c cntl 3\nwrite i2c go 1\n"
        }
    }
}

#[test]
fn each_combination_in_a_log() {
    for (state, receive, cntl) in combinations() {
        let before = text_into(state);
        let text = format!(
            "{before}read i2c state
            write i2c addr {receive}
            write i2c cntl {cntl}
            write i2c go 1
            read i2c state"
        );
        let run = run_text(&text);
        match row_end(state, receive, cntl) {
            Some(end) => {
                assert_eq!(run.refusal, 0);
                assert_eq!(run.readings, [state as u64, end as u64]);
            }
            None => {
                assert_eq!(run.refusal, 11);
                assert_eq!(run.readings, [state as u64]);
                assert_eq!(run.bank.i2c.state, state);
                assert_eq!(run.bank.i2c.cntl, cntl);
            }
        }
    }
}

#[test]
fn routing_away_keeps_the_state() {
    let text = "write select 0xF0000000
        write i2c addr 0x41
        write i2c cntl 3
        write i2c go 1
        write select 0
        read i2c state
        read i2c addr
        read i2c cntl
        write select 0xF0000000
        read i2c state";
    assert_eq!(readings(text), [2, 0x41, 3, 2]);
}

/// RX idle after a byte that was received by this code.
fn received(cntl: u8) -> String {
    format!("write select 0xF0000000\nwrite i2c addr 0x41\nwrite i2c cntl {cntl}\nwrite i2c go 1\n")
}

const ACKNOWLEDGED: u8 = 0b1011;
const NOT_ACKNOWLEDGED: u8 = 0b0011;
const STOP_ALONE: &str = "write i2c cntl 4\nwrite i2c go 1\nread i2c state\n";

#[test]
fn no_stop_after_an_acknowledged_read() {
    let refused = run_text(&(received(ACKNOWLEDGED) + STOP_ALONE));
    assert_eq!((refused.refusal, refused.applied), (16, 5));
    assert_eq!(refused.bank.i2c.state, State::RxIdle);
    assert!(refused.bank.i2c.acknowledged);
    let stopped = run_text(&(received(NOT_ACKNOWLEDGED) + STOP_ALONE));
    assert_eq!((stopped.refusal, stopped.readings), (0, vec![0]));
}

/// Each of these lies between an acknowledged byte and STOP alone.
#[test]
fn what_is_recalled_and_what_makes_it_false() {
    let after = |between: &str| run_text(&(received(ACKNOWLEDGED) + between + STOP_ALONE)).refusal;
    // A byte received without ACK, a byte sent, and what a STOP has ended.
    assert_eq!(after("write i2c cntl 1\nwrite i2c go 1\n"), 0);
    assert_eq!(
        after("write i2c addr 0x40\nwrite i2c cntl 11\nwrite i2c go 1\n"),
        0
    );
    let ended = "write i2c cntl 5\nwrite i2c go 1\n";
    assert_eq!(after(ended), 11);
    assert_eq!(
        after(&format!("{ended}write i2c cntl 3\nwrite i2c go 1\n")),
        0
    );
    // One more that is acknowledged, with START and without.
    assert_eq!(after("write i2c cntl 9\nwrite i2c go 1\n"), 16);
    assert_eq!(after("write i2c cntl 11\nwrite i2c go 1\n"), 16);
    // No GO at all.
    assert_eq!(after("write i2c addr 0x40\n"), 16);
    assert_eq!(after("write i2c cntl 1\n"), 16);
    assert_eq!(after("write select 0\nwrite select 0xF0000000\n"), 16);
    assert_eq!(after("ticks 100\nread i2c state\n"), 16);
}

/// 9 for what is not routed, then 11, then 16.
#[test]
fn tested_after_the_others() {
    let before = received(ACKNOWLEDGED);
    let refusal = |text: &str| run_text(&format!("{before}{text}")).refusal;
    assert_eq!(refusal("write i2c cntl 4\nwrite i2c go 2\n"), 8);
    assert_eq!(
        refusal("write i2c cntl 4\nwrite select 0\nwrite i2c go 1\n"),
        9
    );
    assert_eq!(refusal("write i2c cntl 6\nwrite i2c go 1\n"), 11);
    assert_eq!(refusal("write i2c cntl 4\nwrite i2c go 1\n"), 16);
}

// Slaves that do not answer.

/// What fails, word for word from the paper: nothing, the address or the data.
fn failing(receive: u8, cntl: u8, answer: Option<u8>) -> Failure {
    let answer = answer.unwrap_or(0b11);
    let (start, byte) = (cntl & 0b0010 != 0, cntl & 0b0001 != 0);
    let address_fails = start && answer & 0b01 == 0;
    let data_fails = byte && receive == 0 && answer & 0b10 == 0;
    match (address_fails, data_fails) {
        (true, _) => Failure::Address,
        (false, true) => Failure::Data,
        (false, false) => Failure::None,
    }
}

const ANSWERS: [Option<u8>; 5] = [None, Some(0), Some(1), Some(2), Some(3)];

#[test]
fn each_combination_with_each_answer() {
    for code in combinations() {
        let (state, receive, cntl) = code;
        for (answer, acknowledged) in ANSWERS.into_iter().flat_map(|a| [(a, false), (a, true)]) {
            let before = I2c {
                answer,
                failure: Failure::Data,
                ..sequencer(code, acknowledged)
            };
            let mut i2c = before.clone();
            let end = match (i2c.write(GO, 1, true), row_end(state, receive, cntl)) {
                (Ok(()), Some(end)) => end,
                // A refused GO leaves all, also the answer.
                (Err(_), _) => {
                    assert_eq!(i2c, before);
                    continue;
                }
                (Ok(()), None) => panic!("{before:?} is allowed"),
            };
            let failure = failing(receive, cntl, answer);
            assert_eq!((i2c.answer, i2c.failure), (None, failure), "{before:?}");
            if failure == Failure::Address {
                assert_eq!((i2c.state, i2c.acknowledged), (State::Idle, false));
            } else {
                let received = end == State::RxIdle && cntl & 0b1000 != 0;
                assert_eq!((i2c.state, i2c.acknowledged), (end, received));
            }
        }
    }
}

/// Without an answer, and with one that acknowledges all, edition 2 is edition 1.
#[test]
fn all_is_acknowledged_unless_it_is_told() {
    for code in combinations() {
        let ends = [None, Some(3)].map(|answer| {
            let mut i2c = I2c {
                answer,
                ..sequencer(code, false)
            };
            let given = i2c.write(GO, 1, true);
            (given, i2c.state, i2c.acknowledged, i2c.failure)
        });
        assert_eq!(ends[0], ends[1]);
        assert_eq!(ends[0].3, Failure::None);
    }
}

const SEND: &str = "write i2c addr 0x40\nwrite i2c cntl 3\n";
const GO_AND_LOOK: &str = "write i2c go 1\nread i2c state\nread i2c failure\n";

fn answered(text: &str) -> Vec<u64> {
    let text = format!("write select 0xF0000000\n{text}");
    readings(&in_edition(2, &text))
}

#[test]
fn each_failure_is_read() {
    for (answer, state, failure) in [(3, 1, 0), (2, 0, 1), (1, 1, 2), (0, 0, 1)] {
        let text = format!("read i2c failure\n{SEND}answer i2c {answer}\n{GO_AND_LOOK}");
        assert_eq!(answered(&text), [0, state, failure], "answer {answer}");
    }
}

#[test]
fn an_answer_is_used_up_by_the_next_go() {
    let send_on = "write i2c cntl 1\n";
    let text = format!("answer i2c 1\n{SEND}{GO_AND_LOOK}{send_on}{GO_AND_LOOK}");
    assert_eq!(answered(&text), [1, 2, 1, 0]);
    // By STOP alone too, whose failure is none.
    let stop = "write i2c cntl 4\n";
    let text = format!("{SEND}{GO_AND_LOOK}answer i2c 0\n{stop}{GO_AND_LOOK}{SEND}{GO_AND_LOOK}");
    assert_eq!(answered(&text), [1, 0, 0, 0, 1, 0]);
}

#[test]
fn a_second_answer_replaces_the_first() {
    for (first, last) in [(0, 3), (3, 0), (2, 1)] {
        let text = format!("{SEND}answer i2c {first}\nanswer i2c {last}\n{GO_AND_LOOK}");
        let alone = format!("{SEND}answer i2c {last}\n{GO_AND_LOOK}");
        assert_eq!(answered(&text), answered(&alone));
    }
}

#[test]
fn an_answer_waits_for_its_go() {
    let between = "write i2c addr 0x40
        write i2c cntl 3
        write select 0
        ticks 100
        read i2c failure
        write select 0xF0000000\n";
    let text = format!("answer i2c 2\n{between}{GO_AND_LOOK}");
    assert_eq!(answered(&text), [0, 0, 1]);
}

/// The address with START alone, the data when sending alone.
#[test]
fn what_each_bit_is_about() {
    let send_on = "write i2c cntl 1\nanswer i2c 2\n";
    let text = format!("{SEND}{GO_AND_LOOK}{send_on}{GO_AND_LOOK}");
    assert_eq!(answered(&text), [1, 0, 1, 0]);
    let receive = "write i2c addr 0x41\nwrite i2c cntl 3\nanswer i2c 1\n";
    assert_eq!(answered(&format!("{receive}{GO_AND_LOOK}")), [2, 0]);
    let receive = "write i2c addr 0x41\nwrite i2c cntl 3\nanswer i2c 2\n";
    assert_eq!(answered(&format!("{receive}{GO_AND_LOOK}")), [0, 1]);
}

/// A byte that is sent with STOP and not acknowledged ends idle all the same.
#[test]
fn data_that_fails_ends_as_its_code() {
    let last = "write i2c addr 0x40\nwrite i2c cntl 7\nanswer i2c 1\n";
    assert_eq!(answered(&format!("{last}{GO_AND_LOOK}")), [0, 2]);
}

#[test]
fn each_bank_has_slaves_of_its_own() {
    let text = "bank 1 write select 0xF0000000
        bank 1 write i2c cntl 3
        write i2c cntl 3
        answer i2c 0
        bank 1 write i2c go 1
        bank 1 read i2c failure
        bank 1 answer i2c 1
        write i2c go 1
        read i2c failure
        bank 1 read i2c failure";
    assert_eq!(answered(text), [0, 1, 0]);
}

/// In edition 1 there is neither kind 5 nor register 4.
#[test]
fn edition_1_knows_nothing_of_it() {
    let refusal = |text: &str| run_text(&format!("write select 0xF0000000\n{text}")).refusal;
    for answer in [0, 3, 4, u64::MAX] {
        assert_eq!(refusal(&format!("answer i2c {answer}")), 7);
    }
    assert_eq!(refusal("read i2c failure"), 7);
    assert_eq!(refusal("write i2c failure 0"), 7);
}

#[test]
fn what_an_answer_is_refused_by() {
    let refusal = |text: &str| run_text(&in_edition(2, text)).refusal;
    let routed = |text: &str| refusal(&format!("write select 0xF0000000\n{text}"));
    for answer in 0..4 {
        assert_eq!(routed(&format!("answer i2c {answer}")), 0);
        assert_eq!(refusal(&format!("answer i2c {answer}")), 9);
        assert_eq!(routed(&format!("bank 1 answer i2c {answer}")), 9);
        assert_eq!(routed(&format!("bank 2 answer i2c {answer}")), 7);
    }
    for bit in 2..64 {
        assert_eq!(routed(&format!("answer i2c {}", 1u64 << bit)), 8);
        assert_eq!(refusal(&format!("answer i2c {}", 1u64 << bit)), 8);
    }
    for byte in 1..=3 {
        for value in 1..=u8::MAX {
            // The block, which is 3, the channel and the register.
            let mut bytes = [5, 3, 0, 0];
            bytes[byte] ^= value;
            let [kind, block, channel, register] = bytes;
            let zeros = "00 ".repeat(12);
            let raw = format!("raw {kind:02X} {block:02X} {channel:02X} {register:02X} {zeros}");
            assert_eq!(routed(&raw), 7, "{raw}");
        }
    }
    assert_eq!(routed("write i2c failure 0"), 7);
    assert_eq!(refusal("read i2c failure"), 0);
}
