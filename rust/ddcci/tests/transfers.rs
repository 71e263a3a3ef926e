//! Transfers over simulated noisy lines: step for step as the oracle's, with the claims of demand 3 asserted at the
//! end of each list of exchanges.
mod common;
use common::rounds;
use ddcci::{Refusal, Reply, State, TextKind, Transfer, Unfinished};
use oracle::conforming::ConformingDisplay;
use oracle::line::{NoisyLine, Random, CARRY_LIMIT};
use oracle::transfer as slow;
use oracle::Text;

fn same_state(ours: &Transfer<'_>, theirs: &slow::Transfer) {
    let state = match theirs.state() {
        slow::State::Open => State::Running,
        slow::State::Done => State::Done,
        slow::State::Exhausted => State::Exhausted,
        slow::State::Overflowed => State::Overflowed,
    };
    assert_eq!(
        (ours.state(), usize::from(ours.offset()), usize::from(ours.count())),
        (state, theirs.offset(), theirs.count())
    );
}

/// The display's text, how many exchanges there are at most, and how often in a hundred the line spoils one.
struct Conditions<'a> {
    kind: TextKind,
    text: &'a [u8],
    most: usize,
    noise: usize,
}

struct Run {
    exchanges: usize,
    corrupted: usize,
}

/// One list of exchanges; a fragment of the text at the very offset that is not the display's own reply is taken off
/// the line, as demand 3 supposes.
fn exchanges(
    r: &mut Random,
    Conditions { kind, text, most, noise }: Conditions<'_>,
    transfer: &mut Transfer<'_>,
    theirs: &mut slow::Transfer,
    buffer: &mut [u8],
) -> Run {
    let which = if kind == TextKind::Table { Text::Table } else { Text::Capabilities };
    let mut display = ConformingDisplay::new(which, text, r.bits() % 5000, r.bits() % 40);
    let mut line = NoisyLine::new(r.bits(), noise);
    let mut run = Run { exchanges: 0, corrupted: 0 };
    for _ in 0..most {
        let running = transfer.state() == State::Running;
        let request = transfer.request();
        let mut out = [0; 38];
        let (answer, length) = theirs.request(&mut out);
        match &request {
            Ok(bytes) => assert_eq!((answer, &out[..length]), (0, &bytes[..])),
            Err(refusal) => assert_eq!((refusal.number(), length), (answer, 0)),
        }
        let mut reply = [0; 38];
        let heard = !r.percent(noise / 3);
        let n = match (&request, heard) {
            (Ok(bytes), true) => display.act(bytes, &mut |most| 1 + r.below(most), &mut reply),
            _ => 0,
        };
        let mut came = [0; CARRY_LIMIT];
        let (_, mut m) = line.carry(&reply[..n], &mut came);
        let own = n > 0 && m >= n && came[..n] == reply[..n];
        let foreign = match Reply::read(&came[..m]) {
            Ok(Reply::TextFragment { offset, .. }) => kind == TextKind::Capabilities && offset == transfer.offset(),
            Ok(Reply::TableFragment { offset, .. }) => kind == TextKind::Table && offset == transfer.offset(),
            _ => false,
        };
        if foreign && !own {
            m = 0;
        }
        let answer = transfer.receive(&came[..m]);
        assert_eq!(answer.map_or_else(Refusal::number, |()| 0), theirs.receive(buffer, &came[..m]));
        same_state(transfer, theirs);
        assert_eq!(transfer.buffer(), buffer);
        if running && own {
            assert_eq!(answer, Ok(()), "the display's own reply is accepted");
        }
        if running && !own {
            run.corrupted += 1;
            assert!(answer.is_err());
        }
        run.exchanges += 1;
    }
    run
}

#[test]
fn demand_3_over_noisy_lines() {
    let mut r = Random::new(21);
    for _ in 0..rounds(3_000) {
        let length = if r.percent(90) { r.below(200) } else { r.below(4097) };
        let mut text = vec![0; length];
        r.fill(&mut text);
        let noise = [0, 5, 30, 60][r.below(4)];
        let kind = if r.percent(50) { TextKind::Capabilities } else { TextKind::Table };
        let most = length + 1 + r.below(length + 50);
        let budget = if r.percent(70) { most + r.below(10) } else { r.below(length + 20) };
        let mut ours = vec![0xEE; length + r.below(20)];
        let mut theirs = ours.clone();
        let before = ours.clone();
        let which = if kind == TextKind::Table { Text::Table } else { Text::Capabilities };
        let (answer, mut slow) = slow::Transfer::begin(which, theirs.len(), budget as u64);
        assert_eq!(answer, 0);
        let mut transfer = Transfer::begin(kind, &mut ours, budget).expect("a budget to 65,535 is accepted");
        let conditions = Conditions { kind, text: &text, most, noise };
        let run = exchanges(&mut r, conditions, &mut transfer, &mut slow, &mut theirs);

        let reached = usize::from(transfer.offset());
        assert_eq!(transfer.received_so_far(), &text[..reached], "the bytes accepted are the text's first ones");
        assert_eq!(&transfer.buffer()[reached..], &before[reached..], "the buffer is otherwise as it was");
        if transfer.state() == State::Done {
            assert_eq!(reached, length);
        }
        let enough = length + 1 + run.corrupted;
        if run.exchanges >= enough && budget >= enough {
            assert_eq!(transfer.state(), State::Done);
            assert!(usize::from(transfer.count()) <= enough);
        }
    }
}

#[test]
fn budget_of_l_and_of_l_and_1() {
    let text: Vec<u8> = (0..20).collect();
    for (budget, state) in [(20, State::Exhausted), (21, State::Done)] {
        let mut buffer = [0; 20];
        let mut transfer = Transfer::begin(TextKind::Table, &mut buffer, budget).unwrap();
        for _ in 0..30 {
            let at = usize::from(transfer.offset());
            let data = &text[at..(at + 1).min(20)];
            let reply = Reply::TableFragment { offset: at as u16, data }.to_bytes().unwrap();
            let _ = transfer.receive(&reply);
        }
        assert_eq!((transfer.state(), transfer.received_so_far()), (state, &text[..]));
    }
}

#[test]
fn budgets_and_closed_transfers() {
    let mut buffer = [7; 40];
    assert_eq!(Transfer::begin(TextKind::Table, &mut buffer, 65_536).err(), Some(Refusal::NotDeclarable));
    let mut transfer = Transfer::begin(TextKind::Table, &mut buffer, 0).unwrap();
    assert_eq!(transfer.state(), State::Exhausted);
    assert_eq!(transfer.request().err(), Some(Refusal::TransferClosed));
    assert_eq!(transfer.receive(&[]), Err(Refusal::TransferClosed));
    assert_eq!(transfer.count(), 0);
}

/// Runs a transfer on replies, one an exchange. Returns what it gives at the end, and the answer to each reply.
fn finished<'a>(buffer: &'a mut [u8], budget: usize, replies: &[&[u8]]) -> (Result<&'a [u8], Unfinished>, Vec<u8>) {
    let mut transfer = Transfer::begin(TextKind::Table, buffer, budget).unwrap();
    let answers = replies.iter().map(|reply| transfer.receive(reply).map_or_else(Refusal::number, |()| 0)).collect();
    (transfer.finish(), answers)
}

#[test]
fn a_text_is_handed_out_only_when_it_is_whole() {
    let first = Reply::TableFragment { offset: 0, data: b"12, 7, " }.to_bytes().unwrap();
    let second = Reply::TableFragment { offset: 7, data: b"31" }.to_bytes().unwrap();
    let end = Reply::TableFragment { offset: 9, data: b"" }.to_bytes().unwrap();
    let unfinished = |state, received, exchanges| Err(Unfinished { state, received, exchanges });
    let mut buffer = [0; 9];
    let whole: [&[u8]; 3] = [&first, &second, &end];
    assert_eq!(finished(&mut buffer, 3, &whole).0, Ok(&b"12, 7, 31"[..]));
    assert_eq!(finished(&mut buffer, 3, &whole[..2]).0, unfinished(State::Running, 9, 2));
    assert_eq!(finished(&mut buffer, 2, &whole).0, unfinished(State::Exhausted, 9, 2));
    assert_eq!(finished(&mut buffer, 0, &whole).0, unfinished(State::Exhausted, 0, 0));
    assert_eq!(finished(&mut buffer[..8], 9, &whole).0, unfinished(State::Overflowed, 7, 2));
    let said = finished(&mut buffer, 2, &whole).0.unwrap_err().to_string();
    let wanted =
        "the transfer is closed, its budget is used up: 9 bytes came in 2 exchanges, and not the end of the text";
    assert_eq!(said, wanted);
}

/// What demand 3 supposes and no program can see. "12" at offset 0 is 6E 85 E4 00 00 31 32 5C, of which the line
/// flips bit 0 in two data bytes: the checksum is the same, so the reader accepts it, and a transfer that says done
/// holds "03".
#[test]
fn two_flips_of_one_bit_pass_the_checksum() {
    let sent = Reply::TableFragment { offset: 0, data: b"12" }.to_bytes().unwrap();
    let end = Reply::TableFragment { offset: 2, data: b"" }.to_bytes().unwrap();
    assert_eq!(&sent[..], [0x6E, 0x85, 0xE4, 0x00, 0x00, 0x31, 0x32, 0x5C]);
    let flipped = [0x6E, 0x85, 0xE4, 0x00, 0x00, 0x30, 0x33, 0x5C];
    let mut buffer = [0; 8];
    assert_eq!(finished(&mut buffer, 9, &[&flipped, &end]), (Ok(&b"03"[..]), vec![0, 0]));
    // Each single flipped bit of this reply is refused.
    for bit in 0..8 * sent.len() {
        let mut once = sent.to_vec();
        once[bit / 8] ^= 1 << (bit % 8);
        let (text, answers) = finished(&mut buffer, 9, &[&once, &sent, &end]);
        assert_eq!(text, Ok(&b"12"[..]), "bit {bit}");
        assert!(answers[0] != 0 && answers[1..] == [0, 0], "bit {bit}: {answers:?}");
    }
}
