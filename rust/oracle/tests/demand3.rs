//! Demand 3, "a single claim about its whole list of exchanges", over random lists.

use oracle::conforming::ConformingDisplay;
use oracle::line::{Fate, NoisyLine, Random, CARRY_LIMIT};
use oracle::message::{self, read_reply, read_request, Reply, Request};
use oracle::transfer::{State, Transfer};
use oracle::{Text, TABLE_CODE};

/// Whether the bytes begin with a piece message of that text's kind at the offset.
fn begins_with_fragment_at(bytes: &[u8], which: Text, offset: usize) -> bool {
    match (which, read_reply(bytes)) {
        (Text::Capabilities, Ok(Reply::Capabilities { offset: at, .. }))
        | (Text::Table, Ok(Reply::Table { offset: at, .. })) => usize::from(at) == offset,
        _ => false,
    }
}

/// The data of the piece that the bytes begin with.
fn data_of(bytes: &[u8]) -> &[u8] {
    match read_reply(bytes) {
        Ok(Reply::Capabilities { data, .. } | Reply::Table { data, .. }) => data,
        other => panic!("no piece: {other:?}"),
    }
}

/// How a display picks fragment lengths.
#[derive(Clone, Copy)]
enum Pick {
    Fixed(usize),
    Any,
    Small,
}

/// One list of exchanges, and what is supposed of it.
struct Setup {
    seed: u64,
    which: Text,
    length: usize,
    buffer_len: usize,
    budget: u64,
    exchanges: usize,
    /// The most exchanges that the line may spoil.
    spoils: usize,
    /// Spoiled replies and requests in a hundred.
    noise: usize,
    pick: Pick,
    /// Check the whole buffer after every exchange, not only at the end.
    thorough: bool,
}

/// What a list of exchanges came to.
struct Outcome {
    transfer: Transfer,
    spoiled: usize,
    fates: [usize; 8],
    answers: [usize; 19],
}

/// Runs the list and asserts the claims that hold of every list.
fn run(setup: &Setup) -> Outcome {
    let mut random = Random::new(setup.seed);
    let mut line = NoisyLine::new(random.bits(), setup.noise);
    let mut text = vec![0; setup.length];
    random.fill(&mut text);
    // Any two numbers before the first exchange.
    let any = |random: &mut Random| match random.below(4) {
        0 => random.below(setup.length + 40) as u64,
        1 => random.bits(),
        2 => u64::MAX - random.below(3) as u64,
        _ => random.below(5) as u64,
    };
    let (offset, length) = (any(&mut random), any(&mut random));
    let mut display = ConformingDisplay::new(setup.which, &text, offset, length);

    let (answer, mut transfer) = Transfer::begin(setup.which, setup.buffer_len, setup.budget);
    assert_eq!(answer, 0);
    assert!(transfer.room() >= setup.length);
    let mut buffer = vec![0; setup.buffer_len];
    random.fill(&mut buffer);
    let initial = buffer.clone();

    let mut accepted = 0;
    let mut counted = 0;
    let mut outcome = Outcome { transfer, spoiled: 0, fates: [0; 8], answers: [0; 19] };
    for exchange in 0..setup.exchanges {
        let open = transfer.state() == State::Open;
        let may_spoil = outcome.spoiled < setup.spoils;

        // Asking; sometimes with an output too short, which sends no request.
        let refuse = may_spoil && random.percent(setup.noise / 8);
        let mut request = [0xA5; 40];
        let out_len = if refuse { random.below(38) } else { random.between(38, 40) };
        let before = transfer;
        let (asked, request_len) = transfer.request(&mut request[..out_len]);
        assert_eq!(transfer, before);
        let expected = match (open, refuse) {
            (false, _) => 16,
            (true, true) => 1,
            (true, false) => 0,
        };
        assert_eq!(asked, expected);
        assert!(request[request_len..].iter().all(|&byte| byte == 0xA5));
        if asked == 0 {
            // "Any other builds the request for that text, its offset the
            // number of bytes accepted so far."
            let offset = accepted as u16;
            let wanted = match setup.which {
                Text::Capabilities => Request::Capabilities { offset },
                Text::Table => Request::TableRead { code: TABLE_CODE, offset },
            };
            assert_eq!(read_request(&request[..request_len]), Ok(wanted));
        } else {
            assert_eq!(request_len, 0);
        }

        // The display's turn: it acts on the request, or ignores it.
        let ignored = may_spoil && random.percent(setup.noise / 4);
        let mut reply = [0; 38];
        let reply_len = if asked == 0 && !ignored {
            let mut choose = |most: usize| match setup.pick {
                Pick::Fixed(size) => size.min(most),
                Pick::Any => random.between(1, most),
                Pick::Small => random.between(1, most.min(3)),
            };
            display.act(&request[..request_len], &mut choose, &mut reply)
        } else {
            0
        };
        let reply = &reply[..reply_len];

        // The line's turn.
        let mut came = [0; CARRY_LIMIT];
        let mut came_len = if may_spoil {
            let (fate, length) = line.carry(reply, &mut came);
            outcome.fates[fate as usize] += 1;
            length
        } else {
            came[..reply_len].copy_from_slice(reply);
            let length = random.between(reply_len, CARRY_LIMIT);
            random.fill(&mut came[reply_len..length]);
            length
        };
        let clean = reply_len > 0 && came[..came_len].starts_with(reply);
        if open && !clean && begins_with_fragment_at(&came[..came_len], setup.which, accepted) {
            // Supposed not to be: a piece at the very offset that is not the
            // display's reply. The line loses it instead.
            came_len = 0;
        }
        let came = &came[..came_len];
        if open && !clean {
            outcome.spoiled += 1;
            assert!(outcome.spoiled <= setup.spoils);
        }

        // Offering.
        let answer = transfer.receive(&mut buffer, came);
        outcome.answers[usize::from(answer)] += 1;
        if !open {
            assert_eq!(answer, 16);
            assert_eq!(transfer, before);
        } else {
            counted += 1;
            assert_ne!(answer, 16);
            assert_ne!(answer, 1);
            // "That the answer is then 0 is part of the claim."
            assert_eq!(answer == 0, clean, "exchange {exchange}: answer {answer}");
            if answer == 0 {
                let data = data_of(came);
                assert_eq!(transfer.state() == State::Done, data.is_empty());
                accepted += data.len();
            }
            if transfer.state() != State::Done {
                let spent = counted as u64 == setup.budget;
                let state = if spent { State::Exhausted } else { State::Open };
                assert_eq!(transfer.state(), state);
            }
        }
        assert_eq!(transfer.count(), counted);
        assert_eq!(transfer.offset(), accepted);
        if transfer.state() == State::Done {
            assert_eq!(accepted, setup.length);
        }
        if setup.thorough || exchange + 1 == setup.exchanges {
            // "The buffer begins with the bytes accepted so far, which are the
            // text's first ones, and is otherwise as it was."
            assert_eq!(buffer[..accepted], text[..accepted]);
            assert_eq!(buffer[accepted..], initial[accepted..]);
        }
    }
    outcome.transfer = transfer;
    outcome
}

fn random_setup(random: &mut Random, index: u64) -> Setup {
    let longest = match random.below(40) {
        0 => 4096,
        1..=5 => 600,
        6..=15 => 100,
        _ => 20,
    };
    let length = random.between(0, longest);
    let length = if longest == 4096 && random.percent(30) { 4096 } else { length };
    let buffer_len = match random.below(4) {
        0 | 1 => length,
        2 => length + random.below(50),
        _ => length + random.below(6000),
    };
    let pick = match random.below(5) {
        0 => Pick::Fixed(1),
        1 => Pick::Fixed(32),
        2 => Pick::Fixed(random.between(1, 32)),
        3 => Pick::Small,
        _ => Pick::Any,
    };
    Setup {
        seed: index * 0x1_0000 + 77,
        which: [Text::Capabilities, Text::Table][random.below(2)],
        length,
        buffer_len,
        budget: 0,
        exchanges: 0,
        spoils: 0,
        noise: [0, 5, 20, 50, 80, 100][random.below(6)],
        pick,
        thorough: longest <= 100,
    }
}

/// "If at most k exchanges are spoiled, and both the number of exchanges and
/// the budget are L + 1 + k or more, the run is done and has counted at most L + 1 + k."
#[test]
fn enough_exchanges_and_budget() {
    let mut random = Random::new(8);
    let mut fates = [0; 8];
    let mut answers = [0; 19];
    let mut tight = 0;
    for index in 0..20_000 {
        let mut setup = random_setup(&mut random, index);
        let most = [0, 3, 30, 200][random.below(4)];
        setup.spoils = random.between(0, most);
        let least = setup.length + 1 + setup.spoils;
        setup.budget = (least + [0, 0, 1, 500][random.below(4)]) as u64;
        setup.exchanges = least + [0, 0, 1, 20][random.below(4)];
        let outcome = run(&setup);
        assert_eq!(outcome.transfer.state(), State::Done);
        assert_eq!(outcome.transfer.offset(), setup.length);
        // k may be the number that were spoiled indeed.
        let bound = setup.length + 1 + outcome.spoiled;
        assert!(outcome.transfer.count() <= bound);
        if matches!(setup.pick, Pick::Fixed(1)) {
            assert_eq!(outcome.transfer.count(), bound);
            tight += 1;
        }
        for (sum, fate) in fates.iter_mut().zip(outcome.fates) {
            *sum += fate;
        }
        for (sum, answer) in answers.iter_mut().zip(outcome.answers) {
            *sum += answer;
        }
    }
    assert!(tight > 1000);
    for fate in [
        Fate::Delivered,
        Fate::Padded,
        Fate::Lost,
        Fate::Repeated,
        Fate::Cut,
        Fate::Flipped,
        Fate::Swapped,
        Fate::Noise,
    ] {
        assert!(fates[fate as usize] > 1000, "{fate:?}: {fates:?}");
    }
    for number in [0, 2, 3, 4, 5, 10, 16] {
        assert!(answers[number] > 100, "answer {number}: {answers:?}");
    }
}

/// The claims of every list: any budget, any number of exchanges, any noise.
#[test]
fn any_budget_and_any_list() {
    let mut random = Random::new(9);
    let mut states = [0; 4];
    for index in 0..20_000 {
        let mut setup = random_setup(&mut random, index + 1_000_000);
        let about = setup.length + 3;
        setup.spoils = match random.below(3) {
            0 => 0,
            1 => random.below(about),
            _ => usize::MAX,
        };
        setup.budget = match random.below(6) {
            0 => 0,
            1 => setup.length as u64,
            2 => 65_535,
            _ => random.below(2 * about) as u64,
        };
        setup.exchanges = random.below(2 * about);
        let outcome = run(&setup);
        states[outcome.transfer.state() as usize] += 1;
        // The same claim as above, wherever its condition holds.
        let enough = setup.length + 1 + outcome.spoiled;
        if setup.exchanges >= enough && setup.budget >= enough as u64 {
            assert_eq!(outcome.transfer.state(), State::Done);
            assert!(outcome.transfer.count() <= enough);
        }
    }
    for state in [State::Open, State::Done, State::Exhausted] {
        assert!(states[state as usize] > 1000, "{states:?}");
    }
    assert_eq!(states[State::Overflowed as usize], 0);
}

/// With one byte a fragment, a budget or a list one short of L + 1 + k is not enough.
#[test]
fn the_bound_is_met_exactly() {
    let mut random = Random::new(10);
    for index in 0..3000 {
        let mut setup = random_setup(&mut random, index + 2_000_000);
        setup.pick = Pick::Fixed(1);
        setup.noise = 100;
        setup.spoils = random.below(20);
        // All noise until the spoils are used up: as many as are allowed.
        let enough = setup.length + 1 + setup.spoils;
        setup.exchanges = enough;
        setup.budget = enough as u64;
        let outcome = run(&setup);
        assert_eq!(outcome.transfer.state(), State::Done);
        let exact = setup.length + 1 + outcome.spoiled;
        assert_eq!(outcome.transfer.count(), exact);
        setup.budget = exact as u64 - 1;
        assert_eq!(run(&setup).transfer.state(), State::Exhausted);
        setup.budget = enough as u64;
        setup.exchanges = exact - 1;
        assert_eq!(run(&setup).transfer.state(), State::Open);
    }
}

/// A piece at the very offset that is not the display's own reply to this
/// request breaks the end of the claim: such an exchange cannot count as spoiled.
#[test]
fn an_old_piece_at_the_very_offset() {
    let text = b"abcde";
    let mut display = ConformingDisplay::new(Text::Table, text, 0, 0);
    let (_, mut transfer) = Transfer::begin(Text::Table, 5, 65_535);
    let mut buffer = [0; 5];
    let (mut request, mut old, mut reply) = ([0; 38], [0; 38], [0; 38]);
    // The first reply has 3 bytes and is lost; the second has 5, but the first comes.
    let (_, n) = transfer.request(&mut request);
    let old_len = display.act(&request[..n], &mut |_| 3, &mut old);
    assert_eq!(transfer.receive(&mut buffer, &[]), 2);
    let (_, n) = transfer.request(&mut request);
    display.act(&request[..n], &mut |_| 5, &mut reply);
    assert_eq!(transfer.receive(&mut buffer, &old[..old_len]), 0);
    assert_eq!(transfer.offset(), 3);
    // From here the line is perfect, and the display goes to 0 for ever.
    for _ in 0..1000 {
        let (_, n) = transfer.request(&mut request);
        let length = display.act(&request[..n], &mut |_| 5, &mut reply);
        assert_eq!(transfer.receive(&mut buffer, &reply[..length]), 10);
    }
    assert_eq!((transfer.state(), &buffer), (State::Open, b"abc\0\0"));
}

/// Old pieces of the same text at any time do no harm to the bytes: what is
/// accepted is still the text's beginning, and done is still all of it.
#[test]
fn old_pieces_keep_the_bytes_right() {
    let mut random = Random::new(11);
    let mut done = 0;
    for _ in 0..5000 {
        let mut text = vec![0; random.below(60)];
        random.fill(&mut text);
        let which = [Text::Capabilities, Text::Table][random.below(2)];
        let mut display = ConformingDisplay::new(which, &text, random.bits(), random.bits());
        let (_, mut transfer) = Transfer::begin(which, text.len() + 2, 65_535);
        let mut buffer = vec![0xA5; text.len() + 2];
        let mut past: Vec<Vec<u8>> = vec![Vec::new()];
        for _ in 0..150 {
            let mut request = [0; 38];
            let (_, n) = transfer.request(&mut request);
            let mut reply = [0; 38];
            let length = if random.percent(70) {
                display.act(&request[..n], &mut |most| random.between(1, most), &mut reply)
            } else {
                0
            };
            past.push(reply[..length].to_vec());
            let offered = if random.percent(50) { &past[random.below(past.len())] } else { &past[past.len() - 1] };
            transfer.receive(&mut buffer, offered);
            let accepted = transfer.offset();
            assert_eq!(buffer[..accepted], text[..accepted]);
            assert!(buffer[accepted..].iter().all(|&byte| byte == 0xA5));
        }
        if transfer.state() == State::Done {
            assert_eq!(transfer.offset(), text.len());
            done += 1;
        }
    }
    assert!(done > 500, "{done}");
}

/// The conforming display's rules, one by one.
#[test]
fn conforming_display() {
    let text = b"abcdefgh";
    let ask = |display: &mut ConformingDisplay, offset: u16, size: usize| {
        let (mut request, mut reply) = ([0; 38], [0; 38]);
        let n = message::build_capabilities(offset, &mut request).expect("built");
        let length = display.act(&request[..n], &mut |_| size, &mut reply);
        reply[..length].to_vec()
    };
    let piece = |offset: u16, data: &[u8]| {
        let mut out = [0; 38];
        let length = message::build_capabilities_reply(offset, data, &mut out).expect("built");
        out[..length].to_vec()
    };
    let mut display = ConformingDisplay::new(Text::Capabilities, text, 7, u64::MAX);
    assert_eq!(ask(&mut display, 6, 3), piece(0, b"abc"));
    // At 0 the length is chosen anew; at the same offset above 0 it is kept.
    assert_eq!(ask(&mut display, 0, 2), piece(0, b"ab"));
    assert_eq!(ask(&mut display, 2, 4), piece(2, b"cdef"));
    assert_eq!(ask(&mut display, 2, 1), piece(2, b"cdef"));
    assert_eq!(ask(&mut display, 6, 32), piece(6, b"gh"));
    assert_eq!(ask(&mut display, 8, 32), piece(8, b""));
    assert_eq!(ask(&mut display, 8, 32), piece(8, b""));
    assert_eq!(ask(&mut display, 3, 0), piece(0, b"a"));
    assert_eq!(display.place(), (0, 1));
    // Other requests are ignored.
    let (mut request, mut reply) = ([0; 38], [0; 38]);
    let n = message::build_table_read(TABLE_CODE, 1, &mut request).expect("built");
    assert_eq!(display.act(&request[..n], &mut |_| 1, &mut reply), 0);
    assert_eq!(display.place(), (0, 1));
}
