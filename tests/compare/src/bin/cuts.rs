//! Texts that arrive in pieces: the stored texts and random ones, each cut in hundreds of ways and handed to the reader, pieces that must be
//! refused in between. Every answer is compared byte for byte with the stored one, with the rival's and with that of the text in pieces of 512
//! bytes; so is the whole state, before the end is announced and after. Then everything lent in a wrong size. Usage: cuts COUNT [SEED].
//! A run in which one of the kinds of cut, piece or refusal below never came fails: it is to be longer.
use compare::panel::{Had, Panel, Seen};
use compare::reader::{exported, stored, wrapped, By, Said, Turn};
use rival::pieces::Reader as Rival;
use rival::random::Dice;
use rival::texts::random_text;
use spoutbeetle::reader::{State, OUT, PIECE};

const KINDS: [&str; 19] = [
    "a last line without its end byte",
    "a long piece refused after the end",
    "a long piece refused between lines",
    "a long piece refused while a line waits",
    "a piece of 512 bytes",
    "a piece of one byte",
    "a piece refused after the end",
    "a piece with more than one answer",
    "a piece without an answer",
    "an empty piece",
    "an empty piece refused after the end",
    "cut after an end byte",
    "cut after the 254th byte of a line",
    "cut before an end byte",
    "cut between digit pairs",
    "cut further on in a line",
    "cut inside a digit pair",
    "lent in a wrong size",
    "the longest answer",
];

/// What is had of a text, before the end is announced and after.
type Both = [Had; 2];

/// 513 bytes of lines that would be answered.
fn long_piece() -> Vec<u8> {
    b"07\n".repeat(171)
}

/// The text in pieces of these lengths, with some eight pieces that are refused in between, and one after the end.
fn taken(name: &str, d: &mut Dice, text: &[u8], lengths: &[usize], seen: &mut Seen) -> Both {
    let long = long_piece();
    let mut panel = Panel::begin(name, text, seen);
    for &length in lengths {
        if d.once_in(1 + lengths.len() / 8) {
            panel.refused(&long);
        }
        panel.hand_over(length);
    }
    let before = panel.had.clone();
    panel.end();
    panel.refused(&long[..[0, 1, 3, PIECE, PIECE + 1][d.below(5)]]);
    [before, panel.had]
}

/// So many bytes in pieces of 512, and a shorter one at the end.
fn in_512s(bytes: usize) -> Vec<usize> {
    (0..bytes).step_by(PIECE).map(|at| PIECE.min(bytes - at)).collect()
}

/// Cut once, here.
fn cut_at(text: &[u8], at: usize) -> Vec<usize> {
    [in_512s(at), in_512s(text.len() - at)].concat()
}

/// Pieces of drawn lengths, up to `most`; now and then an empty one.
fn drawn(d: &mut Dice, text: &[u8], most: usize) -> Vec<usize> {
    let mut left = text.len();
    let mut lengths = vec![];
    while left > 0 {
        let length = if d.once_in(6) { 0 } else { (1 + d.below(most)).min(left) };
        lengths.push(length);
        left -= length;
    }
    lengths
}

/// Where the text is cut once: everywhere, or at so many places spread over it.
fn single_cuts(d: &mut Dice, text: &[u8], most: usize) -> Vec<usize> {
    if text.len() <= most {
        return (0..=text.len()).collect();
    }
    (0..most).map(|k| (k * text.len() + d.below(text.len())) / most).collect()
}

/// Cut before every end byte and after it, and inside every digit pair, as far as 512 bytes allow it.
fn at_lines_and_pairs(text: &[u8]) -> [Vec<usize>; 3] {
    let lines = text.split_inclusive(|&b| b == b'\n');
    let cut_lines = |cut: fn(usize) -> Vec<usize>| lines.clone().flat_map(|line| cut(line.len())).collect();
    [cut_lines(in_512s), cut_lines(|k| [in_512s(k - 1), vec![1]].concat()), cut_lines(|k| [vec![1], vec![2; (k - 1) / 2], vec![1; (k - 1) % 2]].concat())]
}

/// All ways to cut a text, some of them drawn. Singly it is cut everywhere, or at `most` places.
fn ways(d: &mut Dice, text: &[u8], most: usize) -> Vec<Vec<usize>> {
    let mut ways: Vec<_> = single_cuts(d, text, most).into_iter().map(|at| cut_at(text, at)).collect();
    ways.push(vec![1; text.len()]);
    ways.push([vec![0, 0], vec![1; text.len()], vec![0]].concat());
    ways.extend(at_lines_and_pairs(text));
    for most in [2, 3, 7, 20, 60, 254, PIECE] {
        ways.extend((0..3).map(|_| drawn(d, text, most)));
    }
    ways
}

/// The text in pieces of 512 bytes must be answered as the rival answers it, and leave its tables.
fn as_the_rival(name: &str, text: &[u8], [before, after]: &Both) {
    let mut said = vec![];
    let mut rival = Rival::begin(&mut said);
    text.chunks(PIECE).for_each(|piece| assert_eq!(rival.take(piece, &mut said), 0));
    let (desk, state) = (&rival.desk, &before.state);
    assert!(before.said == said, "{name}: the rival answers otherwise");
    assert!(state.nodes == desk.g.nodes && state.rows == desk.g.rows && state.scratch == desk.g.scratch, "{name}: the rival has other tables");
    assert_eq!((state.n, state.t, state.accepted.then_some(state.n0)), (desk.g.n, desk.g.t, desk.base), "{name}: the rival has other counts");
    assert_eq!((state.used, state.ended), (rival.line.len().min(255), false), "{name}");
    rival.end(&mut said);
    assert!(after.said == said && rival.take(b"", &mut said) == 17, "{name}: the rival ends otherwise");
    let over = State { line: vec![0; 255], used: 0, ended: true, ..before.state.clone() };
    assert!(after.state == over, "{name}: the end changes more than the line");
}

/// A text, cut in all ways. Answers how many there were.
fn compare(name: &str, d: &mut Dice, text: &[u8], stored: Option<&[u8]>, most: usize, seen: &mut Seen) -> usize {
    let whole = taken(name, d, text, &in_512s(text.len()), seen);
    as_the_rival(name, text, &whole);
    assert!(stored.is_none_or(|answers| answers == whole[1].said), "{name}: other answers than the stored ones");
    let ways = ways(d, text, most);
    for lengths in &ways {
        let cut = taken(name, d, text, lengths, seen);
        let how = &lengths[..lengths.len().min(40)];
        assert!(cut[0] == whole[0], "{name}: before the end, something else is had of pieces of {how:?} .. bytes");
        assert!(cut[1] == whole[1], "{name}: after the end, something else is had of pieces of {how:?} .. bytes");
    }
    ways.len()
}

/// What is lent, in a wrong size.
type Spoil = fn(&mut State, &mut Vec<u8>);
const LENT: [Spoil; 10] = [
    |s, _| s.line.truncate(254),
    |s, _| s.line.push(0),
    |s, _| s.nodes.truncate(2047),
    |s, _| s.nodes.extend([0; 4]),
    |s, _| s.rows.truncate(3071),
    |s, _| s.rows.extend([0; 3]),
    |s, _| s.scratch.truncate(6143),
    |s, _| s.scratch.push(0),
    |_, out| out.truncate(OUT - 1),
    |s, out| (s.line, s.nodes, s.rows, s.scratch, *out) = Default::default(),
];
/// And what is carried.
const CARRIED: [Spoil; 6] = [
    |s, _| s.used = 256,
    |s, _| s.used = usize::MAX,
    |s, _| s.n = 513,
    |s, _| s.n = usize::MAX,
    |s, _| s.t = 1025,
    |s, _| s.t = usize::MAX,
];

/// The call is refused as 1 and changes nothing; a begin that is refused carries on what a fresh reader does.
fn refused(turn: Turn, given: &State, lent: &[u8], by: By) {
    let (mut state, mut out) = (given.clone(), lent.to_vec());
    let said = by(turn, &mut state, &mut out);
    assert_eq!(said, Said { number: 1, taken: 0, written: 0 }, "{}", turn.name());
    let left = match turn {
        Turn::Begin => State { used: 0, ended: false, n: 0, t: 0, n0: 0, accepted: false, ..given.clone() },
        _ => given.clone(),
    };
    assert!(state == left && out == lent, "{} is refused as 1 and changes something", turn.name());
}

/// Every wrong size, before the end and after it, with pieces that are taken, and that are refused as 17 if all is lent in its size.
fn wrong_sizes(seen: &mut Seen) {
    let text = b"01000000000000000000010002\n0100000008";
    let mut none = Seen::new();
    let mut panel = Panel::begin("wrong sizes", text, &mut none);
    panel.hand_over(text.len());
    let waiting = panel.had.state.clone();
    panel.end();
    let long = long_piece();
    for given in [State::default(), waiting, panel.had.state] {
        for (k, spoil) in LENT.iter().chain(&CARRIED).enumerate() {
            let (mut state, mut out) = (given.clone(), vec![0x55; OUT]);
            spoil(&mut state, &mut out);
            let turns = [Turn::End, Turn::Take(b""), Turn::Take(b"07\n"), Turn::Take(&long[..PIECE]), Turn::Take(&long), Turn::Begin];
            for &turn in &turns[..if k < LENT.len() { 6 } else { 5 }] {
                refused(turn, &state, &out, exported);
                refused(turn, &state, &out, wrapped);
                *seen.entry("lent in a wrong size").or_default() += 1;
            }
        }
    }
}

/// 512 nodes and 1,024 triangles, shown; and a last line without its end byte.
fn fullest() -> Vec<u8> {
    let nodes = (0..512).map(|k| format!("01{:08x}{:08x}{:04x}{:04x}\n", k * 0x12345, -k, k * 128, 0xffff - k));
    let rows = (0..1024).map(|k| format!("02{:04x}{:04x}{:04x}\n", k, k * 17 % 1024, 0xffff - k));
    nodes.chain(rows).chain(["07\n07".to_string()]).collect::<String>().into()
}

fn main() {
    let mut words = std::env::args().skip(1);
    let count: u64 = words.next().map_or(20, |w| w.parse().expect("a count"));
    let first: u64 = words.next().map_or(1, |w| w.parse().expect("a seed"));
    let (mut seen, mut ways) = (Seen::new(), 0);
    wrong_sizes(&mut seen);
    ways += compare("the fullest tables", &mut Dice::new(first), &fullest(), None, 200, &mut seen);
    let stored = stored();
    for one in &stored {
        let most = if one.text.len() <= 2000 { 2000 } else { 300 };
        ways += compare(&one.name, &mut Dice::new(first), &one.text, Some(&one.answers), most, &mut seen);
    }
    for seed in first..first + count {
        let text = random_text(&mut Dice::new(seed));
        ways += compare(&format!("seed {seed}"), &mut Dice::new(seed), &text, None, 200, &mut seen);
    }
    KINDS.iter().for_each(|kind| println!("{kind}: {} times", seen.get(kind).unwrap_or(&0)));
    if KINDS.iter().any(|kind| !seen.contains_key(kind)) {
        println!("cuts: all agree, but one of these never came");
        std::process::exit(1);
    }
    let texts = format!("{} stored texts and {count} from seed {first}, cut in {ways} ways", stored.len());
    println!("cuts: {texts}, answered and held as when whole; {} refusals changed nothing", refusals(&seen));
}

/// How many refusals were looked at.
fn refusals(seen: &Seen) -> u64 {
    seen.iter().filter(|(kind, _)| kind.contains("refused") || kind.contains("wrong size")).map(|(_, times)| times).sum()
}
