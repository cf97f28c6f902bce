//! The calls of the cell sheet: supplied ones with their answers, and what an
//! exact decimal printer says of any. The printer is Rust's own, `{:.4}`, which
//! rounds the exact value of a double, ties to the even digit.

/// A call of `node_sheet` with its answer: the number, and the bytes that are
/// written, from the front; all others stay as found.
pub struct Case {
    pub used: u64,
    pub nodes: Vec<f64>,
    pub room: usize,
    pub code: u32,
    pub written: Vec<u8>,
}

/// The places that a node list may have.
const MOST_PLACES: usize = 1_000_000;

/// A coordinate in 28 columns; a shown 0.0000 has no minus.
fn shown(x: f64) -> String {
    let text = format!("{x:.4}");
    let text = if text == "-0.0000" { "0.0000" } else { &text };
    format!("{text:>28}")
}

/// The line of a node, its line feed with it.
pub fn line(number: usize, x: f64, y: f64) -> String {
    format!("{number:>8}{}{}\n", shown(x), shown(y))
}

/// What must be answered, and the bytes of the sheet where it is 0.
pub fn answer(nodes: &[f64], used: u64, room: usize) -> (u32, Vec<u8>) {
    let places = nodes.len() / 2;
    if used > places as u64 || places > MOST_PLACES {
        return (3, Vec::new());
    }
    let used = used as usize;
    if nodes[..2 * used]
        .iter()
        .any(|x| !(-1_024.0..=1_024.0).contains(x))
    {
        return (3, Vec::new());
    }
    if room < 65 * used {
        return (17, Vec::new());
    }
    let lines = (0..used).map(|i| line(i, nodes[2 * i], nodes[2 * i + 1]));
    (0, lines.collect::<String>().into_bytes())
}

/// The supplied calls of FILE.cases with the answers of FILE.expect. Our own
/// answer must be the supplied one.
pub fn cases(path: &str) -> Vec<Case> {
    let text =
        |end: &str| std::fs::read_to_string(format!("{path}.{end}")).expect("a supplied file");
    let mut told = told(&text("expect")).into_iter();
    let cases: Vec<Case> = text("cases")
        .lines()
        .map(|call| case(call, told.next().expect("an answer")))
        .collect();
    assert!(told.next().is_none());
    cases
}

/// Each answer: its number, and its lines. Bytes left as found, which follow,
/// are those of the destination that no line takes.
fn told(text: &str) -> Vec<(u32, String)> {
    let mut answers: Vec<(u32, String)> = Vec::new();
    for row in text.lines() {
        if let Some(line) = row.strip_prefix('|') {
            let sheet = &mut answers.last_mut().expect("a line has its call").1;
            sheet.push_str(line.strip_suffix('|').expect("a line ends with a bar"));
            sheet.push('\n');
        } else if !row.starts_with('~') {
            let code = row.rsplit(' ').next().and_then(|n| n.parse().ok());
            answers.push((code.expect("a number"), String::new()));
        }
    }
    answers
}

fn case(call: &str, told: (u32, String)) -> Case {
    let mut words = call.split_whitespace();
    assert_eq!(words.next(), Some("sheet"));
    let mut next = || {
        words
            .next()
            .expect("a field")
            .parse::<u64>()
            .expect("a number")
    };
    let (used, length, room) = (next(), next() as usize, next() as usize);
    let mut nodes: Vec<f64> = words.flat_map(values).map(f64::from_bits).collect();
    assert!(nodes.len() <= length);
    nodes.resize(length, f64::NAN);
    let (code, written) = answer(&nodes, used, room);
    assert_eq!((code, &written), (told.0, &told.1.into_bytes()), "{call}");
    Case {
        used,
        nodes,
        room,
        code,
        written,
    }
}

/// The bits that a word of a call stands for: those of one double, or `r:SEED:N`,
/// N doubles within 1,024 either way.
fn values(word: &str) -> Vec<u64> {
    let Some(rest) = word.strip_prefix("r:") else {
        return vec![u64::from_str_radix(word, 16).expect("the bits of a double")];
    };
    let (seed, count) = rest.split_once(':').expect("a seed and a count");
    let number = |n: &str| n.parse::<u64>().expect("a number");
    (0..number(count))
        .map(|i| mixed(number(seed) + i) >> 11)
        .map(|k| (k as f64 / (1u64 << 42) as f64 - 1_024.0).to_bits())
        .collect()
}

fn mixed(n: u64) -> u64 {
    let z = (n + 1).wrapping_mul(0x9E37_79B9_7F4A_7C15);
    let z = (z ^ z >> 30).wrapping_mul(0xBF58_476D_1CE4_E5B9);
    let z = (z ^ z >> 27).wrapping_mul(0x94D0_49BB_1331_11EB);
    z ^ z >> 31
}

/// Doubles to try, in kinds by turns: at and one step beside odd multiples of
/// 1/32 mm and of half of 0.0001 mm, carries, subnormals and other small ones,
/// zeros, the ends, and any within 1,024 mm; both signs.
pub fn tried(seed: u64, i: u64) -> f64 {
    let m = mixed(seed.wrapping_mul(0x1_0000_0001).wrapping_add(i));
    let beside = |x: f64| f64::from_bits(x.to_bits().wrapping_add(m >> 32 & 3).wrapping_sub(1));
    let x = match i % 8 {
        0 | 1 => beside((2.0 * (m % 16_384) as f64 + 1.0) / 32.0),
        2 | 3 => beside((2.0 * (m % 10_240_000) as f64 + 1.0) / 20_000.0),
        4 => beside((m % 1_025) as f64),
        5 => f64::from_bits(m >> 12 | (m % 1_034) << 52),
        6 => [0.0, 1_024.0, f64::from_bits(1), 0.00005, 1_023.99995][(m % 5) as usize],
        _ => (m >> 11) as f64 / (1u64 << 43) as f64,
    };
    let x = if x <= 1_024.0 { x } else { 1_024.0 };
    if m >> 40 & 1 == 1 {
        -x
    } else {
        x
    }
}
