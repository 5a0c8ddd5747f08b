//! The month sheet of a call log (document 02, [13]), from the document's text: the log is split at its line ends, each line is
//! compared with what its own numbers would print, and the sums are taken over a list of calls.

const MOST_LINES: usize = 65_535;
const LARGEST_NUMBER: u64 = 65_535;
const LARGEST_CODE: u64 = 27;
const NAMES: [&str; 5] = ["slot", "dir", "bits", "blocks", "code"];

struct Call {
    slot: u64,
    dir: u64,
    bits: u64,
    blocks: u64,
    code: u64,
}

/// What the program `month` prints of a log.
pub fn month_sheet(log: &[u8]) -> Vec<u8> {
    match calls_of(log) {
        Ok(calls) => sheet(&calls),
        Err(line) => format!("refused=27 line={line}\n").into_bytes(),
    }
}

/// The calls of a log, or the number of the first bad line.
fn calls_of(log: &[u8]) -> Result<Vec<Call>, usize> {
    let mut lines: Vec<&[u8]> = log.split(|&b| b == b'\n').collect();
    let unended = lines.pop().is_some_and(|last| !last.is_empty());
    let mut calls = Vec::new();
    for (index, line) in lines.iter().enumerate() {
        match read_line(line) {
            Some(call) if index < MOST_LINES && allowed(&call) => calls.push(call),
            _ => return Err(index + 1),
        }
    }
    if unended {
        return Err(lines.len() + 1);
    }
    Ok(calls)
}

/// A line without its end, if it is in form.
fn read_line(line: &[u8]) -> Option<Call> {
    let text = std::str::from_utf8(line).ok()?;
    let mut numbers = Vec::new();
    let parts: Vec<&str> = text.split(' ').collect();
    if parts.len() != NAMES.len() {
        return None;
    }
    for (part, name) in parts.iter().zip(NAMES) {
        let digits = part.strip_prefix(name)?.strip_prefix('=')?;
        let number: u64 = digits.parse().ok()?;
        if number.to_string() != digits || number > LARGEST_NUMBER {
            return None;
        }
        numbers.push(number);
    }
    let code = numbers[4];
    (code <= LARGEST_CODE).then(|| Call {
        slot: numbers[0],
        dir: numbers[1],
        bits: numbers[2],
        blocks: numbers[3],
        code,
    })
}

fn allowed(call: &Call) -> bool {
    if call.code != 0 {
        return call.bits == 0 && call.blocks == 0;
    }
    let outside = !(1..=32).contains(&call.slot) || (call.dir != 1 && call.dir != 2);
    let too_much = call.bits > 8_288 || call.blocks > 33 || call.bits > 256 * call.blocks;
    let blocks_for_nothing = call.bits == 0 && call.blocks > 0;
    !(outside || too_much || blocks_for_nothing)
}

fn sheet(calls: &[Call]) -> Vec<u8> {
    let accepted: Vec<&Call> = calls.iter().filter(|call| call.code == 0).collect();
    let all = sums(&accepted);
    let primes = primes_of(all.0);
    let mut text = String::new();
    for slot in 1..=32 {
        for dir in 1..=2 {
            let own: Vec<&Call> = accepted
                .iter()
                .copied()
                .filter(|call| call.slot == slot && call.dir == dir)
                .collect();
            let (bits, blocks) = sums(&own);
            let (top, bottom) = lowest(bits, all.0, &primes);
            text += &format!(
                "slot={slot} dir={dir} calls={} bits={bits} blocks={blocks} share={top}/{bottom}\n",
                own.len()
            );
        }
    }
    for code in 1..=LARGEST_CODE {
        let count = calls.iter().filter(|call| call.code == code).count();
        text += &format!("code={code} count={count}\n");
    }
    text += &format!(
        "lines={} calls={} bits={} blocks={}\n",
        calls.len(),
        accepted.len(),
        all.0,
        all.1
    );
    text.into_bytes()
}

fn sums(calls: &[&Call]) -> (u64, u64) {
    let bits = calls.iter().map(|call| call.bits).sum();
    let blocks = calls.iter().map(|call| call.blocks).sum();
    (bits, blocks)
}

/// The primes of a number, each as often as it divides it.
fn primes_of(number: u64) -> Vec<u64> {
    let mut primes = Vec::new();
    let mut rest = number;
    let mut factor = 2;
    while factor * factor <= rest {
        if rest % factor == 0 {
            primes.push(factor);
            rest /= factor;
        } else {
            factor += 1;
        }
    }
    if rest > 1 {
        primes.push(rest);
    }
    primes
}

/// The fraction in lowest terms: each prime of the whole is taken out of both, as often as it can be.
fn lowest(part: u64, whole: u64, primes: &[u64]) -> (u64, u64) {
    if part == 0 {
        return (0, 1);
    }
    let reduce = |(top, bottom): (u64, u64), prime: &u64| {
        if top % prime == 0 && bottom % prime == 0 {
            (top / prime, bottom / prime)
        } else {
            (top, bottom)
        }
    };
    primes.iter().fold((part, whole), reduce)
}
