//! Random call logs: good ones, and those with one damage.

use second::generator::Generator;

/// How many lines a log has, and whether one of them is damaged.
#[derive(Debug)]
pub struct Kind {
    pub lines: usize,
    pub damaged: bool,
}

impl Kind {
    /// Mostly short logs; every thousandth has as many lines as a log may have, or one more.
    pub fn of(number: u64, generator: &mut Generator) -> Kind {
        let lines = match number % 1000 {
            0 => 65_535,
            500 => 65_536,
            1..=20 => generator.between(1_000, 4_000) as usize,
            _ => generator.below(24) as usize,
        };
        Kind {
            lines,
            damaged: generator.below(2) == 0,
        }
    }
}

pub fn random_log(kind: &Kind, generator: &mut Generator) -> Vec<u8> {
    let mut lines: Vec<Vec<u8>> = (0..kind.lines).map(|_| good_line(generator)).collect();
    if kind.damaged {
        damage(&mut lines, generator);
    }
    lines.concat()
}

fn line(slot: u64, dir: u64, bits: u64, blocks: u64, code: u64) -> Vec<u8> {
    format!("slot={slot} dir={dir} bits={bits} blocks={blocks} code={code}\n").into_bytes()
}

fn good_line(generator: &mut Generator) -> Vec<u8> {
    if generator.below(4) == 0 {
        let slot = edge(generator, &[0, 1, 9, 10, 32, 33, 99, 65_535]);
        let dir = edge(generator, &[0, 1, 2, 3, 65_535]);
        return line(slot, dir, 0, 0, generator.between(1, 27));
    }
    let (slot, dir) = (generator.between(1, 32), generator.between(1, 2));
    let blocks = generator.between(1, 33);
    let most = (256 * blocks).min(8_288);
    let (bits, blocks) = match generator.below(5) {
        0 => (0, 0),
        1 => (most, blocks),
        2 => (1, blocks),
        _ => (generator.between(1, most), blocks),
    };
    line(slot, dir, bits, blocks, 0)
}

/// One of these, or any number of 16 bits.
fn edge(generator: &mut Generator, edges: &[u64]) -> u64 {
    if generator.below(2) == 0 {
        edges[generator.below(edges.len() as u64) as usize]
    } else {
        generator.below(65_536)
    }
}

/// A line in form that the rules refuse, or one just inside them.
fn hard_line(generator: &mut Generator) -> Vec<u8> {
    let code = edge(generator, &[0, 0, 0, 1, 27, 28]);
    let slot = edge(generator, &[0, 1, 32, 33, 65_535, 65_536]);
    let dir = edge(generator, &[0, 1, 2, 3]);
    let blocks = edge(generator, &[0, 1, 32, 33, 34]);
    let bits = edge(
        generator,
        &[0, 1, 256 * blocks, 256 * blocks + 1, 8_288, 8_289],
    );
    line(slot, dir, bits, blocks, code)
}

fn damage(lines: &mut Vec<Vec<u8>>, generator: &mut Generator) {
    let at = generator.below(lines.len() as u64 + 1) as usize;
    if at == lines.len() {
        let text = hard_line(generator);
        lines.push(text);
        return;
    }
    let text = &mut lines[at];
    let place = generator.below(text.len() as u64) as usize;
    match generator.below(9) {
        0 => text[place] = generator.word() as u8,
        1 => text[place] ^= 1 << generator.below(8),
        2 => drop(text.remove(place)),
        3 => text.insert(place, b"0 =\n\r19"[generator.below(7) as usize]),
        4 => text.truncate(place),
        5 => text.clear(),
        6 => text.push(b'\n'),
        7 => text.insert(place, text[place]),
        _ => *text = hard_line(generator),
    }
}
