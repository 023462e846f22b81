//! Lines of other forms, and numbers outside their widths.

use super::Line;
use crate::rng::Rng;

/// Numbers at the edges of all widths, and others that no field takes.
const NUMBERS: [&str; 34] = [
    "-0",
    "00",
    "+1",
    "-",
    "",
    "7",
    "8",
    "255",
    "256",
    "-1",
    "4294967295",
    "4294967296",
    "9223372036854775807",
    "9223372036854775808",
    "-9223372036854775808",
    "-9223372036854775809",
    "18446744073709551615",
    "18446744073709551616",
    // Small ones, if bits past the width were dropped.
    "263",
    "4294967303",
    "18446744073709551623",
    "-18446744073709551609",
    "36893488147419103239",
    "340282366920938463463374607431768211463",
    "1000000000000000000000000000000",
    "01",
    "-01",
    "--1",
    "-+1",
    "1-",
    "0x1",
    "1.0",
    "1e3",
    "\u{2212}1",
];
const BYTES: &[u8] = b" \t\r\0\x0b\x0c\x1a\x7f\x80\xff-+0919/:ASTRx._,";

/// The longest good lines.
const LONGEST: [&str; 8] = [
    "T 18446744073709551615",
    "V 255 255 255",
    "D 255 4294967295",
    "S 255 255 255 -9223372036854775808 -9223372036854775808 4294967295 4294967295 \
     18446744073709551615",
    "E 255 255 255 -9223372036854775808 -9223372036854775808 4294967295 -9223372036854775808 \
     -9223372036854775808 18446744073709551615",
    "H 255 255 -9223372036854775808 -9223372036854775808 -9223372036854775808 4294967295 \
     4294967295",
    "G 255 255 255 -9223372036854775808",
    "R 18446744073709551615",
];

/// Damages some of the lines.
pub(super) fn list(rng: &mut Rng, lines: &mut [Line]) {
    let often = *rng.pick(&[2, 5, 12]);
    for line in lines {
        if rng.once_in(often) {
            damage(rng, line);
        }
    }
}

fn damage(rng: &mut Rng, line: &mut Line) {
    let place = rng.below(line.len() as u64 + 1) as usize;
    match rng.below(20) {
        13 => {
            // The longest good line, or one byte more.
            *line = rng.pick(&LONGEST).as_bytes().to_vec();
            if rng.once_in(2) {
                line.push(*rng.pick(b" 0x\r\0"));
            }
        }
        0 => {
            line.remove(place.min(line.len() - 1));
        }
        1 => line.insert(place, *rng.pick(BYTES)),
        2 => line.truncate(place),
        3 => line.clear(),
        4 => line.push(*rng.pick(b" \r\t\0")),
        5 => line.insert(0, *rng.pick(b" \r\t\0")),
        6 => {
            // Longer than any good line, mostly; the whole line may lie
            // behind what a reader of bounded lines would take for one.
            let byte = *rng.pick(b" 0123456789-\0\xff");
            let length = match rng.below(4) {
                0 => rng.between(1, 99),
                1 => rng.between(100, 5000),
                _ => (1 << rng.between(6, 12)) + rng.between(-2, 2),
            };
            let place = if rng.once_in(2) { 0 } else { place };
            line.splice(place..place, core::iter::repeat_n(byte, length as usize));
        }
        7 => {
            *line = (0..rng.below(40))
                .map(|_| (rng.next() as u8).max(b'\n' + 1))
                .collect()
        }
        8 => line[0] = *rng.pick(b"TVDSEHGRPQUtvdsehgr"),
        14 => {
            let place = place.min(line.len() - 1);
            line[place] = *rng.pick(BYTES);
        }
        15 => {
            // Another byte in the place of a space.
            let spaces = (0..line.len()).filter(|place| line[*place] == b' ');
            let spaces: Vec<usize> = spaces.collect();
            line[*rng.pick(&spaces)] = *rng.pick(BYTES);
        }
        kind => {
            let mut fields: Vec<Line> = line.split(|byte| *byte == b' ').map(Line::from).collect();
            let field = rng.below(fields.len() as u64) as usize;
            match kind {
                9 => {
                    fields.remove(field);
                }
                10 => fields.insert(field, rng.pick(&NUMBERS).as_bytes().to_vec()),
                11 => {
                    let sign = *rng.pick(b"-+0 \t");
                    fields[field].insert(0, sign);
                }
                _ => fields[field] = rng.pick(&NUMBERS).as_bytes().to_vec(),
            }
            *line = fields.join(&b' ');
        }
    }
}
