//! The section of the cell reading.

use crate::page::Page;
use crate::pieces::hex;
use second::cells::cells;

const NONE: &str = "3 000000 000000 0,0,0,0,0,0,0,0,0,0,0,0,0,0,0,0,0,0";

/// Bytes, marks and what is stated of the answer.
type Case = (Vec<u8>, &'static [u8], &'static str);

fn rising() -> Vec<u8> {
    (30_001..=30_018u16).flat_map(u16::to_le_bytes).collect()
}

fn headed(cell: [u8; 2], rest: u8) -> Vec<u8> {
    let mut bytes = vec![rest; 36];
    bytes[..2].copy_from_slice(&cell);
    bytes
}

/// These cells over and over.
fn in_turn(cells: &[[u8; 2]]) -> Vec<u8> {
    cells.concat().repeat(18 / cells.len())
}

fn measured() -> [Case; 4] {
    [
        (rising(), &[0; 6], "0 03FFFF 000000"),
        (
            headed([0x10, 0xA4], 0x00),
            &[0; 6],
            "0 03FFFF 000000 42000,0,0,0,0,0,0,0,0,0,0,0,0,0,0,0,0,0",
        ),
        (
            in_turn(&[[0xFE, 0xFF]]),
            &[0; 6],
            "0 03FFFF 000000 65534,65534,65534,65534,65534,65534,65534,65534,65534,65534,65534,65534,65534,65534,65534,65534,65534,65534",
        ),
        (
            in_turn(&[[0x00, 0xFF], [0xFF, 0x00], [0x0F, 0xFF]]),
            &[0; 6],
            "0 03FFFF 000000 65280,255,65295,65280,255,65295,65280,255,65295,65280,255,65295,65280,255,65295,65280,255,65295",
        ),
    ]
}

fn cleared() -> [Case; 4] {
    [
        (
            headed([0xE8, 0x80], 0xFF),
            &[0, 1, 2, 0, 1, 2],
            "0 000001 000E06 33000,0,0,0,0,0,0,0,0,0,0,0,0,0,0,0,0,0",
        ),
        (
            vec![0xFF; 36],
            &[0; 6],
            "0 000000 03FFFF 0,0,0,0,0,0,0,0,0,0,0,0,0,0,0,0,0,0",
        ),
        (
            vec![0xFF; 36],
            &[1, 2, 1, 2, 1, 2],
            "0 000000 000000 0,0,0,0,0,0,0,0,0,0,0,0,0,0,0,0,0,0",
        ),
        (
            in_turn(&[[0xFF, 0xFF], [0xFE, 0xFF]]),
            &[0, 1, 0, 2, 0, 0],
            "0 02A082 015145 0,65534,0,0,0,0,0,65534,0,0,0,0,0,65534,0,65534,0,65534",
        ),
    ]
}

fn refused() -> [Case; 5] {
    [
        (rising(), &[0, 0, 0, 0, 0, 3], NONE),
        (vec![0xFF; 36], &[0, 0, 0, 0, 0, 3], NONE),
        (rising()[..35].to_vec(), &[0; 6], NONE),
        (rising(), &[0; 5], NONE),
        (Vec::new(), &[], NONE),
    ]
}

pub fn section(page: &mut Page) {
    for (groups, marks, stated) in measured().into_iter().chain(cleared()).chain(refused()) {
        let readings = cells(&groups, marks);
        let counts = readings.counts.map(|count| count.to_string()).join(",");
        page.line(
            &format!("cells {} {} :", hex(&groups), hex(marks)),
            &format!(
                "{} {:06X} {:06X} {counts}",
                readings.number, readings.valid, readings.unmeasured
            ),
            stated,
        );
    }
}
