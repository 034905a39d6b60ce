//! The cell reading around 65,535, which is not measured: in every cell, alone and among others, under every row of marks; and after
//! a clear.

use crate::beside;
use crate::states::sound;
use second::cells::Readings;

const ALL: u32 = 0x3FFFF;

/// Bytes of eighteen cells, each with its count.
fn groups(counts: impl Fn(usize) -> u16) -> Vec<u8> {
    (0..18)
        .flat_map(|cell| counts(cell).to_le_bytes())
        .collect()
}

/// Every row of six marks.
fn rows() -> impl Iterator<Item = [u8; 6]> {
    (0..729).map(|row| [1, 3, 9, 27, 81, 243].map(|place| (row / place % 3) as u8))
}

/// The cells of the groups whose mark is 0.
fn read_cells(marks: &[u8; 6]) -> u32 {
    (0..18)
        .filter(|cell| marks[cell / 3] == 0)
        .map(|cell| 1 << cell)
        .sum()
}

fn read(groups: &[u8], marks: &[u8; 6]) -> Readings {
    let readings = beside::cells(groups, marks);
    assert_eq!(readings.number, 0);
    assert_eq!(readings.valid & readings.unmeasured, 0);
    assert_eq!(readings.valid | readings.unmeasured, read_cells(marks));
    readings
}

#[test]
fn one_cell_under_every_row_of_marks() {
    for marks in rows() {
        for (cell, others) in (0..18).flat_map(|cell| [0, 65_534, 65_535].map(|rest| (cell, rest)))
        {
            for count in [0, 255, 65_279, 65_280, 65_295, 65_534, 65_535] {
                let bytes = groups(|at| if at == cell { count } else { others });
                let unmeasured = read(&bytes, &marks).unmeasured;
                let was_read = marks[cell / 3] == 0;
                assert_eq!((unmeasured >> cell) & 1 == 1, was_read && count == 65_535);
            }
        }
    }
    beside::ran("one cell under every row of marks");
}

/// Every choice of cells at 65,535, the others at 65,534.
#[test]
fn every_choice_of_cells() {
    for chosen in 0..=ALL {
        let bytes = groups(|cell| 65_534 + ((chosen >> cell) & 1) as u16);
        assert_eq!(read(&bytes, &[0; 6]).unmeasured, chosen);
        let marks = [0, 1, 2, 0, 1, 0];
        assert_eq!(read(&bytes, &marks).unmeasured, chosen & read_cells(&marks));
    }
    beside::ran("every choice of cells");
}

#[test]
fn every_count() {
    for count in 0..=u16::MAX {
        let readings = read(&groups(|_| count), &[0; 6]);
        assert_eq!(readings.valid == ALL, count < 65_535);
    }
    beside::ran("every count");
}

/// Every group is read, its bytes as they are stored, and no cell is valid.
#[test]
fn after_a_clear() {
    for n in 1..=16u32 {
        let devices = n as usize;
        let mut state = sound(vec![0x75; 109 * devices]);
        let mut frame = [0; 4];
        beside::write(n, 0x711, &[], &mut frame);
        beside::chain(n, &frame, &mut state, &mut [0; 4]);
        let mut all = vec![Vec::new(); devices];
        for code in [0x004, 0x006, 0x008, 0x00A, 0x009, 0x00B] {
            let (mut frame, mut reply) = (vec![0; 4 + 8 * devices], vec![0; 4 + 8 * devices]);
            beside::write(n, code, &[], &mut frame);
            beside::chain(n, &frame, &mut state, &mut reply);
            let (mut bytes, mut marks) = (vec![0; 6 * devices], vec![9; devices]);
            beside::read(n, code, &reply, &mut bytes, &mut marks);
            assert_eq!(
                (&bytes, &marks),
                (&vec![0xFF; 6 * devices], &vec![0; devices])
            );
            for (groups, group) in all.iter_mut().zip(bytes.chunks(6)) {
                groups.extend_from_slice(group);
            }
        }
        for groups in all {
            assert_eq!(read(&groups, &[0; 6]).unmeasured, ALL);
        }
    }
    beside::ran("cells after a clear");
}
