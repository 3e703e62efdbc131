//! Records: an item as bytes.

use crate::capture::pack;
use crate::frame::Frame;
use crate::reading::Item;

pub fn record(item: &Item) -> Vec<u8> {
    let mut bytes = vec![item.kind() as u8];
    match item {
        Item::Gap { start, length } => {
            bytes.extend(four(*start));
            bytes.extend(four(*length));
        }
        Item::Frame { frame, verdict } => {
            bytes.extend(four(frame.start));
            bytes.extend(four(frame.tail));
            bytes.push(control(frame));
            bytes.push(extended(frame));
            bytes.push(*verdict);
            bytes.extend(pack(&frame.d()));
        }
    }
    bytes
}

fn four(number: usize) -> [u8; 4] {
    u32::try_from(number).expect("four bytes").to_be_bytes()
}

fn control(frame: &Frame) -> u8 {
    let c = frame.c();
    let bits = match frame.kind {
        1 => [&c[..4], &c[5..9]].concat(),
        2..=4 => c[..4].to_vec(),
        5 | 6 => c[..5].to_vec(),
        _ => c[..3].to_vec(),
    };
    pack(&bits)[0]
}

fn extended(frame: &Frame) -> u8 {
    match frame.kind {
        1 => pack(&[&frame.xc()[..5], &frame.crc()].concat())[0],
        3 => 248,
        _ => 0,
    }
}
