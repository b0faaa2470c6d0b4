//! A decoded command in words, and the decoder mode: one block in each line, one command in each line.

use crate::lines::from_hex;
use crate::panics;
use usbd_storage::subclass::scsi::peek::peek_parse_cb;
use usbd_storage::subclass::scsi::{PageControl, ScsiCommand};

/// Whether the Rust was built with the feature `extended_addressing`: without it READ (16) is unknown.
pub fn is_extended() -> bool {
    let mut read = [0; 16];
    read[0] = 0x88;
    !matches!(peek_parse_cb(&read), ScsiCommand::Unknown { .. })
}

pub fn text(command: &ScsiCommand) -> String {
    match command {
        ScsiCommand::Unknown { cmd } => format!("Unknown opcode {cmd}"),
        ScsiCommand::Inquiry {
            evpd,
            page_code,
            alloc_len,
        } => format!(
            "Inquiry evpd {} page {page_code} allocation {alloc_len}",
            u8::from(*evpd)
        ),
        ScsiCommand::TestUnitReady => "TestUnitReady".to_string(),
        ScsiCommand::RequestSense { desc, alloc_len } => {
            format!(
                "RequestSense desc {} allocation {alloc_len}",
                u8::from(*desc)
            )
        }
        ScsiCommand::ModeSense6 {
            dbd,
            page_control,
            page_code,
            subpage_code,
            alloc_len,
        } => format!(
            "ModeSense6 dbd {} control {} page {page_code} subpage {subpage_code} allocation {alloc_len}",
            u8::from(*dbd),
            page_control_number(*page_control)
        ),
        ScsiCommand::ModeSense10 {
            dbd,
            page_control,
            page_code,
            subpage_code,
            alloc_len,
        } => format!(
            "ModeSense10 dbd {} control {} page {page_code} subpage {subpage_code} allocation {alloc_len}",
            u8::from(*dbd),
            page_control_number(*page_control)
        ),
        ScsiCommand::ReadCapacity10 => "ReadCapacity10".to_string(),
        ScsiCommand::ReadCapacity16 { alloc_len } => {
            format!("ReadCapacity16 allocation {alloc_len}")
        }
        ScsiCommand::Read { lba, len } => format!("Read address {lba} blocks {len}"),
        ScsiCommand::Write { lba, len } => format!("Write address {lba} blocks {len}"),
        ScsiCommand::ReadFormatCapacities { alloc_len } => {
            format!("ReadFormatCapacities allocation {alloc_len}")
        }
        // The enum may get more commands in later versions; the pinned text has no more.
        _ => panic!("LOUD: a command without words"),
    }
}

fn page_control_number(control: PageControl) -> u8 {
    match control {
        PageControl::CurrentValues => 0,
        PageControl::ChangeableValues => 1,
        PageControl::DefaultValues => 2,
        PageControl::SavedValues => 3,
    }
}

pub fn answer(line: &str) -> String {
    let block = from_hex(line);
    // Rule 13: here the Rust panics because of an empty block.
    let command = panics::catch(panics::EMPTY_BLOCK, || peek_parse_cb(&block));
    command.map_or("13".to_string(), |command| text(&command))
}
