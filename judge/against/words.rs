//! Decoded commands in the words of judge/oracle/README.md.

use souklavanh::{PageControl, ScsiCommand};

pub fn of(command: &ScsiCommand) -> String {
    match *command {
        ScsiCommand::Unknown { cmd } => format!("Unknown opcode {cmd}"),
        ScsiCommand::Inquiry {
            evpd,
            page_code,
            alloc_len,
        } => format!(
            "Inquiry evpd {} page {page_code} allocation {alloc_len}",
            u8::from(evpd)
        ),
        ScsiCommand::TestUnitReady => "TestUnitReady".to_string(),
        ScsiCommand::RequestSense { desc, alloc_len } => {
            format!(
                "RequestSense desc {} allocation {alloc_len}",
                u8::from(desc)
            )
        }
        ScsiCommand::ModeSense6 {
            dbd,
            page_control,
            page_code,
            subpage_code,
            alloc_len,
        } => {
            let fields = mode_sense(dbd, page_control, page_code, subpage_code);
            format!("ModeSense6 {fields} allocation {alloc_len}")
        }
        ScsiCommand::ModeSense10 {
            dbd,
            page_control,
            page_code,
            subpage_code,
            alloc_len,
        } => {
            let fields = mode_sense(dbd, page_control, page_code, subpage_code);
            format!("ModeSense10 {fields} allocation {alloc_len}")
        }
        ScsiCommand::ReadCapacity10 => "ReadCapacity10".to_string(),
        ScsiCommand::ReadCapacity16 { alloc_len } => {
            format!("ReadCapacity16 allocation {alloc_len}")
        }
        ScsiCommand::Read { lba, len } => format!("Read address {lba} blocks {len}"),
        ScsiCommand::Write { lba, len } => format!("Write address {lba} blocks {len}"),
        ScsiCommand::ReadFormatCapacities { alloc_len } => {
            format!("ReadFormatCapacities allocation {alloc_len}")
        }
    }
}

fn mode_sense(dbd: bool, control: PageControl, page: u8, subpage: u8) -> String {
    let (dbd, control) = (u8::from(dbd), control as u8);
    format!("dbd {dbd} control {control} page {page} subpage {subpage}")
}
