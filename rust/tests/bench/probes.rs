//! Calls that have to be refused and that no bench file can make, on copies of a device: every call with a record that
//! breaks one of document 01's rules, for each rule; a poll with a packet buffer that is too short or a packet that is too
//! long; a status byte above 2; room that does not have the length of a command; and a command step that is told another number
//! than 0 or 1.

use super::guarded::Guarded;
use super::layout;
use super::replica::{PACKET_BUFFER, Replica};
use super::rules::{RULES, Rule};
use super::{Checked, require};
use souklavanh::ffi::COMMAND_NUMBERS;
use souklavanh::{CommandStatus, Device, Endpoints, Error};

type Call = (&'static str, fn(&mut Replica) -> u64);

/// Every call, with arguments that are good for a whole record. Only the last three would be refused for another reason, or
/// would do nothing: 10 comes first.
const CALLS: &[Call] = &[
    ("poll", |replica| replica.poll(PACKET_BUFFER, 8, 8)),
    ("set_status", |replica| replica.set_status(1)),
    ("read_data", Replica::read_data),
    ("write_data", Replica::write_data),
    ("try_write_data_all", Replica::try_write_data_all),
    ("reset", Replica::reset),
    ("control A1 FF", |replica| replica.control(0xA1, 0xFF)),
    ("control A1 FE", |replica| replica.control(0xA1, 0xFE)),
    ("command", |replica| replica.command(layout::BLOCK_BYTES)),
    ("command step", |replica| {
        replica.command_step(COMMAND_NUMBERS)
    }),
    ("command step told 0", |replica| {
        replica.command_step_told(0, COMMAND_NUMBERS)
    }),
    ("command step told 1", |replica| {
        replica.command_step_told(1, COMMAND_NUMBERS)
    }),
    ("poll with no packet buffer", |replica| {
        replica.poll(0, 8, 8)
    }),
    ("set_status 255", |replica| replica.set_status(255)),
    ("control 21 FF", |replica| replica.control(0x21, 0xFF)),
];

/// A call that is refused because of its arguments, for a packet size, with its answer.
type Refused = (&'static str, u64, fn(&mut Replica, usize) -> u64);

const ON_WHOLE: &[Refused] = &[
    ("no packet buffer", 11, |replica, _| replica.poll(0, 0, 0)),
    ("a packet buffer of P - 1", 11, |replica, p| {
        replica.poll(p - 1, p, p)
    }),
    ("a first packet of P + 1", 11, |replica, p| {
        replica.poll(p, p + 1, 0)
    }),
    ("a second packet of P + 1", 11, |replica, p| {
        replica.poll(p, 0, p + 1)
    }),
    ("two packets of P + 1", 11, |replica, p| {
        replica.poll(p, p + 1, p + 1)
    }),
    ("status byte 3", 12, |replica, _| replica.set_status(3)),
    ("status byte 255", 12, |replica, _| replica.set_status(255)),
    ("a block of 15", 10, |replica, _| replica.command(15)),
    ("a block of 17", 10, |replica, _| replica.command(17)),
    ("five numbers", 10, |replica, _| replica.command_step(5)),
    ("seven numbers", 10, |replica, _| replica.command_step(7)),
    ("five numbers, told", 10, |replica, _| {
        replica.command_step_told(0, 5)
    }),
    ("seven numbers, told", 10, |replica, _| {
        replica.command_step_told(1, 7)
    }),
    ("a step told 2", 10, |replica, _| {
        replica.command_step_told(2, COMMAND_NUMBERS)
    }),
    ("a step told 256", 10, |replica, _| {
        replica.command_step_told(256, COMMAND_NUMBERS)
    }),
    ("a step told 2^32 - 1", 10, |replica, _| {
        replica.command_step_told(u32::MAX, COMMAND_NUMBERS)
    }),
];

/// Makes all of them, and returns how many calls were refused, as they must be.
pub fn refusals(device: &Guarded) -> Checked<usize> {
    let mut made = of_whole_record(device)?;
    for rule in RULES {
        made += of_broken_record(device, rule)?;
    }
    Ok(made)
}

fn of_whole_record(device: &Guarded) -> Checked<usize> {
    for (name, due, call) in ON_WHOLE {
        let mut replica = Replica::of(device, None);
        let before = replica.clone();
        let result = call(&mut replica, device.packet_size());
        require_refused("a whole record", name, result, *due, replica == before)?;
    }
    Ok(ON_WHOLE.len())
}

fn of_broken_record(device: &Guarded, rule: &Rule) -> Checked<usize> {
    let mut replica = Replica::of(device, Some(rule));
    let before = replica.clone();
    for (name, call) in CALLS {
        let result = call(&mut replica);
        require_refused(rule.name, name, result, 10, replica == before)?;
    }
    if replica.record_lent == layout::RECORD {
        of_broken_wrapped(&mut replica, rule)?;
        require_refused(rule.name, "the safe wrapper", 10, 10, replica == before)?;
    }
    Ok(CALLS.len())
}

/// The same through the safe wrapper: it answers `Broken` to every call and changes nothing.
fn of_broken_wrapped(replica: &mut Replica, rule: &Rule) -> Checked {
    let record: [u8; layout::RECORD] = replica.record[..layout::RECORD]
        .try_into()
        .expect("so many bytes");
    let mut device = Device::from_bytes(record, &mut replica.io[..replica.io_lent]);
    let poll = device.poll(
        Endpoints::offering(&replica.source[..8]),
        &mut replica.packet,
    );
    let broken = Err(Error::Broken);
    let all_refused = poll.result == broken
        && device.set_status(CommandStatus::Failed, 7) == broken
        && device.read_data(&mut replica.destination).map(|_| ()) == broken
        && device.write_data(&replica.source).map(|_| ()) == broken
        && device.try_write_data_all(&replica.source) == broken
        && device.reset().map(|_| ()) == broken
        && device.renew().map(|_| ()) == broken
        && device.control(0xA1, 0xFE).map(|_| ()) == broken
        && device.command().map(|_| ()) == broken
        && device.command_step().map(|_| ()) == broken
        && device.command_step_told(false).map(|_| ()) == broken
        && device.command_step_told(true).map(|_| ()) == broken;
    require(
        all_refused && device.record() == &record,
        &format!("{}: the safe wrapper does not refuse it", rule.name),
    )
}

fn require_refused(rule: &str, call: &str, result: u64, due: u64, as_before: bool) -> Checked {
    let changed = if as_before {
        ""
    } else {
        "; something was changed"
    };
    require(
        result == due && as_before,
        &format!("{rule}, {call}: the result is {result:#x} and should be {due}{changed}"),
    )
}
