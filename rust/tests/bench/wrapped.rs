//! Events as calls of the safe wrapper.

use super::outcome::Outcome;
use super::{Checked, require, tellings};
use crate::benchfile::{Event, InAnswer, Offers, OutAnswer};
use souklavanh::{CommandStatus, Device, EndpointError, Endpoints, Error, In, Out, Poll, Stalls};

/// What packet buffers and destinations hold before a call.
const FILL: u8 = 0xA5;

pub fn apply(device: &mut Device, packet_size: usize, event: &Event) -> Checked<Outcome> {
    Ok(match event {
        Event::Create { .. } => unreachable!("the file's rules let no second creation through"),
        Event::Poll(offers) => poll(device, packet_size, offers),
        Event::Status { status, figure } => {
            done(device.set_status(command_status(*status), *figure))
        }
        Event::WriteData(source) => counted(device.write_data(source)),
        Event::TryWriteDataAll(source) => {
            counted(device.try_write_data_all(source).map(|()| source.len()))
        }
        Event::ReadData { room } => read_data(device, usize::from(*room)),
        Event::Reset => device.reset().map_or_else(failed, |stalls| Outcome {
            stalls: letters(stalls),
            ..Outcome::answered(0)
        }),
        Event::Control {
            bm_request_type,
            request,
        } => control(device, *bm_request_type, *request),
        Event::Command { .. } => command(device, event.is_extended())?,
    })
}

pub fn failed(error: Error) -> Outcome {
    let outcome = Outcome::answered(error.number());
    match error {
        Error::Endpoint(error) => Outcome {
            carried: Some(error.number()),
            ..outcome
        },
        Error::IoBufferOverflow { missing } => Outcome { missing, ..outcome },
        _ => outcome,
    }
}

pub fn letters(stalls: Stalls) -> &'static str {
    match stalls {
        Stalls::Kept => "-",
        Stalls::Stalled => "S",
        Stalls::Unstalled => "U",
        Stalls::UnstalledStalled => "US",
    }
}

fn done(result: Result<(), Error>) -> Outcome {
    result.map_or_else(failed, |()| Outcome::answered(0))
}

fn counted(result: Result<usize, Error>) -> Outcome {
    result.map_or_else(failed, |count| Outcome {
        count,
        ..Outcome::answered(0)
    })
}

fn poll(device: &mut Device, packet_size: usize, offers: &Offers) -> Outcome {
    let mut packet = vec![FILL; packet_size];
    let Poll {
        result,
        taken,
        sent,
        stalls,
    } = device.poll(endpoints(offers), &mut packet);
    packet.truncate(sent);
    Outcome {
        count: usize::from(taken),
        stalls: letters(stalls),
        bytes: packet,
        ..done(result)
    }
}

fn endpoints(offers: &Offers) -> Endpoints<'_> {
    Endpoints {
        out: offers.out.each_ref().map(|out| match out {
            OutAnswer::Packet(packet) => Out::Packet(packet),
            OutAnswer::Busy => Out::Busy,
            OutAnswer::Error(number) => Out::Error(endpoint_error(*number)),
        }),
        r#in: match offers.in_answer {
            InAnswer::Accepts => In::Accepts,
            InAnswer::Busy => In::Busy,
            InAnswer::Error(number) => In::Error(endpoint_error(number)),
        },
    }
}

fn endpoint_error(number: u8) -> EndpointError {
    EndpointError::new(number).expect("the file's rules give errors 2 to 255")
}

fn command_status(byte: u8) -> CommandStatus {
    match byte {
        0 => CommandStatus::Passed,
        1 => CommandStatus::Failed,
        2 => CommandStatus::PhaseError,
        _ => unreachable!("the file's rules let no other status byte through"),
    }
}

fn read_data(device: &mut Device, room: usize) -> Outcome {
    let mut destination = vec![FILL; room];
    let result = device.read_data(&mut destination);
    destination.truncate(result.unwrap_or(0));
    Outcome {
        bytes: destination,
        ..counted(result)
    }
}

fn control(device: &mut Device, bm_request_type: u8, request: u8) -> Outcome {
    let result = device.control(bm_request_type, request);
    result.map_or_else(failed, |control| Outcome {
        stalls: letters(control.stalls),
        bytes: control.answer.into_iter().collect(),
        ..Outcome::answered(0)
    })
}

/// Offer and decode. The plain step has extended addressing on, and only the command depends on what a step is told.
fn command(device: &Device, extended: bool) -> Checked<Outcome> {
    require(
        device.command_step() == device.command_step_told(true),
        "the plain command step does not say what the told one says with extended addressing on",
    )?;
    let (outcome, other) = (step(device, extended)?, step(device, !extended)?);
    let same_but_command = Outcome {
        command: outcome.command,
        ..other
    };
    require(
        outcome == same_but_command,
        "more than the command depends on extended addressing",
    )?;
    Ok(outcome)
}

/// The decoders, called alone, have to say the same about the block that is shown.
fn step(device: &Device, extended: bool) -> Checked<Outcome> {
    let offer = match device.command_step_told(extended) {
        Err(error) => return Ok(failed(error)),
        Ok(None) => return Ok(Outcome::answered(0)),
        Ok(Some(offer)) => offer,
    };
    let Ok(Some(shown)) = device.command() else {
        return Err("a command is offered and none is shown".to_string());
    };
    require(
        shown.lun == offer.lun,
        "another LUN is offered than is shown",
    )?;
    require(
        tellings::decoded(shown.block(), extended)? == Ok(offer.command),
        "the decoder says something else of the block than the command step",
    )?;
    let mut bytes = vec![shown.lun];
    bytes.extend(shown.block());
    Ok(Outcome {
        bytes,
        command: Some(offer.command),
        ..Outcome::answered(0)
    })
}
