//! The nine states of a device, and the status of a command.

/// The state of a device. The values are the record's numbers.
#[derive(Clone, Copy, PartialEq, Eq, Debug)]
#[repr(u8)]
pub enum State {
    CommandTransfer = 0,
    CommandTransferInvalid = 1,
    DataTransferNoData = 2,
    StatusTransfer = 3,
    DataTransferToHost = 4,
    DataTransferToHostStatusAwait = 5,
    DataTransferToHostEnding = 6,
    DataTransferFromHost = 7,
    DataTransferFromHostEnding = 8,
}

impl State {
    pub fn number(self) -> u8 {
        self as u8
    }

    /// None if there is no such state.
    pub fn from_number(number: u8) -> Option<State> {
        Some(match number {
            0 => State::CommandTransfer,
            1 => State::CommandTransferInvalid,
            2 => State::DataTransferNoData,
            3 => State::StatusTransfer,
            4 => State::DataTransferToHost,
            5 => State::DataTransferToHostStatusAwait,
            6 => State::DataTransferToHostEnding,
            7 => State::DataTransferFromHost,
            8 => State::DataTransferFromHostEnding,
            _ => return None,
        })
    }
}

/// How a command ended, as the status tells the host.
#[derive(Clone, Copy, PartialEq, Eq, Debug)]
#[repr(u8)]
pub enum CommandStatus {
    Passed = 0,
    Failed = 1,
    PhaseError = 2,
}

impl CommandStatus {
    pub fn number(self) -> u8 {
        self as u8
    }
}
