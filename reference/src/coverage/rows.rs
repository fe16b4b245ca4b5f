//! The rows of the table.

use super::directories;
use crate::equation;
use crate::header;
use crate::packet::Type;

pub(super) const SERVERS_OWN: [Type; 9] = [
    Type::LoginResp,
    Type::UlGoResp,
    Type::UlErrorResp,
    Type::UlAckResp,
    Type::UlNakResp,
    Type::DlErrorResp,
    Type::DlAbortedResp,
    Type::DlCompletedResp,
    Type::SelectResp,
];

/// The rows that do not depend on a list of types or faults.
const SINGLE_ROWS: [&str; 45] = [
    "received type 18 to 31",
    "received in several pieces",
    "received with bytes behind it",
    "UL_ERROR_RESP 1, not 8 bytes",
    "UL_ERROR_RESP 2, length differs",
    "UL_ERROR_RESP 2, another session is uploading it",
    "UL_ERROR_RESP 4",
    "UL_ERROR_RESP 12",
    "UL_ERROR_RESP 13, blocks",
    "UL_ERROR_RESP 13, places",
    "UL_NAK_RESP 16, DATA beyond the length",
    "UL_NAK_RESP 3, upload times used up",
    "DL_ERROR_RESP 1, not 9 bytes",
    "DL_ERROR_RESP 2",
    "DL_ERROR_RESP 4",
    "DL_ERROR_RESP 5",
    "DL_ERROR_RESP 10",
    "DL_ERROR_RESP 11",
    "refused 34, open out of range",
    "refused 34, open of an open session",
    "refused 34, drop out of range",
    "refused 34, drop of a closed session",
    "refused 34, rx out of range",
    "refused 34, rx of a closed session",
    "closed, length above 256",
    "closed, type 18 to 31",
    "upload, new",
    "upload, continued at 0",
    "upload, continued in the middle",
    "upload, continued at its end",
    "upload, DATA of 0 bytes",
    "upload, DATA stored",
    "upload, DATA ignored",
    "upload, DATA_END without an answer",
    "download, from 0",
    "download, from the middle",
    "download, from its end",
    "download, of number 0",
    "download, with a lock destination",
    "download, DL_NAK_CMD on an idle downlink",
    "download, lost with its link",
    "select, no file",
    "select, some files",
    "line that can't be read",
    "line too long",
];

pub(super) const ENDINGS: [&str; 6] = [
    "DL_COMPLETED_RESP, destination 0",
    "DL_COMPLETED_RESP, destination named",
    "DL_ABORTED_RESP, DL_ACK_CMD not 1 byte",
    "DL_ABORTED_RESP, no such destination",
    "DL_ABORTED_RESP, DL_NAK_CMD after DATA_END",
    "DL_ABORTED_RESP, DL_NAK_CMD before DATA_END",
];

/// What an accepted SELECT asks of a file with several items of one id.
pub(super) const SEVERAL: [&str; 3] = [
    "select, a relation met by an item that is not the first",
    "select, a number relation met behind an item of a wrong width",
    "select, both equal and not equal to one constant",
];

/// The closings by a packet that is not expected.
fn unexpected_rows() -> Vec<String> {
    let mut rows = Vec::new();
    for own in SERVERS_OWN {
        rows.push(format!("closed, {} is the server's own", own.name()));
    }
    for kind in ["DATA", "DATA_END"] {
        rows.push(format!("closed, {kind} while Idle"));
    }
    for state in ["Receiving", "Ignoring"] {
        rows.push(format!("closed, DATA_END with information while {state}"));
        rows.push(format!("closed, UPLOAD_CMD while {state}"));
    }
    for kind in [
        "SELECT_CMD",
        "DOWNLOAD_CMD",
        "DIR_SHORT_CMD",
        "DIR_LONG_CMD",
    ] {
        for state in ["Sending", "Ended", "Aborting", "Listing"] {
            rows.push(format!("closed, {kind} while {state}"));
        }
    }
    for state in ["Idle", "Sending", "Aborting", "Listing"] {
        rows.push(format!("closed, DL_ACK_CMD while {state}"));
    }
    for state in ["Idle", "Sending", "Ended", "Aborting", "Listing"] {
        rows.push(format!("closed, DL_NAK_CMD with information while {state}"));
    }
    rows.push("closed, DL_NAK_CMD while Aborting".to_string());
    rows
}

/// All rows of the table.
pub(super) fn rows() -> Vec<String> {
    let mut rows: Vec<String> = SINGLE_ROWS
        .iter()
        .chain(&ENDINGS)
        .chain(&SEVERAL)
        .map(|row| row.to_string())
        .collect();
    rows.extend(unexpected_rows());
    rows.extend(directories::rows());
    for kind in Type::ALL {
        rows.push(format!("received {}", kind.name()));
    }
    for kind in SERVERS_OWN.iter().chain(&[Type::Data, Type::DataEnd]) {
        rows.push(format!("sent {}", kind.name()));
    }
    for fault in header::Fault::ALL {
        rows.push(format!("UL_NAK_RESP {}, {fault:?}", fault.number()));
    }
    for fault in equation::Fault::ALL {
        // These two need more than the 256 bytes that the server accepts.
        if !matches!(fault, equation::Fault::TooLong | equation::Fault::StackFull) {
            rows.push(format!("DL_ERROR_RESP 8, {fault:?}"));
        }
    }
    rows
}
