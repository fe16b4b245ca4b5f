//! The packets that a client sends.
use reference::packet::{Packet, Type};

pub fn packet(kind: Type, information: &[u8]) -> Vec<u8> {
    Packet::new(kind, information).bytes()
}

pub fn two_numbers(first: u32, second: u32) -> Vec<u8> {
    [first.to_le_bytes(), second.to_le_bytes()].concat()
}

/// UPLOAD_CMD; number 0 is for a new file.
pub fn upload(number: u32, length: u32) -> Vec<u8> {
    packet(Type::UploadCmd, &two_numbers(number, length))
}

pub fn data(bytes: &[u8]) -> Vec<u8> {
    packet(Type::Data, bytes)
}

pub fn data_end() -> Vec<u8> {
    packet(Type::DataEnd, &[])
}

pub fn select(equation: &[u8]) -> Vec<u8> {
    packet(Type::SelectCmd, equation)
}

pub fn download(number: u32, offset: u32, destination: u8) -> Vec<u8> {
    let mut information = two_numbers(number, offset);
    information.push(destination);
    packet(Type::DownloadCmd, &information)
}

/// DIR_LONG_CMD or DIR_SHORT_CMD; number 0 is for the next files of the selection.
pub fn directory(long: bool, number: u32) -> Vec<u8> {
    let kind = match long {
        true => Type::DirLongCmd,
        false => Type::DirShortCmd,
    };
    packet(kind, &number.to_le_bytes())
}

pub fn ack(destination: u8) -> Vec<u8> {
    packet(Type::DlAckCmd, &[destination])
}

pub fn nak() -> Vec<u8> {
    packet(Type::DlNakCmd, &[])
}

/// All packets of the upload of a new file.
pub fn whole_upload(file: &[u8]) -> Vec<Vec<u8>> {
    let mut packets = vec![upload(0, file.len() as u32)];
    packets.extend(file.chunks(256).map(data));
    packets.push(data_end());
    packets
}
