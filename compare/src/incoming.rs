//! Reads an incoming message as the rules say. The draft reads messages in files that are not compared.

use crate::script::Reader;

/// A message. A string is its start and length within the payload.
pub enum Message {
    Confirmation { recipient: u32, sender: u32, window: u32, limit: u32 },
    Failure { recipient: u32, reason: u32, description: (usize, usize), language: (usize, usize) },
    Adjust { recipient: u32, add: u32 },
    Data { recipient: u32, code: Option<u32>, data: (usize, usize) },
    Eof { recipient: u32 },
    Close { recipient: u32 },
}

/// The message, if the payload has one of the rules' forms. Only a 91 may have more behind it.
pub fn read(payload: &[u8]) -> Option<Message> {
    let mut reader = Reader { bytes: payload, at: 0 };
    let kind = reader.byte()?;
    let recipient = reader.integer()?;
    let message = match kind {
        91 => {
            let (sender, window, limit) = (reader.integer()?, reader.integer()?, reader.integer()?);
            return Some(Message::Confirmation { recipient, sender, window, limit });
        }
        92 => {
            let (reason, description, language) = (reader.integer()?, reader.string()?, reader.string()?);
            Message::Failure { recipient, reason, description, language }
        }
        93 => Message::Adjust { recipient, add: reader.integer()? },
        94 => Message::Data { recipient, code: None, data: reader.string()? },
        95 => Message::Data { recipient, code: Some(reader.integer()?), data: reader.string()? },
        96 => Message::Eof { recipient },
        97 => Message::Close { recipient },
        _ => return None,
    };
    (reader.at == payload.len()).then_some(message)
}

impl Message {
    pub fn recipient(&self) -> u32 {
        match self {
            Message::Confirmation { recipient, .. }
            | Message::Failure { recipient, .. }
            | Message::Adjust { recipient, .. }
            | Message::Data { recipient, .. }
            | Message::Eof { recipient }
            | Message::Close { recipient } => *recipient,
        }
    }

    /// The answer: 0, the type, the fields.
    pub fn answer(&self) -> Vec<u64> {
        let recipient = self.recipient() as u64;
        let fields = match self {
            Message::Confirmation { sender, window, limit, .. } => {
                vec![91, recipient, *sender as u64, *window as u64, *limit as u64]
            }
            Message::Failure { reason, description, language, .. } => {
                let mut fields = vec![92, recipient, *reason as u64];
                fields.extend([description.0, description.1, language.0, language.1].map(|value| value as u64));
                fields
            }
            Message::Adjust { add, .. } => vec![93, recipient, *add as u64],
            Message::Data { code: None, data, .. } => vec![94, recipient, data.0 as u64, data.1 as u64],
            Message::Data { code: Some(code), data, .. } => {
                vec![95, recipient, *code as u64, data.0 as u64, data.1 as u64]
            }
            Message::Eof { .. } => vec![96, recipient],
            Message::Close { .. } => vec![97, recipient],
        };
        [vec![0], fields].concat()
    }
}
