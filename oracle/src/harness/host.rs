//! The host's texts for numbers, one to one, and the broker's structures made from them.

use std::sync::{Arc, OnceLock};

use bytes::Bytes;

use crate::broker::entry::{Entry, Memory, Meta, ENTRY_OVERHEAD};
use crate::openwire::model::{ConsumerId, Header, Message, MessageAck, MessageId, ProducerId, Throwable};
use crate::openwire::types;
use crate::selector::Selector;

use super::arguments::SIZE_MAX;

/// Selectors are numbered 0 to 63; this number is "none".
pub const NO_SELECTOR: u64 = 64;

/// The client's text for a poison acknowledgement that names a cause.
pub const CLIENT_CAUSE: &str = "the client's cause";

/// An identifier of a consumer or producer as numbers: connection, session, value.
pub type Id = [u64; 3];

pub fn connection_text(connection: u64) -> Arc<str> {
    Arc::from(connection.to_string())
}

pub fn connection_number(text: &str) -> u64 {
    text.parse().expect("a connection's text is a number")
}

pub fn consumer_id(id: Id) -> ConsumerId {
    ConsumerId {
        connection_id: connection_text(id[0]),
        session_id: id[1] as i64,
        value: id[2] as i64,
    }
}

pub fn consumer_number(id: &ConsumerId) -> Id {
    [
        connection_number(&id.connection_id),
        id.session_id as u64,
        id.value as u64,
    ]
}

pub fn producer_id(id: Id) -> ProducerId {
    ProducerId {
        connection_id: connection_text(id[0]),
        session_id: id[1] as i64,
        value: id[2] as i64,
    }
}

pub fn producer_number(id: &ProducerId) -> Id {
    [
        connection_number(&id.connection_id),
        id.session_id as u64,
        id.value as u64,
    ]
}

/// The match word as a correlation text: character s is 1 when selector s accepts.
pub fn match_text(word: u64) -> String {
    (0..64)
        .map(|s| if word >> s & 1 == 1 { '1' } else { '0' })
        .collect()
}

pub fn match_word(text: &str) -> u64 {
    text.bytes()
        .enumerate()
        .map(|(s, c)| u64::from(c == b'1') << s)
        .fold(0, |word, bit| word | bit)
}

/// Selector s accepts an entry whose correlation text has a 1 at place s.
pub fn selector(number: u64) -> Option<Arc<Selector>> {
    if number == NO_SELECTOR {
        return None;
    }
    let text = format!("JMSCorrelationID LIKE '{}1%'", "_".repeat(number as usize));
    let compiled = Selector::compile(&text).expect("the selector is well formed");
    Some(Arc::new(compiled.expect("the selector is not blank")))
}

/// A selector that takes no entry: no match word's text starts with 2.
pub fn nothing() -> Arc<Selector> {
    let compiled = Selector::compile("JMSCorrelationID LIKE '2%'").expect("the selector is well formed");
    Arc::new(compiled.expect("the selector is not blank"))
}

pub fn selector_number(text: Option<&str>) -> u64 {
    match text {
        None => NO_SELECTOR,
        Some(t) => t.bytes().filter(|c| *c == b'_').count() as u64,
    }
}

/// What an entry of the call file is made of.
#[derive(Clone, Copy, Debug, Default, PartialEq)]
pub struct EntryNumbers {
    pub sequence: u64,
    pub expiration: i64,
    pub persistent: bool,
    pub connection: u64,
    pub match_word: u64,
    pub redelivery: i32,
    pub size: u64,
}

impl EntryNumbers {
    /// The size that the broker's message has: its body and 256 bytes more.
    pub fn charged(&self) -> u64 {
        self.size.max(ENTRY_OVERHEAD)
    }
}

/// A body of so many zeros. All bodies are parts of one, whose pages nothing reads or writes.
fn body(length: u64) -> Bytes {
    static ZEROS: OnceLock<&[u8]> = OnceLock::new();
    let zeros = ZEROS.get_or_init(|| vec![0; SIZE_MAX as usize].leak());
    Bytes::from_static(&zeros[..length as usize])
}

pub fn entry(n: EntryNumbers, memory: &Arc<Memory>) -> Entry {
    let mut msg = Message::new(types::ACTIVEMQ_MESSAGE);
    if n.connection != 0 {
        msg.producer_id = Some(producer_id([n.connection, 0, 0]));
    }
    msg.message_id = Some(message_id(n.sequence));
    msg.correlation_id = Some(match_text(n.match_word));
    msg.persistent = n.persistent;
    msg.expiration = n.expiration;
    // The destination never reads the arrival: it holds the size that the call gave, also where the broker's is more.
    msg.arrival = n.size as i64;
    msg.content = n.size.checked_sub(ENTRY_OVERHEAD).map(body);
    let meta = Meta::new(memory.clone(), &msg);
    Entry {
        seq: n.sequence,
        msg: Arc::new(msg),
        meta,
        redelivery: n.redelivery,
    }
}

pub fn entry_numbers(e: &Entry) -> EntryNumbers {
    let numbers = EntryNumbers {
        sequence: e.seq,
        expiration: e.msg.expiration,
        persistent: e.msg.persistent,
        connection: e
            .msg
            .producer_id
            .as_ref()
            .map_or(0, |p| connection_number(&p.connection_id)),
        match_word: match_word(e.msg.correlation_id.as_deref().unwrap_or_default()),
        redelivery: e.redelivery,
        size: e.msg.arrival as u64,
    };
    assert_eq!(
        e.meta.size,
        numbers.charged(),
        "the broker's size is the body's and 256"
    );
    numbers
}

/// A message id of which only the broker's number is read.
pub fn message_id(sequence: u64) -> MessageId {
    MessageId {
        text_view: None,
        producer_id: None,
        producer_sequence_id: 0,
        broker_sequence_id: sequence as i64,
    }
}

/// A message of which the duplicate test reads only producer and number. Connection 0 is
/// no producer.
pub fn audited_message(producer: Id, number: i64) -> Message {
    let mut msg = Message::new(types::ACTIVEMQ_MESSAGE);
    msg.message_id = Some(MessageId {
        text_view: None,
        producer_id: (producer[0] != 0).then(|| producer_id(producer)),
        producer_sequence_id: number,
        broker_sequence_id: 0,
    });
    msg
}

/// An acknowledgement as numbers.
#[derive(Clone, Copy)]
pub struct AckNumbers {
    pub id: Id,
    pub ack_type: u8,
    pub first: Option<u64>,
    pub last: Option<u64>,
    pub cause: bool,
}

pub fn ack(n: AckNumbers) -> MessageAck {
    MessageAck {
        header: Header::default(),
        destination: None,
        transaction_id: None,
        consumer_id: Some(consumer_id(n.id)),
        ack_type: n.ack_type,
        first_message_id: n.first.map(message_id),
        last_message_id: n.last.map(message_id),
        message_count: 0,
        poison_cause: n
            .cause
            .then(|| Throwable::new("java.lang.Throwable", CLIENT_CAUSE)),
    }
}
