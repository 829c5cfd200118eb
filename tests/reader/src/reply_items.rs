//! What a reply says, apart from where it stands there: its items as bytes of their own, so that
//! two replies, or a reply and the records that it was written from, can be compared.

use crate::refusal::Refusal;
use crate::reply::read_reply;
use crate::reply_records::{reply_records, ReplyRecord};
use crate::reply_value::reply_value;

/// One thing that a reply says; a value is the bytes that it stands for.
#[derive(Clone, Debug, PartialEq, Eq)]
pub enum ReplyItem {
    Item { keyword: Vec<u8>, value: Vec<u8> },
    Group { type_name: Vec<u8> },
    EndGroup,
    EndOutput,
}

/// What a reply says.
pub fn items_of_reply(reply: &[u8]) -> Result<Vec<ReplyItem>, Refusal> {
    // A line of three bytes gives nine, and no line gives more for its length.
    let mut records = vec![0; 3 * reply.len()];
    let length = read_reply(reply, &mut records)?;
    reply_records(&records[..length])
        .map(|record| item_of(record, reply, meant))
        .collect()
}

/// What records say that a writer takes: values are plain bytes, and stand for themselves.
pub fn items_of_records(records: &[u8], text: &[u8]) -> Vec<ReplyItem> {
    let plain = |value: &[u8]| Ok(value.to_vec());
    reply_records(records)
        .filter_map(|record| item_of(record, text, plain).ok())
        .collect()
}

fn item_of(
    record: ReplyRecord,
    text: &[u8],
    value_of: impl Fn(&[u8]) -> Result<Vec<u8>, Refusal>,
) -> Result<ReplyItem, Refusal> {
    Ok(match record {
        ReplyRecord::Item { keyword, value } => ReplyItem::Item {
            keyword: keyword.of(text).to_vec(),
            value: value_of(value.of(text))?,
        },
        ReplyRecord::Group { type_name } => ReplyItem::Group {
            type_name: type_name.of(text).to_vec(),
        },
        ReplyRecord::EndGroup => ReplyItem::EndGroup,
        ReplyRecord::EndOutput => ReplyItem::EndOutput,
    })
}

/// The bytes that a raw value stands for.
fn meant(raw: &[u8]) -> Result<Vec<u8>, Refusal> {
    let mut bytes = vec![0; raw.len()];
    let length = reply_value(raw, &mut bytes)?;
    bytes.truncate(length);
    Ok(bytes)
}
