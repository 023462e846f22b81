//! The calls of document 01's list and their lines.

use core::time::Duration;

use crate::group_digest::GroupDigest;
use crate::group_order::{SetEnd, WriterGuid};
use crate::line::{signed, unsigned, Fields};
use crate::submessages::HeartbeatGroupInfo;
use crate::wire_types::SequenceNumber;
use crate::writer_group::ChangeGroupInfo;

/// A writer and a reader within one group.
#[derive(Clone, Copy)]
pub(crate) struct Pair {
    pub group: WriterGuid,
    pub writer: WriterGuid,
    pub reader: u8,
}

#[derive(Clone)]
pub(crate) enum Content {
    Sample(u32),
    End(SetEnd),
}

#[derive(Clone)]
pub(crate) struct Offer {
    pub pair: Pair,
    pub info: ChangeGroupInfo,
    pub content: Content,
    pub time: Duration,
    /// Whether the writer's announcement named the group.
    pub named: bool,
}

pub(crate) enum Call {
    Fresh(Duration),
    Counted(Pair),
    Digest(WriterGuid, u32),
    Offer(Offer),
    Heartbeat(WriterGuid, WriterGuid, HeartbeatGroupInfo),
    Gap(Pair, i64),
    Release(Duration),
}

/// The call of a line; `None` if the line is bad.
pub(crate) fn parse(line: &[u8]) -> Option<Call> {
    let mut fields = Fields::of(line);
    let call = match fields.word()? {
        b"T" => Call::Fresh(time(&mut fields)?),
        b"V" => Call::Counted(pair(&mut fields)?),
        b"D" => Call::Digest(fields.guid()?, fields.unsigned()?),
        b"S" => Call::Offer(offer(&mut fields, |fields| {
            Some(Content::Sample(fields.unsigned()?))
        })?),
        b"E" => Call::Offer(offer(&mut fields, |fields| {
            Some(Content::End(SetEnd {
                first_sn: fields.optional(signed)?,
                ecs_sn: fields.optional(signed)?,
            }))
        })?),
        b"H" => Call::Heartbeat(fields.guid()?, fields.guid()?, heartbeat(&mut fields)?),
        b"G" => Call::Gap(pair(&mut fields)?, fields.signed()?),
        b"R" => Call::Release(time(&mut fields)?),
        _ => return None,
    };
    fields.end()?;
    Some(call)
}

pub(crate) fn time(fields: &mut Fields) -> Option<Duration> {
    Some(Duration::from_nanos(fields.unsigned()?))
}

pub(crate) fn pair(fields: &mut Fields) -> Option<Pair> {
    Some(Pair {
        group: fields.guid()?,
        writer: fields.guid()?,
        reader: fields.unsigned()?,
    })
}

fn offer(fields: &mut Fields, content: fn(&mut Fields) -> Option<Content>) -> Option<Offer> {
    Some(Offer {
        pair: pair(fields)?,
        info: ChangeGroupInfo {
            gsn: fields.signed()?,
            coherent_set_gsn: fields.optional(signed)?,
            writer_set: GroupDigest::of(fields.unsigned()?),
        },
        content: content(fields)?,
        time: time(fields)?,
        named: true,
    })
}

pub(crate) fn heartbeat(fields: &mut Fields) -> Option<HeartbeatGroupInfo> {
    let digest = |fields: &mut Fields| Some(fields.optional(unsigned)?.map(GroupDigest::of));
    Some(HeartbeatGroupInfo {
        first_gsn: SequenceNumber(fields.signed()?),
        last_gsn: SequenceNumber(fields.signed()?),
        current_gsn: SequenceNumber(fields.signed()?),
        writer_set: digest(fields)?,
        secure_writer_set: digest(fields)?,
    })
}
