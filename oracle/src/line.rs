//! Fields of a line: one space between, decimals without leading zeros, a
//! minus sign where signed.

use crate::group_order::WriterGuid;

/// The fields of one line, read from the left. Every reading answers `None`
/// for a field that is missing or of another form.
pub(crate) struct Fields<'a>(core::slice::Split<'a, u8, fn(&u8) -> bool>);

impl<'a> Fields<'a> {
    pub(crate) fn of(line: &'a [u8]) -> Self {
        Self(line.split(|byte| *byte == b' '))
    }

    pub(crate) fn word(&mut self) -> Option<&'a [u8]> {
        self.0.next()
    }

    pub(crate) fn unsigned<T: TryFrom<u64>>(&mut self) -> Option<T> {
        unsigned(self.word()?)
    }

    pub(crate) fn signed<T: TryFrom<i64>>(&mut self) -> Option<T> {
        signed(self.word()?)
    }

    /// GUID k: fifteen zero bytes and k.
    pub(crate) fn guid(&mut self) -> Option<WriterGuid> {
        let mut guid = [0; 16];
        guid[15] = self.unsigned()?;
        Some(guid)
    }

    pub(crate) fn flag(&mut self) -> Option<bool> {
        flag(self.word()?)
    }

    /// A field that may be `-`, otherwise read by `read`.
    pub(crate) fn optional<T>(&mut self, read: fn(&[u8]) -> Option<T>) -> Option<Option<T>> {
        match self.word()? {
            b"-" => Some(None),
            field => read(field).map(Some),
        }
    }

    /// Bytes as lower-case hex, `-` for none.
    pub(crate) fn bytes(&mut self) -> Option<Vec<u8>> {
        let digit = |byte: u8| match byte {
            b'0'..=b'9' => Some(byte - b'0'),
            b'a'..=b'f' => Some(byte - b'a' + 10),
            _ => None,
        };
        let field = match self.word()? {
            b"" => return None,
            b"-" => b"",
            field => field,
        };
        if field.len() % 2 != 0 {
            return None;
        }
        let pairs = field.chunks(2);
        pairs
            .map(|p| Some(digit(p[0])? << 4 | digit(p[1])?))
            .collect()
    }

    /// Nothing follows.
    pub(crate) fn end(mut self) -> Option<()> {
        self.word().is_none().then_some(())
    }
}

pub(crate) fn unsigned<T: TryFrom<u64>>(field: &[u8]) -> Option<T> {
    T::try_from(decimal(field)?).ok()
}

pub(crate) fn signed<T: TryFrom<i64>>(field: &[u8]) -> Option<T> {
    let number = match field.strip_prefix(b"-") {
        Some(rest) => 0i64.checked_sub_unsigned(decimal(rest)?)?,
        None => i64::try_from(decimal(field)?).ok()?,
    };
    T::try_from(number).ok()
}

pub(crate) fn flag(field: &[u8]) -> Option<bool> {
    match field {
        b"0" => Some(false),
        b"1" => Some(true),
        _ => None,
    }
}

fn decimal(digits: &[u8]) -> Option<u64> {
    if digits.is_empty() || (digits[0] == b'0' && digits.len() > 1) {
        return None;
    }
    digits.iter().try_fold(0u64, |number, byte| match byte {
        b'0'..=b'9' => number.checked_mul(10)?.checked_add((byte - b'0').into()),
        _ => None,
    })
}

pub(crate) fn hex(bytes: &[u8]) -> String {
    bytes.iter().map(|byte| format!("{byte:02x}")).collect()
}

/// A value, or `-` where it is absent.
pub(crate) fn or_dash<T: ToString>(value: Option<T>) -> String {
    value.map_or("-".into(), |value| value.to_string())
}

/// k of GUID k.
pub(crate) fn guid_number(guid: &WriterGuid) -> u8 {
    guid[15]
}
