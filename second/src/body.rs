//! The bodies of the table messages.

use crate::datatype::{self, MAX_32};
use crate::fields::Fields;
use crate::refusal::Refusal;
use crate::store::{is_plain, key_lengths, Table, Times, NAME_LIMIT, STRING};

/// The body of a definition.
#[derive(Clone, Debug, PartialEq, Eq)]
pub struct Definition {
    /// The sender's table ID.
    pub id: u64,
    /// The table.
    pub table: Table,
}

/// Reads a definition.
pub fn definition(body: &[u8]) -> Result<Definition, Refusal> {
    let mut fields = Fields::new(body);
    let id = fields.integer(0..=MAX_32)?;
    let name_length = fields.integer(1..=NAME_LIMIT as u64)?;
    let name = fields.name(name_length as usize, is_plain)?.to_vec();
    let key_type = fields.integer_if(|number| key_lengths(number).is_some())?;
    let allowed = |length: u64| key_lengths(key_type).is_some_and(|l| l.contains(&length));
    let key_length = fields.integer_if(allowed)?;
    let data_types = fields.integer(0..=datatype::LARGEST)?;
    let times = times(&mut fields, data_types)?;
    let table = Table {
        name,
        key_type,
        key_length,
        data_types,
        times,
    };
    Ok(Definition { id, table })
}

/// Reads expiry and periods, unless the body ends before them.
fn times(fields: &mut Fields, data_types: u64) -> Result<Option<Times>, Refusal> {
    if fields.ended() {
        return Ok(None);
    }
    let expiry = fields.integer(0..=MAX_32)?;
    let mut periods = Vec::new();
    for rate in datatype::rates(data_types) {
        let number = u64::from(rate);
        fields.integer(number..=number)?;
        periods.push(fields.integer(0..=MAX_32)?);
    }
    Ok(Some(Times { expiry, periods }))
}

/// Reads the ID of a switch.
pub fn switch(body: &[u8]) -> Result<u64, Refusal> {
    Fields::new(body).integer(0..=MAX_32)
}

/// Reads the table ID and the update ID of an acknowledgement.
pub fn acknowledgement(body: &[u8]) -> Result<(u32, u32), Refusal> {
    let mut fields = Fields::new(body);
    let id = fields.integer(0..=MAX_32)?;
    let update = fields.four_bytes()?;
    Ok((id as u32, update))
}

/// Reads the key of an update.
pub fn key<'a>(fields: &mut Fields<'a>, table: &Table) -> Result<&'a [u8], Refusal> {
    let length = match table.key_type {
        STRING => fields.integer(0..=table.key_length)?,
        _ => table.key_length,
    };
    fields.bytes(length as usize)
}

/// Reads the values of an update.
pub fn values(fields: &mut Fields, table: &Table) -> Result<Vec<u64>, Refusal> {
    let mut values = Vec::new();
    for number in datatype::values(table.data_types) {
        values.push(fields.integer_if(|value| datatype::fits(number, value))?);
    }
    Ok(values)
}
