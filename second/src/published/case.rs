//! A case of the published layout: registers and memory before and after one instruction, and each of its cycles.

use crate::bus::BANK;
use crate::json::Value;
use crate::record::{of_6502, pc_of, BIT_4, BIT_5};

/// What a cycle says of its access: address low, high, bank, value, 0 or 1. Of the purpose the published layout says
/// nothing.
pub const TOLD: usize = 5;

pub struct Case {
    pub name: String,
    pub before: State,
    pub after: State,
    pub list: Vec<[u8; TOLD]>,
}

pub struct State {
    pub record: [u8; 16],
    /// Addresses with their bytes.
    pub ram: Vec<(u16, u8)>,
}

impl Case {
    /// Fails with what is missing or no such thing.
    pub fn read(value: &Value) -> Result<Case, String> {
        Ok(Case {
            name: field(value, "name", text)?,
            before: field(value, "initial", state)?,
            after: field(value, "final", state)?,
            list: field(value, "cycles", |cycles| each(cycles, cycle))?,
        })
    }

    /// Zero where the case says nothing.
    pub fn image(&self) -> Vec<u8> {
        let mut image = vec![0; BANK];
        self.before.put(&mut image);
        image
    }
}

impl State {
    pub fn pc(&self) -> u16 {
        pc_of(&self.record)
    }

    pub fn put(&self, image: &mut [u8]) {
        for &(address, byte) in &self.ram {
            image[usize::from(address)] = byte;
        }
    }
}

fn state(value: &Value) -> Result<State, String> {
    let register = |name| field(value, name, number::<u8>);
    // Bits 4 and 5 of the case's P are no state: a record has them clear and set.
    let p = register("p")? & !BIT_4 | BIT_5;
    let registers = [
        register("a")?,
        register("x")?,
        register("y")?,
        register("s")?,
        p,
    ];
    Ok(State {
        record: of_6502(registers, field(value, "pc", number)?),
        ram: field(value, "ram", |cells| each(cells, cell))?,
    })
}

fn cell(value: &Value) -> Result<(u16, u8), String> {
    match list(value)? {
        [address, byte] => Ok((number(address)?, number(byte)?)),
        _ => Err("no address with its byte".to_string()),
    }
}

fn cycle(value: &Value) -> Result<[u8; TOLD], String> {
    let (address, byte, kind) = match list(value)? {
        [address, byte, kind] => (number::<u16>(address)?, number(byte)?, text(kind)?),
        _ => return Err("no address with its byte and its kind".to_string()),
    };
    let written = match kind.as_str() {
        "read" => 0,
        "write" => 1,
        _ => return Err(format!("\"{}\" is neither read nor write", kind)),
    };
    let [low, high] = address.to_le_bytes();
    Ok([low, high, 0, byte, written])
}

/// Any other key is passed over.
fn field<T>(
    object: &Value,
    key: &str,
    read: impl Fn(&Value) -> Result<T, String>,
) -> Result<T, String> {
    let members = match object {
        Value::Object(members) => members,
        _ => return Err("no object".to_string()),
    };
    match members.iter().find(|(name, _)| name == key) {
        Some((_, value)) => read(value).map_err(|why| format!("{}: {}", key, why)),
        None => Err(format!("no \"{}\"", key)),
    }
}

fn each<T>(value: &Value, read: fn(&Value) -> Result<T, String>) -> Result<Vec<T>, String> {
    let items = list(value)?.iter().zip(1..);
    items
        .map(|(item, number)| read(item).map_err(|why| format!("number {}: {}", number, why)))
        .collect()
}

pub fn list(value: &Value) -> Result<&[Value], String> {
    match value {
        Value::List(items) => Ok(items),
        _ => Err("no list".to_string()),
    }
}

fn text(value: &Value) -> Result<String, String> {
    match value {
        Value::Text(text) => Ok(text.clone()),
        _ => Err("no string".to_string()),
    }
}

/// One that fits: a byte or an address.
fn number<T: TryFrom<i64>>(value: &Value) -> Result<T, String> {
    match value {
        Value::Number(number) => {
            T::try_from(*number).map_err(|_| format!("{} does not fit", number))
        }
        _ => Err("no number".to_string()),
    }
}
