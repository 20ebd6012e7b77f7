//! "The update, byte by byte", and the refusals 2 to 9.

/// "An id is 32 bytes, compared as unsigned bytes from the first."
pub type Id = [u8; 32];
/// A tag or a value.
pub type Tag = [u8; 16];

pub const ZERO: Id = [0; 32];

pub enum Operation {
    Add { tag: Tag },
    Remove { tag: Tag, named: Vec<Id> },
    Insert { anchor: Id, value: Tag },
    Delete { named: Id },
}

pub struct Update {
    pub author: u8,
    pub predecessors: Vec<Id>,
    pub operation: Operation,
}

/// Whole ids, end to end.
pub fn ids(bytes: &[u8]) -> Vec<Id> {
    bytes.chunks_exact(32).map(|c| c.try_into().unwrap()).collect()
}

pub fn strictly_ascending(ids: &[Id]) -> bool {
    ids.windows(2).all(|w| w[0] < w[1])
}

/// The update that these bytes are, or the number of the first refusal that applies.
pub fn read_update(bytes: &[u8]) -> Result<Update, u32> {
    let length = bytes.len();
    // 2: "length under 20 or over 533"
    if !(20..=533).contains(&length) {
        return Err(2);
    }
    // 3: "version not 1"
    if bytes[0] != 1 {
        return Err(3);
    }
    // 4: "author above 15"
    let author = bytes[1];
    if author > 15 {
        return Err(4);
    }
    // 5: "n above 8"
    let n = bytes[2] as usize;
    if n > 8 {
        return Err(5);
    }
    // 6: "ends before its kind byte"
    let kind_at = 3 + 32 * n;
    if length <= kind_at {
        return Err(6);
    }
    // 7: "kind not 1 to 4"
    let kind = bytes[kind_at];
    if !(1..=4).contains(&kind) {
        return Err(7);
    }
    // 8: "m missing or above 8, or length not what kind and counts give"
    // "Lengths are 20 + 32n, 21 + 32n + 32m, 52 + 32n and 36 + 32n"
    let body = &bytes[kind_at + 1..];
    let expected = match kind {
        1 => 20 + 32 * n,
        2 => {
            // The tag's 16 bytes come before m.
            if body.len() <= 16 {
                return Err(8);
            }
            let m = body[16] as usize;
            if m > 8 {
                return Err(8);
            }
            21 + 32 * n + 32 * m
        }
        3 => 52 + 32 * n,
        _ => 36 + 32 * n,
    };
    if length != expected {
        return Err(8);
    }
    // "Add: a 16-byte tag. Remove: a 16-byte tag, a count byte m (0 to 8), m ids strictly
    // ascending. Insert: a 32-byte anchor, a 16-byte value. Delete: a 32-byte id."
    let operation = match kind {
        1 => Operation::Add { tag: body.try_into().unwrap() },
        2 => Operation::Remove { tag: body[..16].try_into().unwrap(), named: ids(&body[17..]) },
        3 => Operation::Insert { anchor: body[..32].try_into().unwrap(), value: body[32..].try_into().unwrap() },
        _ => Operation::Delete { named: body.try_into().unwrap() },
    };
    let predecessors = ids(&bytes[3..kind_at]);
    // 9: "ids not strictly ascending"
    if !strictly_ascending(&predecessors) {
        return Err(9);
    }
    if let Operation::Remove { named, .. } = &operation {
        if !strictly_ascending(named) {
            return Err(9);
        }
    }
    Ok(Update { author, predecessors, operation })
}
