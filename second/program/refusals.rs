//! Refusals: number, field, offset and code (section 1 and the tables).

/// Why a call is refused. The code is `-` where the tables have none.
#[derive(Clone, Copy, Debug, PartialEq, Eq)]
pub struct Refusal {
    pub number: u8,
    /// 0 where the table names no field.
    pub field: u8,
    /// Where the field's first byte stands in the text of the call, 0 where no field is named.
    pub offset: usize,
    pub code: &'static str,
}

impl Refusal {
    /// A command or call that is out of place.
    pub const OUT_OF_PLACE: Refusal = Refusal::plain(66, 0);

    /// A refusal without a code, whose offset is still to be found by `within`.
    pub const fn plain(number: u8, field: u8) -> Refusal {
        Refusal::coded(number, field, "-")
    }

    /// A refusal with the Agency's code, whose offset is still to be found by `within`.
    pub const fn coded(number: u8, field: u8, code: &'static str) -> Refusal {
        Refusal { number, field, offset: 0, code }
    }

    /// The refusal with its offset, which its field has in this text. The text may have fewer
    /// fields only where no field is named.
    pub fn within(mut self, text: &[u8]) -> Refusal {
        let before =
            text.split(|&byte| byte == b';').take(usize::from(self.field).saturating_sub(1));
        // Each field before it has a semicolon behind it.
        self.offset = before.map(|field| field.len() + 1).sum();
        self
    }
}

/// Refuses where the condition does not hold.
pub fn ensure(holds: bool, refusal: Refusal) -> Result<(), Refusal> {
    if holds {
        Ok(())
    } else {
        Err(refusal)
    }
}
