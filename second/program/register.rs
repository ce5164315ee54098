//! The register: entities, contracts and lives, and the calls on files (sections 5, 6 and 7).

use crate::contracts::Contracts;
use crate::forms::{acer, entity_in_name, Acer};
use crate::lives::{Key, Life, Lives};
use crate::refusals::{ensure, Refusal};
use crate::reports::Report;

const MAX_JUDGED: u32 = 1_000_000;
const MAX_ENTITIES: usize = 32;

/// The reporting entities.
#[derive(Default)]
pub struct Entities {
    list: Vec<Acer>,
}

impl Entities {
    /// Adds the entity of a code.
    pub fn add(&mut self, code: &[u8]) -> Result<(), Refusal> {
        let code = acer(code).ok_or(Refusal::plain(61, 0))?;
        ensure(!self.list.contains(&code), Refusal::plain(62, 0))?;
        ensure(self.list.len() < MAX_ENTITIES, Refusal::plain(63, 0))?;
        self.list.push(code);
        Ok(())
    }

    /// Whether a code is that of a known entity.
    pub fn know(&self, code: &Acer) -> bool {
        self.list.contains(code)
    }
}

/// How far a file that has not ended has come.
#[derive(Clone, Copy, Debug, PartialEq, Eq)]
pub enum Stage {
    Named,
    Identified,
}

/// The lines of a file.
#[derive(Clone, Copy, Default)]
pub struct Receipt {
    pub judged: u32,
    pub accepted: u32,
    pub refused: u32,
}

/// A file that has not ended.
pub struct File {
    entity: Acer,
    pub stage: Stage,
    /// The counts so far. A file that is only named has judged nothing: they are the three zeros
    /// of its receipt.
    pub counts: Receipt,
}

/// Names a file.
pub fn name_file(name: &[u8]) -> Result<File, Refusal> {
    let (entity, _) = entity_in_name(name).ok_or(Refusal::plain(64, 0))?;
    Ok(File { entity, stage: Stage::Named, counts: Receipt::default() })
}

/// All that is held but the files.
pub struct Register {
    pub entities: Entities,
    pub contracts: Contracts,
    pub lives: Lives,
}

impl Register {
    /// Holds nothing yet, with room for so many lives.
    pub fn new(capacity: usize) -> Register {
        Register {
            entities: Entities::default(),
            contracts: Contracts::default(),
            lives: Lives::new(capacity),
        }
    }

    /// Identifies a file.
    pub fn identify(&self, file: &mut File, code: &[u8]) -> Result<(), Refusal> {
        ensure(file.stage == Stage::Named, Refusal::OUT_OF_PLACE)?;
        // The name's entity has the form of a code, so a code that is the same needs no look at its
        // own form.
        let fits = file.entity == code && self.entities.know(&file.entity);
        ensure(fits, Refusal::coded(65, 0, "R1REPENTCON"))?;
        file.stage = Stage::Identified;
        Ok(())
    }

    /// Judges a line in a file, where it counts.
    pub fn judge(&mut self, file: &mut File, text: &[u8]) -> Result<(), Refusal> {
        ensure(file.stage == Stage::Identified, Refusal::OUT_OF_PLACE)?;
        ensure(file.counts.judged < MAX_JUDGED, Refusal::plain(9, 0))?;
        let lives = &mut self.lives;
        let verdict = read_report(&self.contracts, text).and_then(|(key, line)| {
            lives.enter(key, &line).map_err(|refusal| refusal.within(text))
        });
        file.counts.judged += 1;
        match verdict {
            Ok(()) => file.counts.accepted += 1,
            Err(_) => file.counts.refused += 1,
        }
        verdict
    }

    /// The life of a line's key.
    pub fn look_up(&self, text: &[u8]) -> Result<Option<Life>, Refusal> {
        let (key, _) = read_report(&self.contracts, text)?;
        Ok(self.lives.find(&key))
    }
}

/// The report line in a text and its key, by the rules that do not ask for the lives (section 6).
pub fn read_report<'a>(
    contracts: &Contracts,
    text: &'a [u8],
) -> Result<(Key, Report<'a>), Refusal> {
    let line = Report::parse(text)?;
    let number = contracts.number_for(&line).map_err(|refusal| refusal.within(text))?;
    Ok((Key::of(&line, number), line))
}
