//! Input lines of `checker`.
//!
//! The generator keeps a rough picture of what a checker holds (lists, file, lives), only to steer:
//! most report lines shall fit, and the others shall miss by a little. It does not matter where the
//! picture is wrong.

use crate::forms::*;
use crate::rng::{Rng, Text};

const MAX_TIME: u64 = 4_294_967_295;

/// How many lives the program `checker` holds where no option says another number.
const CAPACITY: usize = 255;

/// What the generator does next; each makes one input line or a few.
const STEPS: [fn(&mut Generator); 9] = [
    Generator::fitting_report,
    Generator::damaged_report,
    Generator::mutated,
    Generator::contract_step,
    Generator::entity_step,
    Generator::file_step,
    Generator::tell,
    Generator::noise,
    Generator::length,
];

struct Mix {
    /// How often each step is taken, in the order of `STEPS`.
    weights: [usize; 9],
    /// The least and the most number of keys.
    keys: (usize, usize),
    /// In percent: actions that need not fit, times that fall, keys given up that have no life.
    misfit: usize,
    falling: usize,
    renewal: usize,
}

const MIXES: [Mix; 8] = [
    // Good lines over few keys; over more keys; and over so many that the register is full.
    Mix {
        weights: [930, 8, 3, 2, 1, 6, 45, 4, 1],
        keys: (2, 12),
        misfit: 8,
        falling: 3,
        renewal: 3,
    },
    Mix {
        weights: [920, 8, 3, 2, 1, 12, 50, 3, 1],
        keys: (30, 120),
        misfit: 5,
        falling: 2,
        renewal: 5,
    },
    Mix {
        weights: [960, 4, 2, 1, 1, 2, 28, 1, 1],
        keys: (400, 900),
        misfit: 4,
        falling: 1,
        renewal: 2,
    },
    // Damaged fields; many files; long lists.
    Mix {
        weights: [300, 560, 50, 20, 5, 15, 30, 15, 5],
        keys: (5, 40),
        misfit: 20,
        falling: 10,
        renewal: 20,
    },
    Mix {
        weights: [450, 30, 20, 20, 10, 330, 80, 50, 10],
        keys: (5, 40),
        misfit: 15,
        falling: 8,
        renewal: 10,
    },
    Mix {
        weights: [400, 60, 10, 330, 120, 30, 30, 15, 5],
        keys: (20, 90),
        misfit: 10,
        falling: 5,
        renewal: 20,
    },
    // A bit of all; bytes damaged at random.
    Mix {
        weights: [500, 130, 100, 60, 30, 60, 60, 40, 20],
        keys: (10, 300),
        misfit: 25,
        falling: 15,
        renewal: 10,
    },
    Mix {
        weights: [330, 60, 450, 20, 20, 30, 40, 40, 10],
        keys: (3, 60),
        misfit: 15,
        falling: 10,
        renewal: 10,
    },
];

// ---------- The generator

#[derive(Clone, Copy, PartialEq)]
enum Stage {
    NoFile,
    Named,
    Identified,
}

#[derive(Clone, Copy, PartialEq)]
enum Held {
    Nothing,
    Open,
    Cancelled,
}

#[derive(Clone)]
struct Contract {
    id: Text,
    names: Vec<Text>,
}

/// A key, with what is believed to be held under it.
#[derive(Clone)]
struct Slot {
    kind: &'static [u8],
    id: Text,
    contract: Contract,
    venue: &'static [u8],
    participant: Text,
    side: &'static [u8],
    held: Held,
    time: u64,
    /// The last line of this key may have been damaged, so that `held` may be wrong.
    doubtful: bool,
}

struct Generator {
    rng: Rng,
    mix: &'static Mix,
    out: Text,
    lines: usize,
    target: usize,
    capacity: usize,
    keys: usize,
    many_names: bool,
    entities: Vec<Text>,
    participants: Vec<Text>,
    contracts: Vec<Contract>,
    /// Lines that add to the lists, or try to, and the names in them: below the limits, the lists
    /// have room for sure.
    entity_lines: usize,
    contract_lines: usize,
    listed_names: usize,
    /// Errors for lives that damaged lines may have entered under keys that are not among the
    /// slots.
    strays: Vec<Text>,
    slots: Vec<Slot>,
    held: usize,
    clock: u64,
    stage: Stage,
    /// The entity in the name of the last file.
    entity: Text,
}

/// So many input lines of `checker`. The mix goes by the remainder of the starting number by 8.
pub fn checker(seed: u64, lines: usize) -> Text {
    mixed(seed, (seed % 8) as usize, lines, CAPACITY)
}

/// So many input lines of a mix, the good ones for a checker that holds so many lives.
pub fn mixed(seed: u64, mix: usize, lines: usize, capacity: usize) -> Text {
    Generator::new(seed, &MIXES[mix], lines, capacity).run()
}

impl Generator {
    fn new(seed: u64, mix: &'static Mix, target: usize, capacity: usize) -> Generator {
        let mut rng = Rng::new(seed);
        let participants = (0..rng.range(1, 4)).map(|_| rng.acer()).collect();
        Generator {
            mix,
            out: Vec::new(),
            lines: 0,
            target,
            capacity,
            keys: rng.range(mix.keys.0, mix.keys.1),
            many_names: rng.percent(50),
            entities: Vec::new(),
            participants,
            contracts: Vec::new(),
            entity_lines: 0,
            contract_lines: 0,
            listed_names: 0,
            strays: Vec::new(),
            slots: Vec::new(),
            held: 0,
            clock: rng.below(4_000_000_000) as u64,
            stage: Stage::NoFile,
            entity: rng.acer(),
            rng,
        }
    }

    fn emit(&mut self, line: &[u8]) {
        if self.lines < self.target {
            self.entity_lines += usize::from(line.starts_with(b"R;"));
            if line.starts_with(b"K;") {
                self.contract_lines += 1;
                self.listed_names += 1 + line.iter().filter(|byte| **byte == b',').count();
            }
            self.out.extend_from_slice(line);
            self.out.push(b'\n');
            self.lines += 1;
        }
    }

    fn command(&mut self, letter: u8, text: &[u8]) {
        self.emit(&[&[letter, b';'], text].concat());
    }

    fn run(mut self) -> Text {
        if self.rng.percent(20) {
            // Out of order: nothing is listed yet, and no file named.
            (0..30).for_each(|_| self.step());
            self.slots.retain(|slot| slot.held != Held::Nothing);
            self.end_file();
        }
        self.begin();
        while self.lines < self.target {
            if self.stage != Stage::Identified && self.rng.percent(80) {
                self.file_step();
            } else {
                self.step();
            }
        }
        if self.rng.percent(40) {
            self.target += 1;
            self.end_file();
        }
        if self.rng.percent(50) {
            self.out.pop();
        }
        self.out
    }

    /// Some entities and contracts: without names, with one, and with several.
    fn begin(&mut self) {
        for _ in 0..self.rng.range(1, 4) {
            self.add_entity();
        }
        for names in [0, 1, 2, 3, 0, 8].iter().take(self.rng.range(2, 6)) {
            self.add_contract(*names);
        }
    }

    fn step(&mut self) {
        let mut rest = self.rng.below(self.mix.weights.iter().sum());
        for (step, weight) in STEPS.iter().zip(self.mix.weights.iter()) {
            if rest < *weight {
                return step(self);
            }
            rest -= weight;
        }
    }

    fn tell(&mut self) {
        let letter = *self.rng.pick(b"TW");
        self.emit(&[letter]);
    }

    fn noise(&mut self) {
        let mut line = self.rng.text(NOISE);
        if self.rng.percent(15) {
            line = (0..self.rng.below(60)).map(|_| self.rng.below(256) as u8).collect();
        }
        self.emit(&line);
    }

    // ---------- Entities and contracts

    fn add_entity(&mut self) {
        let wanted = !self.entity_known() && self.rng.percent(50);
        let code = if wanted { self.entity.clone() } else { self.rng.acer() };
        if !self.entities.contains(&code) && self.entity_lines < 32 {
            self.entities.push(code.clone());
        }
        self.command(b'R', &code);
    }

    fn entity_known(&self) -> bool {
        self.entities.contains(&self.entity)
    }

    fn entity_step(&mut self) {
        let known = self.some_entity();
        match self.rng.below(10) {
            0..=5 => self.add_entity(),
            6 | 7 => self.command(b'R', &known),
            _ => {
                let code = acer_case(&mut self.rng, &known);
                self.command(b'R', &code);
            }
        }
    }

    fn some_entity(&mut self) -> Text {
        if self.entities.is_empty() || self.rng.percent(5) {
            self.rng.acer()
        } else {
            self.rng.pick(&self.entities).clone()
        }
    }

    fn contract_step(&mut self) {
        if self.rng.percent(50) {
            return self.odd_contract();
        }
        let names = if self.many_names && self.rng.percent(85) { 8 } else { self.rng.below(4) };
        self.add_contract(names);
    }

    fn add_contract(&mut self, count: usize) {
        let number = self.rng.below(100_000);
        let id = match self.rng.below(6) {
            0 => self.rng.id(32, 32),
            1 => self.rng.id(1, 6),
            _ => format!("DE-{number}").into_bytes(),
        };
        let size = *self.rng.pick(&[6, 6, 6, 32]);
        let names: Vec<Text> = (0..count).map(|_| self.rng.id(size, size)).collect();
        let kind = self.rng.text(&TYPES);
        let style = if kind.starts_with(b"OP") || self.rng.percent(30) {
            self.rng.bytes(1, b"ACEZ")
        } else {
            Vec::new()
        };
        let text = [id.clone(), kind, style, names.join(&b',')].join(&b';');
        if self.contract_lines < 63 && self.listed_names + count <= 255 {
            self.contracts.push(Contract { id, names });
        }
        self.command(b'K', &text);
    }

    /// A contract that misses in one or more ways: damaged fields, one listed before, no style, a
    /// name twice.
    fn odd_contract(&mut self) {
        let mut fields =
            vec![self.rng.id(1, 8), self.rng.text(&TYPES), b"E".to_vec(), self.rng.id(1, 4)];
        for _ in 0..self.rng.range(1, 2) {
            match self.rng.below(9) {
                0 => fields[0] = id_case(&mut self.rng, 32),
                1 => fields[1] = self.rng.text(TYPE_CASES),
                2 => fields[2] = self.rng.text(STYLE_CASES),
                3 => fields[3] = names_case(&mut self.rng),
                4 | 5 if !self.contracts.is_empty() => {
                    fields[0] = self.rng.pick(&self.contracts).id.clone()
                }
                6 => fields[2].clear(),
                7 => {
                    fields[3] = self
                        .rng
                        .text(&[b"a,a", b"a,b,a", b"x,A,a,A", b"1,2,3,4,5,6,7,1", b"a,aa,a"])
                }
                _ if self.rng.percent(50) => fields.push(self.rng.text(&[b"", b"x"])),
                _ if fields.len() > 4 => fields.truncate(4),
                _ => {
                    let text = fields[..3].join(&b';');
                    return self.command(b'K', &text);
                }
            }
        }
        self.command(b'K', &fields.join(&b';'));
    }

    // ---------- Files

    fn name_file(&mut self) {
        let entity = if self.rng.percent(8) { self.rng.acer() } else { self.some_entity() };
        let name = name_parts(&mut self.rng, &entity).join(&b'_');
        self.command(b'F', &name);
        if self.stage == Stage::NoFile {
            self.stage = Stage::Named;
            self.entity = entity;
        }
    }

    /// Names that may or may not have their form; the file that may have begun is ended.
    fn odd_name(&mut self) {
        let entity = self.some_entity();
        let name = name_case(&mut self.rng, &entity);
        self.command(b'F', &name);
        self.end_file();
    }

    fn identify(&mut self, code: &[u8]) {
        self.command(b'I', code);
        let fits = self.entity == code && self.entity_known();
        if self.stage == Stage::Named && fits {
            self.stage = Stage::Identified;
        }
    }

    fn odd_code(&mut self) {
        let code = match self.rng.below(3) {
            0 => self.some_entity(),
            1 => self.rng.acer(),
            _ => acer_case(&mut self.rng, &self.entity),
        };
        self.identify(&code);
    }

    fn end_file(&mut self) {
        self.emit(b"X");
        self.stage = Stage::NoFile;
    }

    fn out_of_place(&mut self) {
        match self.rng.below(4) {
            0 => self.name_file(),
            1 => self.identify(&self.entity.clone()),
            2 => self.end_file(),
            _ => self.fitting_report(),
        }
    }

    fn file_step(&mut self) {
        match (self.stage, self.rng.below(100)) {
            (Stage::NoFile, 0..=84) => self.name_file(),
            (Stage::NoFile, 85..=92) => self.odd_name(),
            (Stage::NoFile, _) => self.out_of_place(),
            (Stage::Named, 0..=19) if !self.entity_known() => self.add_entity(),
            (Stage::Named, 20..=44) if !self.entity_known() => self.end_file(),
            (Stage::Named, 0..=69) => self.identify(&self.entity.clone()),
            (Stage::Named, 70..=81) => self.odd_code(),
            (Stage::Named, 82..=87) => self.end_file(),
            (Stage::Named, 88..=92) => self.out_of_place(),
            (Stage::Named, _) => self.entity_step(),
            (Stage::Identified, 0..=59) => self.end_file(),
            (Stage::Identified, _) => match self.rng.below(3) {
                0 => self.name_file(),
                1 => self.odd_name(),
                _ => self.identify(&self.entity.clone()),
            },
        }
    }

    // ---------- Report lines

    /// Ids that are alike: long ones that differ only near their end, other cases of letters, one
    /// that begins another.
    fn new_id(&mut self) -> Text {
        let number = self.rng.below(1_000_000);
        let alike = if self.slots.is_empty() {
            b"T".to_vec()
        } else {
            self.rng.pick(&self.slots).id.clone()
        };
        match self.rng.below(12) {
            0 => format!("{number:0>52}").into_bytes(),
            1 => self.rng.id(1, 3),
            2 if alike.len() < 52 => [alike, self.rng.id(1, 1)].concat(),
            3 => alike.to_ascii_lowercase(),
            _ => format!("T-{number}").into_bytes(),
        }
    }

    fn new_slot(&mut self) -> Slot {
        let none = Contract { id: b"DE-0".to_vec(), names: Vec::new() };
        let contract =
            if self.contracts.is_empty() { none } else { self.rng.pick(&self.contracts).clone() };
        let slot = Slot {
            kind: *self.rng.pick(&KINDS),
            id: self.new_id(),
            contract,
            venue: *self.rng.pick(&VENUES),
            participant: self.rng.pick(&self.participants).clone(),
            side: *self.rng.pick(&SIDES),
            held: Held::Nothing,
            time: 0,
            doubtful: false,
        };
        if self.slots.is_empty() || self.rng.percent(70) {
            return slot;
        }
        // A key that differs from another in one of its six parts.
        let mut sibling = Slot {
            held: Held::Nothing,
            time: 0,
            doubtful: false,
            ..self.rng.pick(&self.slots).clone()
        };
        match self.rng.below(6) {
            0 => sibling.kind = KINDS[usize::from(sibling.kind == KINDS[0])],
            1 => sibling.side = SIDES[usize::from(sibling.side == SIDES[0])],
            2 => sibling.contract = slot.contract,
            3 => sibling.venue = slot.venue,
            4 => sibling.participant = slot.participant,
            _ => sibling.id = slot.id,
        }
        sibling
    }

    fn fitting_report(&mut self) {
        let clear = self.stage == Stage::Identified && self.rng.percent(25);
        let line = if clear { self.strays.pop() } else { None };
        let line = line.unwrap_or_else(|| self.report(true).join(&b';'));
        self.command(b'P', &line);
    }

    /// Emits a report line that may be damaged. If it may be a New, its Error is kept for later.
    fn doubtful_report(&mut self, text: &[u8]) {
        self.command(b'P', text);
        let mut fields: Vec<Text> = text.split(|byte| *byte == b';').map(<[u8]>::to_vec).collect();
        let plain = fields.len() == 11 && KINDS.contains(&&fields[0][..]) && fields[1].len() <= 52;
        if plain && fields[6] == b"N" && SIDES.contains(&&fields[5][..]) {
            fields[6] = b"E".to_vec();
            fields[7] = MAX_TIME.to_string().into_bytes();
            self.strays.push(fields.join(&b';'));
        }
    }

    /// The fields of a report line that has its form and mostly fits. If it may be damaged
    /// afterwards, it is not certain what is held under its key then.
    fn report(&mut self, certain: bool) -> Vec<Text> {
        if self.slots.len() < self.keys {
            let slot = self.new_slot();
            self.slots.push(slot);
        }
        let at = self.rng.below(self.slots.len());
        let free = self.slots[at].held == Held::Nothing && !self.slots[at].doubtful;
        if free && self.rng.percent(self.mix.renewal) {
            self.slots[at] = self.new_slot();
        }
        let mut slot = self.slots[at].clone();
        let action = self.action(&slot);
        let time = self.time(&slot, action);
        slot.doubtful |= !certain;
        if certain && self.stage == Stage::Identified {
            slot.doubtful &= action != b'E';
            self.note(&mut slot, action, time);
        }
        self.slots[at] = slot.clone();
        let (contract, names) = self.contract_and_names(&slot);
        let time = if self.rng.percent(3) { format!("{time:010}") } else { time.to_string() };
        let (quantity, price) = (self.quantity(), self.price());
        let (kind, venue, side) = (slot.kind.to_vec(), slot.venue.to_vec(), slot.side.to_vec());
        let fields = [
            kind,
            slot.id,
            contract,
            venue,
            slot.participant,
            side,
            vec![action],
            time.into_bytes(),
        ];
        fields.iter().cloned().chain([quantity, price, names].iter().cloned()).collect()
    }

    fn action(&mut self, slot: &Slot) -> u8 {
        match slot.held {
            _ if self.rng.percent(self.mix.misfit) => *self.rng.pick(ACTIONS),
            Held::Nothing if slot.doubtful => *self.rng.pick(b"NEE"),
            Held::Nothing => b'N',
            Held::Open => *self.rng.pick(b"MMMMMMCCEE"),
            Held::Cancelled => *self.rng.pick(b"EEEEEEEEEEEENMC"),
        }
    }

    fn time(&mut self, slot: &Slot, action: u8) -> u64 {
        self.clock += self.rng.below(3) as u64;
        let step = self.rng.range(1, 50) as u64;
        let time = match (slot.held, self.rng.below(200)) {
            _ if slot.doubtful && action == b'E' => MAX_TIME,
            (_, 0) => *self.rng.pick(&[0, MAX_TIME, MAX_TIME - 1]),
            (Held::Nothing, 1..=40) => self.clock.saturating_sub(step * 100),
            (Held::Nothing, _) => self.clock,
            _ if self.rng.percent(self.mix.falling) => {
                slot.time.saturating_sub(*self.rng.pick(&[1, 1, 2, step]))
            }
            (_, 1..=30) => slot.time,
            _ => slot.time + step,
        };
        time.min(MAX_TIME)
    }

    /// Keeps the picture of the lives up.
    fn note(&mut self, slot: &mut Slot, action: u8, time: u64) {
        if slot.held != Held::Nothing && time < slot.time {
            return;
        }
        match (action, slot.held) {
            (b'N', Held::Nothing) if self.held < self.capacity => {
                slot.held = Held::Open;
                self.held += 1;
            }
            (b'M', Held::Open) => (),
            (b'C', Held::Open) => slot.held = Held::Cancelled,
            (b'E', Held::Open) | (b'E', Held::Cancelled) => {
                slot.held = Held::Nothing;
                self.held = self.held.saturating_sub(1);
            }
            _ => return,
        }
        slot.time = time;
    }

    /// Fields 3 and 11. At XBIL both are free, and change from line to line of the same key.
    fn contract_and_names(&mut self, slot: &Slot) -> (Text, Text) {
        if slot.venue == b"XBIL" {
            let unlisted = self.rng.id(0, 32);
            let contract = self.rng.pick(&[slot.contract.id.clone(), Vec::new(), unlisted]).clone();
            let names = if self.rng.percent(80) {
                Vec::new()
            } else {
                self.rng.text(&[b"a", b"a,a", b"NBP,TTF"])
            };
            return (contract, names);
        }
        let listed = &slot.contract.names;
        if listed.is_empty() || (listed.len() == 1 && self.rng.percent(50)) {
            return (slot.contract.id.clone(), Vec::new());
        }
        let count = *self.rng.pick(&[1, 1, 2, 8]);
        let names: Vec<Text> = (0..count).map(|_| self.rng.pick(listed).clone()).collect();
        (slot.contract.id.clone(), names.join(&b','))
    }

    /// A decimal below `end`, perhaps with zeros before it up to `width` digits.
    fn decimal(&mut self, end: usize, width: usize) -> String {
        let (whole, part) = (self.rng.below(end), self.rng.below(100_000));
        match self.rng.below(10) {
            0 => format!("{whole:0width$}"),
            1 => format!("{whole}.{part:05}"),
            2 | 3 => format!("{whole}.{}", part % 100),
            _ => whole.to_string(),
        }
    }

    fn quantity(&mut self) -> Text {
        if self.rng.percent(3) {
            return self.rng.text(&[
                b"10000000", b"10000000.00000", b"9999999.99999", b"0", b"0.00000", b"0.00001",
            ]);
        }
        self.decimal(2000, 8).into_bytes()
    }

    fn price(&mut self) -> Text {
        match self.rng.below(30) {
            0..=2 => Vec::new(),
            3 => self.rng.text(&[
                b"1000000", b"-1000000", b"-1000000.00000", b"-0", b"-0.00001", b"0", b"0000001",
            ]),
            4..=10 => ["-".to_string(), self.decimal(500, 7)].concat().into_bytes(),
            _ => self.decimal(500, 7).into_bytes(),
        }
    }

    // ---------- Damage

    /// A report line with damaged fields, a wrong number of fields, or fields that do not fit the
    /// contracts.
    fn damaged_report(&mut self) {
        let mut fields = self.report(false);
        match self.rng.below(12) {
            0 => {
                let contract = if self.rng.percent(30) { Vec::new() } else { self.rng.id(1, 32) };
                fields[2] = self.rng.pick(&[contract, fields[1].clone(), b"de-1".to_vec()]).clone();
            }
            1 => fields[10] = self.rng.text(&[b"", b"", b"", b"NBP", b"a", b"x,y"]),
            2 if !fields[10].is_empty() => fields[10].extend(b",TTF"),
            3 => drop(fields.remove(self.rng.below(11))),
            4 => fields.insert(self.rng.below(12), self.rng.text(&[b"", b"x", b"0"])),
            5 => fields.swap(self.rng.below(11), self.rng.below(11)),
            _ => {
                for _ in 0..*self.rng.pick(&[1, 1, 1, 2, 4]) {
                    let field = self.rng.range(1, 11);
                    fields[field - 1] = report_case(&mut self.rng, field);
                }
            }
        }
        self.doubtful_report(&fields.join(&b';'));
    }

    /// A well-formed line with damaged bytes. A damaged file command is followed by an `X`, so that
    /// the picture holds.
    fn mutated(&mut self) {
        let mut line = match self.rng.below(20) {
            0 => [b"F;".to_vec(), name_parts(&mut self.rng, &self.entity.clone()).join(&b'_')]
                .concat(),
            1 => [b"I;".to_vec(), self.entity.clone()].concat(),
            2 => {
                [b"K;".to_vec(), self.rng.id(1, 6), b";SWG;A;".to_vec(), self.rng.id(1, 6)].concat()
            }
            3 => [b"R;".to_vec(), self.some_entity()].concat(),
            4 => self.rng.text(NOISE),
            _ => [b"P;".to_vec(), self.report(false).join(&b';')].concat(),
        };
        let files = line.starts_with(b"F") || line.starts_with(b"I");
        mutate(&mut self.rng, &mut line);
        if self.rng.percent(1) {
            line.insert(self.rng.below(line.len() + 1), b'\n');
        }
        match line.strip_prefix(b"P;") {
            Some(text) => self.doubtful_report(text),
            None => self.emit(&line),
        }
        if files {
            self.end_file();
        }
    }

    /// Lines about as long as a line may be, and the longest report line that has its form (416
    /// bytes).
    fn length(&mut self) {
        if self.rng.percent(15) {
            let names: Vec<Text> = (0..8).map(|_| self.rng.id(32, 32)).collect();
            let (id, contract, names) =
                (self.rng.id(52, 52), self.rng.id(32, 32), names.join(&b','));
            let middle = b"XBIL;C0643778W.EU;S;N;4294967295;10000000.00000;-1000000.00000".to_vec();
            return self
                .doubtful_report(&[b"TRD".to_vec(), id, contract, middle, names].join(&b';'));
        }
        let size = *self.rng.pick(&[
            511, 512, 513, 514, 514, 515, 515, 516, 1030, 5000, 8192, 65_535, 65_536, 70_000,
        ]);
        let mut line = match self.rng.below(8) {
            0 => b"P;".to_vec(),
            1 => [b"P;".to_vec(), self.report(false).join(&b';')].concat(),
            2 => b"P;TRD;".to_vec(),
            3 => b"K;DE-1;FW;;".to_vec(),
            4 => [b"R;".to_vec(), self.some_entity()].concat(),
            5 => [b"F;".to_vec(), name_parts(&mut self.rng, &self.entity.clone()).join(&b'_')]
                .concat(),
            6 => [b"I;".to_vec(), self.entity.clone()].concat(),
            _ => self.rng.text(&[b"T", b"W", b"X", b"", b"T;", b"Q;"]),
        };
        let fill = *self.rng.pick(b"x ;0,\0\r\xFF");
        line.resize(size.max(line.len()), fill);
        self.emit(&line);
    }
}
