//! Certificates for the comparison: of small sheets that have no draw, whole and tampered, of other sheets, and bytes that are none.
use super::blanks;
use super::calls::{settled, Calls, Counterpart, Lent};
use super::case::{junk, show_sheet, Kind, Outcome};
use super::code_7;
use super::random::Random;
use super::search::{search, Found};
use super::sheets;
use crate::certificate::check::{check, Check, Limits};
use crate::certificate::{elaborate::elaborate, lrat};
use crate::encode::Encoding;
use crate::listing::{listing, write_block};
use crate::model::{first_entrants, Constraint, Group, Model, BLOCK_BYTES};
use crate::sheet;

#[derive(Clone, Debug)]
pub struct CertificateCase {
    pub sheet: Vec<u8>,
    pub certificate: Vec<u8>,
    origin: Origin,
    room: Room,
}

#[derive(Clone, Copy, Debug)]
enum Origin {
    Whole,
    Tampered,
    OtherSheet,
    Noise,
}

impl Origin {
    /// What a case is after a change: a whole certificate is whole no more.
    fn changed_to(self, change: Origin) -> Origin {
        match self {
            Origin::Whole => change,
            origin => origin,
        }
    }
}

/// How much memory is lent: bytes of text, words of the rest.
#[derive(Clone, Copy, Debug)]
struct Room {
    text: usize,
    store: usize,
    index: usize,
    marks: usize,
}

/// A text that takes every block.
const TEXT: usize = BLOCK_BYTES;

/// A sheet that has more lemmas than this is left out.
const MOST_LEMMAS: usize = 600;

/// The kinds of the cases made here, in the order of the report.
pub const KINDS: &[Kind] = &[
    "certify: certified",
    "certify: certified, store compacted",
    "certify: tampered, not certified",
    "certify: tampered, certified all the same",
    "certify: certificate of another sheet",
    "certify: bytes that are no certificate",
    "certify: a sheet that has a draw",
    "certify: settled out",
    "certify: sheet refused",
    "certify: text too short",
    "certify: store too short",
    "certify: index too short",
    "certify: marks too short",
];

/// The clauses of a settled sheet, in the listing's order.
pub fn clauses(encoding: &Encoding) -> Vec<Vec<i32>> {
    let mut clauses = Vec::new();
    for block in 1..=encoding.blocks() {
        encoding.each_clause(block, &mut |clause| clauses.push(clause.to_vec()));
    }
    clauses
}

/// Whether a text takes each block in turn.
fn takes_blocks(encoding: &Encoding, length: usize) -> bool {
    let mut text = vec![0; length];
    (1..=encoding.blocks()).all(|block| write_block(encoding, block, &mut text).is_ok())
}

/// The plain check of a certificate, as far as lent memory allows.
pub fn checked(encoding: &Encoding, certificate: &[u8], lent: &Lent) -> Check {
    let limits = Limits { numbers: lent.index.len(), literals: lent.marks.len() };
    let check = check(&clauses(encoding), certificate, limits);
    Check { certified: check.certified && takes_blocks(encoding, lent.text.len()) && lent.store.len() > check.live, ..check }
}

impl Lent {
    fn new(room: Room) -> Lent {
        let words = |length: usize| (0..length as u32).map(|at| at.wrapping_mul(0x9E37_79B9) | 1 << 31).collect();
        Lent { text: junk(room.text), store: words(room.store), index: words(room.index), marks: words(room.marks) }
    }
}

impl CertificateCase {
    pub fn check(&self, other: &dyn Calls, outcome: &mut Outcome) {
        let mut lent = Lent::new(self.room);
        let before = Lent::new(self.room);
        let ours = Counterpart.certify(&self.sheet, &self.certificate, &mut Lent::new(self.room));
        let theirs = other.certify(&self.sheet, &self.certificate, &mut lent);
        let Ok(settled) = settled(&self.sheet) else {
            let refused = ours % 4 == 1;
            outcome.note(if refused { "certify: sheet refused" } else { "certify: settled out" });
            outcome.compare("kind + 4 * refusal + 65536 * line", ours, theirs);
            if refused {
                outcome.compare_bytes("text", &before.text, &lent.text);
                outcome.compare_bytes("store", &before.store, &lent.store);
                outcome.compare_bytes("index", &before.index, &lent.index);
                outcome.compare_bytes("marks", &before.marks, &lent.marks);
            }
            return;
        };
        let encoding = Encoding::of(&settled);
        let check = checked(&encoding, &self.certificate, &before);
        if matches!(search(&clauses(&encoding), encoding.variables, MOST_LEMMAS), Found::Assignment) {
            outcome.note("certify: a sheet that has a draw");
            outcome.compare("kind, where there is a draw", 0, theirs % 4);
        }
        self.note(&encoding, &check, outcome);
        let tight = self.room.store < roomy(check.live);
        if !(tight && theirs % 4 == 0) {
            outcome.compare("kind", ours % 4, theirs % 4);
        }
        if theirs % 4 == 0 {
            outcome.compare("whether there is a reason", true, theirs / 4 % 16_384 > 0);
        }
    }

    fn note(&self, encoding: &Encoding, check: &Check, outcome: &mut Outcome) {
        let kind = match (self.origin, check.certified) {
            _ if !takes_blocks(encoding, self.room.text) => "certify: text too short",
            _ if self.room.index <= encoding.clauses() => "certify: index too short",
            _ if self.room.marks < 2 * encoding.variables + 2 => "certify: marks too short",
            _ if self.room.store < roomy(check.live) => "certify: store too short",
            (Origin::Whole, true) if check.all > self.room.store => "certify: certified, store compacted",
            (Origin::Whole, _) => "certify: certified",
            (Origin::Tampered, false) => "certify: tampered, not certified",
            (Origin::Tampered, true) => "certify: tampered, certified all the same",
            (Origin::OtherSheet, _) => "certify: certificate of another sheet",
            (Origin::Noise, _) => "certify: bytes that are no certificate",
        };
        outcome.note(kind);
        if kind.starts_with("certify: certified") {
            outcome.kinds.extend(code_7::has_x(encoding).then_some("different: certified"));
            outcome.compare("whether a whole certificate is certified", check.certified, true);
        }
    }

    /// What the call answers, then the memory it leaves.
    pub fn answer(&self, other: &dyn Calls) -> Vec<u64> {
        let mut lent = Lent::new(self.room);
        let answer = other.certify(&self.sheet, &self.certificate, &mut lent);
        let words = [lent.store, lent.index, lent.marks].into_iter().flatten().map(u64::from);
        [answer].into_iter().chain(lent.text.into_iter().map(u64::from)).chain(words).collect()
    }

    /// The same case on another sheet.
    pub fn with_sheet(&self, sheet: Vec<u8>) -> CertificateCase {
        CertificateCase { sheet, origin: self.origin.changed_to(Origin::OtherSheet), ..self.clone() }
    }

    pub fn with_certificate(&self, certificate: Vec<u8>) -> CertificateCase {
        CertificateCase { certificate, origin: self.origin.changed_to(Origin::Tampered), ..self.clone() }
    }

    pub fn show(&self) -> String {
        format!("certify in {:?}\n{}certificate\n{}\n", self.room, show_sheet(&self.sheet), self.certificate.escape_ascii())
    }
}

/// A store that is never too short for so many words at a time.
fn roomy(live: usize) -> usize {
    live + live / 2 + 64
}

/// The cases made from one sheet.
pub fn cases(random: &mut Random) -> Vec<CertificateCase> {
    let model = crowded(random);
    cases_of(random, &model)
}

/// The cases made from the sheet of a model, most of them where it has no draw. It has a line.
pub fn cases_of(random: &mut Random, model: &Model) -> Vec<CertificateCase> {
    let mut sheet = sheet::write(model);
    if random.chance(40) {
        sheet = blanks::some(random, &sheet);
    }
    let room = Room { text: TEXT + random.below(100), store: 1 << 16, index: 1 << 12, marks: 1 << 10 };
    let noise = CertificateCase { sheet, certificate: noise(random), origin: Origin::Noise, room };
    let Some(certificate) = certificate(&noise.sheet) else { return vec![noise] };
    let whole = CertificateCase { certificate, origin: Origin::Whole, ..noise.clone() };
    let padded = CertificateCase { certificate: padded(&whole), ..whole.clone() };
    let live = settled(&whole.sheet).map_or(0, |settled| checked(&Encoding::of(&settled), &padded.certificate, &Lent::new(room)).live);
    let mut cases = vec![noise, whole.clone()];
    cases.push(CertificateCase { room: Room { store: roomy(live), ..room }, ..padded });
    cases.push(CertificateCase { room: short(random, room, live), ..whole.clone() });
    for _ in 0..4 {
        cases.push(CertificateCase { certificate: tampered(random, &whole.certificate), origin: Origin::Tampered, ..whole.clone() });
    }
    for sheet in [sheet::write(&looser(random, model)), small(random), sheets::damaged(random, &whole.sheet)] {
        cases.push(CertificateCase { sheet, origin: Origin::OtherSheet, ..whole.clone() });
    }
    cases
}

/// The certificate of a sheet that settles and has no draw.
fn certificate(sheet: &[u8]) -> Option<Vec<u8>> {
    let settled = settled(sheet).ok()?;
    let encoding = Encoding::of(&settled);
    let Found::Proof(proof) = search(&clauses(&encoding), encoding.variables, MOST_LEMMAS) else { return None };
    let refutation = elaborate(&listing(&encoding), proof.as_bytes(), &mut |_, _| {}).expect("the search's proof");
    let mut certificate = Vec::new();
    lrat::write(refutation, &mut certificate).expect("a vector takes all");
    Some(certificate)
}

/// The certificate after lemmas that copy the first clause and are deleted again, more than a small store holds.
fn padded(case: &CertificateCase) -> Vec<u8> {
    let clauses = settled(&case.sheet).map(|settled| clauses(&Encoding::of(&settled))).unwrap_or_default();
    let number = clauses.len() + 1;
    let literals: String = clauses[0].iter().map(|literal| format!("{literal} ")).collect();
    let lemma = format!("{number} {literals}0 1 0\n{number} d {number} 0\n");
    [lemma.repeat(3 * clauses.len()).as_bytes(), &case.certificate].concat()
}

/// Tables of one size, no two of which share an entrant; mostly more places than entrants.
fn crowded(random: &mut Random) -> Model {
    let entrants = random.from_to(2, 5) as u32;
    let (tables, size) = random.pick(&[(2, 2), (2, 3), (3, 1), (3, 2), (4, 1), (5, 1)]);
    let everyone = first_entrants(entrants);
    let size = size.min(entrants);
    let mut groups = vec![Group { fixed: 0, possible: everyone, low: size, high: size }; tables];
    groups[0].possible &= !random.set(entrants, 10);
    let mut constraints = Vec::new();
    for f in 0..tables {
        for g in f + 1..tables {
            constraints.push(Constraint { code: 3, groups: vec![groups.len(), f, g] });
            groups.push(Group { fixed: 0, possible: everyone, low: 0, high: 0 });
        }
    }
    random.shuffle(&mut constraints);
    Model { entrants, groups, constraints }
}

/// The model without one of its lines, or with one of its groups free in size.
fn looser(random: &mut Random, model: &Model) -> Model {
    let mut looser = model.clone();
    if random.chance(50) {
        looser.constraints.remove(random.below(model.constraints.len()));
    } else {
        let group = &mut looser.groups[random.below(model.groups.len())];
        (group.low, group.high) = (0, model.entrants);
    }
    looser
}

/// A valid sheet whose assignments can be searched through.
fn small(random: &mut Random) -> Vec<u8> {
    loop {
        let sheet = sheets::valid(random).sheet;
        if sheet::read(&sheet).is_ok_and(|model| model.entrants as usize * model.groups.len() <= 12) {
            return sheet;
        }
    }
}

/// One piece of the memory too short.
fn short(random: &mut Random, room: Room, live: usize) -> Room {
    match random.below(4) {
        0 => Room { text: random.below(200), ..room },
        1 => Room { store: random.below(roomy(live)), ..room },
        2 => Room { index: random.below(30), ..room },
        _ => Room { marks: random.below(20), ..room },
    }
}

fn noise(random: &mut Random) -> Vec<u8> {
    let length = random.below(60);
    let any = random.chance(50);
    (0..length).map(|_| if any { random.word() as u8 } else { random.pick(b"0123456789 -d\n") }).collect()
}

/// A certificate with one or two changes.
fn tampered(random: &mut Random, certificate: &[u8]) -> Vec<u8> {
    let mut lines: Vec<Vec<u8>> = certificate.split_inclusive(|&byte| byte == b'\n').map(<[u8]>::to_vec).collect();
    for _ in 0..random.from_to(1, 2) {
        let (at, other) = (random.below(lines.len()), random.below(lines.len()));
        match random.below(8) {
            0 if lines.len() > 1 => drop(lines.remove(at)),
            1 => lines.swap(at, other),
            2 => lines.insert(other, lines[at].clone()),
            3 => lines.truncate(at + 1),
            4 => tamper_bytes(random, &mut lines[at]),
            _ => lines[at] = tampered_words(random, &lines[at]),
        }
    }
    let mut certificate = lines.concat();
    if random.chance(5) {
        certificate.truncate(random.below(certificate.len() + 1));
    }
    certificate
}

fn tamper_bytes(random: &mut Random, line: &mut Vec<u8>) {
    if line.is_empty() {
        return;
    }
    let at = random.below(line.len());
    match random.below(3) {
        0 => line[at] = random.pick(b" -0123456789d\n\r\0a"),
        1 => line.insert(at, random.pick(b" -0123456789d\n\t")),
        _ => drop(line.remove(at)),
    }
}

/// The line with a word dropped, doubled, negated, replaced by another number or exchanged with another word.
fn tampered_words(random: &mut Random, line: &[u8]) -> Vec<u8> {
    let mut words: Vec<Vec<u8>> = line.split(|&byte| byte == b' ').map(<[u8]>::to_vec).collect();
    let (at, other) = (random.below(words.len()), random.below(words.len()));
    match random.below(5) {
        0 => drop(words.remove(at)),
        1 => words.insert(other, words[at].clone()),
        2 => words[at] = [b"-", &words[at][..]].concat(),
        3 => words[at] = random.pick(&["1", "2", "3", "40", "4095", "4096", "511", "512", "400000000", "400000001", "99999999999"]).as_bytes().to_vec(),
        _ => words.swap(at, other),
    }
    words.join(&b' ')
}
