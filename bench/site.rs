//! A second implementation of a site, in plain Rust with the standard library alone. It is written from the rules in docs/ and shares no code with the
//! proved crates, so that the two can be compared: how fast they are, and whether they answer alike.
//!
//! `site bench [CALLS]` times a site's calls: checksums of the replies go to standard output, times to standard error.
//! `site gen SEED CALLS` prints a scenario of so many calls on a pool with liars in it.
//! `site answer` reads a scenario and prints what each call is answered.

mod hostile;

use std::env;
use std::io;
use std::process::ExitCode;

/// SHA-256 and HMAC-SHA-256 under a prepared key.
mod sha256 {
    const K: [u32; 64] = [
        0x428a2f98, 0x71374491, 0xb5c0fbcf, 0xe9b5dba5, 0x3956c25b, 0x59f111f1, 0x923f82a4, 0xab1c5ed5, 0xd807aa98,
        0x12835b01, 0x243185be, 0x550c7dc3, 0x72be5d74, 0x80deb1fe, 0x9bdc06a7, 0xc19bf174, 0xe49b69c1, 0xefbe4786,
        0x0fc19dc6, 0x240ca1cc, 0x2de92c6f, 0x4a7484aa, 0x5cb0a9dc, 0x76f988da, 0x983e5152, 0xa831c66d, 0xb00327c8,
        0xbf597fc7, 0xc6e00bf3, 0xd5a79147, 0x06ca6351, 0x14292967, 0x27b70a85, 0x2e1b2138, 0x4d2c6dfc, 0x53380d13,
        0x650a7354, 0x766a0abb, 0x81c2c92e, 0x92722c85, 0xa2bfe8a1, 0xa81a664b, 0xc24b8b70, 0xc76c51a3, 0xd192e819,
        0xd6990624, 0xf40e3585, 0x106aa070, 0x19a4c116, 0x1e376c08, 0x2748774c, 0x34b0bcb5, 0x391c0cb3, 0x4ed8aa4a,
        0x5b9cca4f, 0x682e6ff3, 0x748f82ee, 0x78a5636f, 0x84c87814, 0x8cc70208, 0x90befffa, 0xa4506ceb, 0xbef9a3f7,
        0xc67178f2,
    ];

    const INITIAL: [u32; 8] =
        [0x6a09e667, 0xbb67ae85, 0x3c6ef372, 0xa54ff53a, 0x510e527f, 0x9b05688c, 0x1f83d9ab, 0x5be0cd19];

    /// The hash value after one block more.
    fn compress(state: &[u32; 8], block: &[u8; 64]) -> [u32; 8] {
        let mut w = [0u32; 64];
        for (word, bytes) in w.iter_mut().zip(block.as_chunks::<4>().0) {
            *word = u32::from_be_bytes(*bytes);
        }
        for t in 16..64 {
            let s0 = w[t - 15].rotate_right(7) ^ w[t - 15].rotate_right(18) ^ (w[t - 15] >> 3);
            let s1 = w[t - 2].rotate_right(17) ^ w[t - 2].rotate_right(19) ^ (w[t - 2] >> 10);
            w[t] = w[t - 16].wrapping_add(s0).wrapping_add(w[t - 7]).wrapping_add(s1);
        }
        let [mut a, mut b, mut c, mut d, mut e, mut f, mut g, mut h] = *state;
        for t in 0..64 {
            let s1 = e.rotate_right(6) ^ e.rotate_right(11) ^ e.rotate_right(25);
            let ch = (e & f) ^ (!e & g);
            let t1 = h.wrapping_add(s1).wrapping_add(ch).wrapping_add(K[t]).wrapping_add(w[t]);
            let s0 = a.rotate_right(2) ^ a.rotate_right(13) ^ a.rotate_right(22);
            let maj = (a & b) ^ (a & c) ^ (b & c);
            let t2 = s0.wrapping_add(maj);
            (h, g, f, e) = (g, f, e, d.wrapping_add(t1));
            (d, c, b, a) = (c, b, a, t1.wrapping_add(t2));
        }
        let mut after = *state;
        for (word, x) in after.iter_mut().zip([a, b, c, d, e, f, g, h]) {
            *word = word.wrapping_add(x);
        }
        after
    }

    fn digest(state: [u32; 8]) -> [u8; 32] {
        let mut bytes = [0; 32];
        for (bytes, word) in bytes.as_chunks_mut::<4>().0.iter_mut().zip(state) {
            *bytes = word.to_be_bytes();
        }
        bytes
    }

    /// The last block of a message that is one block and `tail`, at most 55 bytes.
    fn last_block(tail: &[u8]) -> [u8; 64] {
        let mut block = [0; 64];
        block[..tail.len()].copy_from_slice(tail);
        block[tail.len()] = 0x80;
        block[56..].copy_from_slice(&(8 * (64 + tail.len() as u64)).to_be_bytes());
        block
    }

    /// A key for HMAC-SHA-256, as the hash values after its block, so that a statement costs two compressions.
    #[derive(Clone, Copy)]
    pub struct Sealer {
        inner: [u32; 8],
        outer: [u32; 8],
    }

    impl Sealer {
        pub fn new(key: &[u8; 32]) -> Sealer {
            let started = |mask: u8| {
                let mut block = [mask; 64];
                for (byte, k) in block.iter_mut().zip(key) {
                    *byte ^= k;
                }
                compress(&INITIAL, &block)
            };
            Sealer { inner: started(0x36), outer: started(0x5c) }
        }

        pub fn seal(&self, statement: &[u8; 48]) -> [u8; 32] {
            let inner = digest(compress(&self.inner, &last_block(statement)));
            digest(compress(&self.outer, &last_block(&inner)))
        }
    }
}

/// The record of 80 bytes.
mod record {
    pub const SIZE: usize = 80;
    pub const MARK: u8 = 16;
    pub const LIMIT: u32 = 2_000_000_000;

    pub const REQUEST: u8 = 1;
    pub const GRANT: u8 = 2;
    pub const QUESTION: u8 = 3;
    pub const ANSWER: u8 = 4;
    pub const READ_ANSWER: u8 = 5;
    pub const START: u8 = 6;
    pub const SHOW_GRANT: u8 = 7;
    pub const SHOW_CERT: u8 = 8;

    pub type Bytes = [u8; SIZE];
    pub type Operation = [u8; 16];

    #[derive(Clone, Copy, PartialEq, Eq, Debug)]
    pub struct Request {
        pub client: u8,
        pub number: u32,
        pub operation: Operation,
    }

    #[derive(Clone, Copy, PartialEq, Eq, PartialOrd, Ord, Debug)]
    pub struct Claim {
        pub client: u8,
        pub number: u32,
        pub round: u32,
        pub place: u32,
        pub operation: Operation,
    }

    impl Claim {
        pub fn of(request: &Request, round: u32, place: u32) -> Claim {
            let Request { client, number, operation } = *request;
            Claim { client, number, round, place, operation }
        }

        pub fn mark(round: u32, place: u32) -> Claim {
            Claim { client: MARK, number: round, round, place, operation: [0; 16] }
        }
    }

    /// A record, read where it lies.
    #[derive(Clone, Copy)]
    pub struct Record<'a>(pub &'a Bytes);

    impl<'a> Record<'a> {
        fn part<const N: usize>(&self, at: usize) -> &'a [u8; N] {
            self.0[at..at + N].try_into().unwrap()
        }

        pub fn kind(&self) -> u8 {
            self.0[0]
        }

        pub fn signer(&self) -> u8 {
            self.0[1]
        }

        pub fn client(&self) -> u8 {
            self.0[2]
        }

        pub fn number(&self) -> u32 {
            u32::from_be_bytes(*self.part(4))
        }

        pub fn round(&self) -> u32 {
            u32::from_be_bytes(*self.part(8))
        }

        pub fn place(&self) -> u32 {
            u32::from_be_bytes(*self.part(12))
        }

        pub fn operation(&self) -> &'a Operation {
            self.part(16)
        }

        pub fn answer(&self) -> u64 {
            u64::from_be_bytes(*self.part(32))
        }

        pub fn nonce(&self) -> u64 {
            u64::from_be_bytes(*self.part(40))
        }

        pub fn statement(&self) -> &'a [u8; 48] {
            self.part(0)
        }

        pub fn seal(&self) -> &'a [u8; 32] {
            self.part(48)
        }

        pub fn claim(&self) -> Claim {
            Claim {
                client: self.client(),
                number: self.number(),
                round: self.round(),
                place: self.place(),
                operation: *self.operation(),
            }
        }

        pub fn request(&self) -> Request {
            Request { client: self.client(), number: self.number(), operation: *self.operation() }
        }

        /// Whether every field is as the record's kind asks, in a pool of 3f+1 sites.
        pub fn in_range(&self, f: u8) -> bool {
            let by_site = self.signer() <= 3 * f;
            let by_client = self.signer() == self.client() && self.client() < MARK;
            let by_nobody = self.signer() == 0 && self.client() == 0;
            let no_operation = *self.operation() == [0; 16];
            let placed = self.round() <= LIMIT && self.place() <= LIMIT + 16;
            let unplaced = self.round() == 0 && self.place() == 0;
            let claims = self.number() >= 1
                && self.place() >= 1
                && (self.client() < MARK || self.client() == MARK && self.number() == self.round() && no_operation);
            let no_number = self.number() == 0;
            let no_answer = self.answer() == 0;
            let no_nonce = self.nonce() == 0;
            self.0[3] == 0
                && match self.kind() {
                    REQUEST => by_client && !no_number && unplaced && no_answer && no_nonce,
                    GRANT => by_site && claims && placed && no_answer && no_nonce,
                    QUESTION => by_client && no_number && unplaced && no_answer,
                    ANSWER => by_site && claims && placed && no_nonce,
                    READ_ANSWER => by_site && self.client() < MARK && no_number && placed,
                    START => {
                        by_site && self.client() == 0 && no_number && placed && no_operation && no_answer && no_nonce
                    }
                    SHOW_GRANT => {
                        by_nobody
                            && no_number
                            && self.round() == 0
                            && placed
                            && self.place() >= 1
                            && no_operation
                            && no_answer
                            && no_nonce
                    }
                    SHOW_CERT => by_nobody && no_number && unplaced && no_operation && no_answer && no_nonce,
                    _ => false,
                }
        }
    }

    /// The fields of a record to be written, with an empty seal.
    #[derive(Clone, Copy, Default)]
    pub struct Fields {
        pub kind: u8,
        pub signer: u8,
        pub client: u8,
        pub number: u32,
        pub round: u32,
        pub place: u32,
        pub operation: Operation,
        pub answer: u64,
        pub nonce: u64,
    }

    impl Fields {
        pub fn write(&self) -> Bytes {
            let mut bytes = [0; SIZE];
            bytes[0] = self.kind;
            bytes[1] = self.signer;
            bytes[2] = self.client;
            bytes[4..8].copy_from_slice(&self.number.to_be_bytes());
            bytes[8..12].copy_from_slice(&self.round.to_be_bytes());
            bytes[12..16].copy_from_slice(&self.place.to_be_bytes());
            bytes[16..32].copy_from_slice(&self.operation);
            bytes[32..40].copy_from_slice(&self.answer.to_be_bytes());
            bytes[40..48].copy_from_slice(&self.nonce.to_be_bytes());
            bytes
        }
    }

    pub fn request(request: &Request) -> Bytes {
        let Request { client, number, operation } = *request;
        Fields { kind: REQUEST, signer: client, client, number, operation, ..Fields::default() }.write()
    }

    pub fn question(client: u8, operation: &Operation, nonce: u64) -> Bytes {
        Fields { kind: QUESTION, signer: client, client, operation: *operation, nonce, ..Fields::default() }.write()
    }

    pub fn grant(site: u8, claim: &Claim) -> Bytes {
        answered(GRANT, site, claim, 0)
    }

    pub fn answer(site: u8, claim: &Claim, answer: u64) -> Bytes {
        answered(ANSWER, site, claim, answer)
    }

    fn answered(kind: u8, site: u8, claim: &Claim, answer: u64) -> Bytes {
        let Claim { client, number, round, place, operation } = *claim;
        Fields { kind, signer: site, client, number, round, place, operation, answer, nonce: 0 }.write()
    }

    pub fn show_grant(place: u32) -> Bytes {
        Fields { kind: SHOW_GRANT, place, ..Fields::default() }.write()
    }

    pub fn show_cert() -> Bytes {
        Fields { kind: SHOW_CERT, ..Fields::default() }.write()
    }

    pub fn start(site: u8, round: u32, place: u32) -> Bytes {
        Fields { kind: START, signer: site, round, place, ..Fields::default() }.write()
    }
}

/// The notary that knows the keys of sites and clients.
mod notary {
    use super::record::{ANSWER, Bytes, GRANT, QUESTION, READ_ANSWER, REQUEST, Record, START};
    use super::sha256::Sealer;

    #[derive(Clone)]
    pub struct Notary {
        sites: [Sealer; 16],
        clients: [Sealer; 16],
    }

    impl Notary {
        /// The keys of rehearsals: 32 bytes of value 16 + i for site i, and of value 32 + i for client i.
        pub fn rehearsal() -> Notary {
            let keys = |base: u8| std::array::from_fn(|i| Sealer::new(&[base + i as u8; 32]));
            Notary { sites: keys(16), clients: keys(32) }
        }

        /// The key that a record is sealed under, if its kind is signed and its signer has one.
        fn key(&self, record: Record) -> Option<&Sealer> {
            let keys = match record.kind() {
                REQUEST | QUESTION => &self.clients,
                GRANT | ANSWER | READ_ANSWER | START => &self.sites,
                _ => return None,
            };
            keys.get(usize::from(record.signer()))
        }

        pub fn vouches(&self, record: Record) -> bool {
            let Some(key) = self.key(record) else {
                return false;
            };
            let seal = key.seal(record.statement());
            // every byte is looked at, also after one that differs
            seal.iter().zip(record.seal()).fold(0, |bits, (a, b)| bits | (a ^ b)) == 0
        }

        /// The record with its seal filled in, where it has a key.
        pub fn sealed(&self, mut bytes: Bytes) -> Bytes {
            let record = Record(&bytes);
            if let Some(seal) = self.key(record).map(|key| key.seal(record.statement())) {
                bytes[48..].copy_from_slice(&seal);
            }
            bytes
        }
    }
}

/// What a pool keeps: titles of bills, or slots.
mod object {
    use super::record::Operation;

    pub const UNKNOWN_CODE: u64 = 9_999_999;
    const OUT_OF_REACH: u64 = 9_999_998;

    pub trait Object: Clone {
        const HIGHEST: u8;

        fn fresh() -> Self;

        fn perform(&mut self, client: u8, operation: &Operation) -> u64;

        /// Restores the value before the last write, once.
        fn take_back(&mut self);

        fn look(&self, operation: &Operation) -> u64;
    }

    #[derive(Clone, Copy, PartialEq, Eq)]
    enum Title {
        Unissued,
        HeldBy(u8),
        Surrendered,
    }

    #[derive(Clone)]
    pub struct Titles {
        titles: [Title; 64],
        before: Option<[Title; 64]>,
    }

    impl Object for Titles {
        const HIGHEST: u8 = 3;

        fn fresh() -> Titles {
            Titles { titles: [Title::Unissued; 64], before: None }
        }

        fn perform(&mut self, client: u8, operation: &Operation) -> u64 {
            let [code, title, receiver, ..] = *operation;
            if !(1..=Self::HIGHEST).contains(&code) {
                return UNKNOWN_CODE;
            }
            self.before = Some(self.titles);
            let Some(title) = self.titles.get_mut(usize::from(title)) else {
                return 1;
            };
            if code != 3 && receiver > 15 {
                return 1;
            }
            let entitled = match (code, *title) {
                (1, Title::Unissued) => client == 0,
                (2 | 3, Title::HeldBy(holder)) => client == holder,
                _ => return 3,
            };
            if !entitled {
                return 2;
            }
            *title = if code == 3 { Title::Surrendered } else { Title::HeldBy(receiver) };
            0
        }

        fn take_back(&mut self) {
            if let Some(before) = self.before.take() {
                self.titles = before;
            }
        }

        fn look(&self, operation: &Operation) -> u64 {
            if operation[0] != 1 {
                return UNKNOWN_CODE;
            }
            match self.titles.get(usize::from(operation[1])) {
                None => OUT_OF_REACH,
                Some(Title::Unissued) => 16,
                Some(Title::Surrendered) => 17,
                Some(Title::HeldBy(holder)) => u64::from(*holder),
            }
        }
    }

    #[derive(Clone)]
    pub struct Slots {
        accounts: [u32; 16],
        before: Option<[u32; 16]>,
    }

    impl Object for Slots {
        const HIGHEST: u8 = 1;

        fn fresh() -> Slots {
            let mut accounts = [0; 16];
            accounts[0] = 1_000_000;
            Slots { accounts, before: None }
        }

        fn perform(&mut self, client: u8, operation: &Operation) -> u64 {
            let [code, account, a, b, c, d, ..] = *operation;
            if code != 1 {
                return UNKNOWN_CODE;
            }
            self.before = Some(self.accounts);
            let (from, to) = (usize::from(client), usize::from(account));
            if from > 15 || to > 15 {
                return 1;
            }
            let amount = u32::from_be_bytes([a, b, c, d]);
            if self.accounts[from] < amount {
                return 2;
            }
            self.accounts[from] -= amount;
            self.accounts[to] += amount;
            0
        }

        fn take_back(&mut self) {
            if let Some(before) = self.before.take() {
                self.accounts = before;
            }
        }

        fn look(&self, operation: &Operation) -> u64 {
            if operation[0] != 1 {
                return UNKNOWN_CODE;
            }
            match self.accounts.get(usize::from(operation[1])) {
                None => OUT_OF_REACH,
                Some(balance) => u64::from(*balance),
            }
        }
    }
}

/// The ten checks, and what a message that passes them says.
mod message {
    use super::notary::Notary;
    use super::record::{Bytes, Claim, Operation};
    use super::record::{GRANT, QUESTION, REQUEST, Record, Request, SHOW_CERT, SHOW_GRANT, SIZE, START};

    /// Why a call is refused, by its number.
    #[derive(Clone, Copy, PartialEq, Eq, Debug)]
    pub enum Fault {
        Short = 1,
        Length,
        Kind,
        Field,
        Mixed,
        Same,
        Twice,
        Unvouched,
        Low,
        Order,
        Wait,
        Old,
        Spent,
        Busy,
        Ahead,
        Stale,
        Taken,
        Gap,
        UsedUp,
        TooFar,
        Nothing,
    }

    /// A refusal: the fault, and the index of the record that it is about.
    #[derive(Clone, Copy, PartialEq, Eq, Debug)]
    pub struct Refusal {
        pub fault: Fault,
        pub index: usize,
    }

    impl Fault {
        /// By number, from 1.
        const NAMES: [&'static str; 21] = [
            "SHORT",
            "LENGTH",
            "KIND",
            "FIELD",
            "MIXED",
            "SAME",
            "TWICE",
            "UNVOUCHED",
            "LOW",
            "ORDER",
            "WAIT",
            "OLD",
            "SPENT",
            "BUSY",
            "AHEAD",
            "STALE",
            "TAKEN",
            "GAP",
            "USED-UP",
            "TOO-FAR",
            "NONE",
        ];

        pub fn name(self) -> &'static str {
            Self::NAMES[self as usize - 1]
        }

        /// The layer that refuses: 1 the message, 2 its certificates, 3 the site.
        pub fn layer(self) -> u8 {
            match self as u8 {
                1..=4 => 1,
                5..=10 => 2,
                _ => 3,
            }
        }

        pub fn at(self, index: usize) -> Refusal {
            Refusal { fault: self, index }
        }
    }

    impl From<Fault> for Refusal {
        fn from(fault: Fault) -> Refusal {
            fault.at(0)
        }
    }

    pub enum Message<'a> {
        Write1(Request),
        Read { client: u8, operation: &'a Operation, nonce: u64 },
        Write2 { claim: Claim, certificate: &'a [u8] },
        Resolve { round: u32, place: u32, request: Request },
        Round { round: u32, target: u32, requests: &'a [Bytes] },
        ShowGrant(u32),
        ShowCert,
    }

    /// The records of a message by their groups.
    enum Form<'a> {
        One(Record<'a>),
        Write2(&'a [Bytes]),
        Resolve { grants: &'a [Bytes], request: Record<'a> },
        Round { starts: &'a [Bytes], grants: &'a [Bytes], requests: &'a [Bytes] },
    }

    fn all(records: &[Bytes], kind: u8) -> bool {
        records.iter().all(|record| record[0] == kind)
    }

    fn form(f: u8, records: &[Bytes]) -> Option<Form<'_>> {
        let q = 2 * usize::from(f) + 1;
        if let [only] = records {
            let known = matches!(only[0], REQUEST | QUESTION | SHOW_GRANT | SHOW_CERT);
            return known.then_some(Form::One(Record(only)));
        }
        let (first, rest) = records.split_at_checked(q)?;
        if all(first, GRANT) {
            return match rest {
                [] => Some(Form::Write2(first)),
                [last] if last[0] == REQUEST => Some(Form::Resolve { grants: first, request: Record(last) }),
                _ => None,
            };
        }
        if !all(first, START) {
            return None;
        }
        let (grants, requests) = match rest.split_at_checked(q) {
            Some((grants, requests)) if all(grants, GRANT) => (grants, requests),
            _ => (&rest[..0], rest),
        };
        (requests.len() <= 16 && all(requests, REQUEST)).then_some(Form::Round { starts: first, grants, requests })
    }

    /// The index of the first record that a test picks.
    fn first(records: &[Bytes], test: impl FnMut(Record) -> bool) -> Option<usize> {
        records.iter().map(Record).position(test)
    }

    /// Refuses at the index of the first record that a test picks; the records begin at index `from`.
    fn refuse_if(
        fault: Fault,
        from: usize,
        records: &[Bytes],
        test: impl FnMut(Record) -> bool,
    ) -> Result<(), Refusal> {
        match first(records, test) {
            Some(i) => Err(fault.at(from + i)),
            None => Ok(()),
        }
    }

    fn agreed(form: &Form) -> Result<(), Refusal> {
        match *form {
            Form::One(_) => Ok(()),
            Form::Write2(grants) => {
                let claim = Record(&grants[0]).claim();
                refuse_if(Fault::Mixed, 0, grants, |grant| grant.claim() != claim)
            }
            Form::Resolve { grants, .. } => {
                let one = Record(&grants[0]);
                let (round, place) = (one.round(), one.place());
                refuse_if(Fault::Mixed, 0, grants, |grant| (grant.round(), grant.place()) != (round, place))?;
                let claim = one.claim();
                match first(grants, |grant| grant.claim() != claim) {
                    Some(_) => Ok(()),
                    None => Err(Fault::Same.into()),
                }
            }
            Form::Round { starts, grants, .. } => {
                let round = Record(&starts[0]).round();
                refuse_if(Fault::Mixed, 0, starts, |start| start.round() != round)?;
                let Some(one) = grants.first() else {
                    return Ok(());
                };
                let claim = Record(one).claim();
                refuse_if(Fault::Mixed, starts.len(), grants, |grant| grant.claim() != claim || grant.round() != round)
            }
        }
    }

    /// Each signer once, counted on the board.
    fn signed_once(from: usize, records: &[Bytes], board: &mut [u8]) -> Result<(), Refusal> {
        board.fill(0);
        refuse_if(Fault::Twice, from, records, |record| {
            let signer = usize::from(record.signer());
            std::mem::replace(&mut board[signer], 1) != 0
        })
    }

    fn distinct(form: &Form, board: &mut [u8]) -> Result<(), Refusal> {
        match *form {
            Form::One(_) => Ok(()),
            Form::Write2(grants) | Form::Resolve { grants, .. } => signed_once(0, grants, board),
            Form::Round { starts, grants, .. } => {
                signed_once(0, starts, board)?;
                signed_once(starts.len(), grants, board)
            }
        }
    }

    fn target(grants: &[Bytes]) -> u32 {
        grants.first().map_or(0, |grant| Record(grant).place())
    }

    /// What a ROUND keeps to beside its groups: no START above the target, clients that rise.
    fn in_order(form: &Form) -> Result<(), Refusal> {
        let Form::Round { starts, grants, requests } = *form else {
            return Ok(());
        };
        let target = target(grants);
        refuse_if(Fault::Low, 0, starts, |start| start.place() > target)?;
        match requests.windows(2).position(|pair| Record(&pair[1]).client() <= Record(&pair[0]).client()) {
            Some(i) => Err(Fault::Order.at(starts.len() + grants.len() + i + 1)),
            None => Ok(()),
        }
    }

    fn said<'a>(form: Form<'a>, bytes: &'a [u8]) -> Message<'a> {
        match form {
            Form::One(record) => match record.kind() {
                REQUEST => Message::Write1(record.request()),
                QUESTION => {
                    Message::Read { client: record.client(), operation: record.operation(), nonce: record.nonce() }
                }
                SHOW_GRANT => Message::ShowGrant(record.place()),
                _ => Message::ShowCert,
            },
            Form::Write2(grants) => Message::Write2 { claim: Record(&grants[0]).claim(), certificate: bytes },
            Form::Resolve { grants, request } => {
                let one = Record(&grants[0]);
                Message::Resolve { round: one.round(), place: one.place(), request: request.request() }
            }
            Form::Round { starts, grants, requests } => {
                Message::Round { round: Record(&starts[0]).round(), target: target(grants), requests }
            }
        }
    }

    /// Checks 2 to 10, each over the whole message. The board has sixteen bytes, which the checks may change.
    pub fn check<'a>(f: u8, notary: &Notary, bytes: &'a [u8], board: &mut [u8]) -> Result<Message<'a>, Refusal> {
        let (records, rest) = bytes.as_chunks::<SIZE>();
        if !rest.is_empty() || records.is_empty() || records.len() > 38 {
            return Err(Fault::Length.into());
        }
        let form = form(f, records).ok_or(Fault::Kind)?;
        refuse_if(Fault::Field, 0, records, |record| !record.in_range(f))?;
        agreed(&form)?;
        distinct(&form, board)?;
        if !matches!(records[0][0], SHOW_GRANT | SHOW_CERT) {
            refuse_if(Fault::Unvouched, 0, records, |record| !notary.vouches(record))?;
        }
        in_order(&form)?;
        Ok(said(form, bytes))
    }
}

/// The site.
mod site {
    use super::message::{Fault, Message, Refusal, check};
    use super::notary::Notary;
    use super::object::{Object, UNKNOWN_CODE};
    use super::record::{self, Bytes, Claim, Fields, LIMIT, MARK, Operation, Record, Request};
    use std::mem;

    /// The least room for a reply.
    pub const ROOM: usize = 880;

    /// The length of a board.
    pub const BOARD: usize = 16;

    #[derive(Clone, PartialEq, Eq)]
    pub enum Stage {
        Open,
        Frozen,
        Pulling { target: u32, requests: Vec<Request> },
        Settling { last: u32 },
    }

    #[derive(Clone, Copy)]
    struct Done {
        claim: Claim,
        answer: u64,
    }

    /// The write done last, with its certificate.
    #[derive(Clone)]
    struct Current {
        claim: Claim,
        certificate: Vec<u8>,
    }

    /// What the last write replaced.
    #[derive(Clone)]
    struct Backup {
        current: Option<Current>,
        entry: Option<Done>,
        called: bool,
    }

    #[derive(Clone)]
    pub struct Site<O> {
        f: u8,
        number: u8,
        notary: Notary,
        object: O,
        pub stage: Stage,
        pub round: u32,
        pub place: u32,
        current: Option<Current>,
        out: Option<Claim>,
        waiting: [Option<Request>; 16],
        done: [Option<Done>; 16],
        settlement: Vec<Claim>,
        backup: Option<Backup>,
    }

    impl<O: Object> Site<O> {
        pub fn new(f: u8, number: u8, notary: Notary, object: O) -> Site<O> {
            Site {
                f,
                number,
                notary,
                object,
                stage: Stage::Open,
                round: 0,
                place: 0,
                current: None,
                out: None,
                waiting: [None; 16],
                done: [None; 16],
                settlement: Vec::new(),
                backup: None,
            }
        }

        /// A call: a reply fills the output's first bytes, whose count is returned.
        pub fn call(&mut self, message: &[u8], output: &mut [u8], board: &mut [u8]) -> Result<usize, Refusal> {
            if output.len() < ROOM || board.len() != BOARD {
                return Err(Fault::Short.into());
            }
            let checked = check(self.f, &self.notary, message, board);
            board.fill(0);
            match checked? {
                Message::Write1(request) => Ok(put(output, &self.write_1(&request, 0)?)),
                Message::Read { client, operation, nonce } => Ok(put(output, &self.read(client, operation, nonce))),
                Message::Write2 { claim, certificate } => Ok(put(output, &self.write_2(claim, certificate)?)),
                Message::Resolve { round, place, request } => Ok(put(output, &self.resolve(round, place, &request)?)),
                Message::Round { round, target, requests } => self.take_round(round, target, requests).map(|()| 0),
                Message::ShowGrant(place) => Ok(put(output, &self.show_grant(place)?)),
                Message::ShowCert => match &self.current {
                    Some(current) => Ok(put(output, &current.certificate)),
                    None => Err(Fault::Nothing.into()),
                },
            }
        }

        /// The stored ANSWER to the request that its client had done last; none where the request is new.
        fn stored(&self, request: &Request, index: usize) -> Result<Option<Bytes>, Refusal> {
            let Some(Some(last)) = self.done.get(usize::from(request.client)) else {
                return Ok(None);
            };
            if request.number < last.claim.number {
                Err(Fault::Old.at(index))
            } else if request.number > last.claim.number {
                Ok(None)
            } else if request.operation == last.claim.operation {
                Ok(Some(record::answer(self.number, &last.claim, last.answer)))
            } else {
                Err(Fault::Spent.at(index))
            }
        }

        fn write_1(&mut self, request: &Request, index: usize) -> Result<Bytes, Refusal> {
            if self.stage != Stage::Open {
                return Err(Fault::Wait.into());
            }
            if let Some(answer) = self.stored(request, index)? {
                return Ok(answer);
            }
            let waiting = &mut self.waiting[usize::from(request.client)];
            match waiting {
                Some(other) if other != request => return Err(Fault::Busy.at(index)),
                Some(_) => {}
                None if self.place >= LIMIT => return Err(Fault::UsedUp.at(index)),
                None => *waiting = Some(*request),
            }
            let out = self.out.get_or_insert_with(|| Claim::of(request, self.round, self.place + 1));
            Ok(record::grant(self.number, out))
        }

        fn write_2(&mut self, claim: Claim, certificate: &[u8]) -> Result<Bytes, Refusal> {
            if self.stage == Stage::Frozen {
                return Err(Fault::Wait.into());
            }
            let request = Request { client: claim.client, number: claim.number, operation: claim.operation };
            if let Some(answer) = self.stored(&request, 0)? {
                return Ok(answer);
            }
            let due = match self.stage {
                Stage::Pulling { .. } => self.round - 1,
                _ => self.round,
            };
            if claim.round != due {
                return Err(if claim.round > due { Fault::Ahead } else { Fault::Stale }.into());
            }
            if claim.place != self.place + 1 {
                return Err(if claim.place <= self.place { Fault::Taken } else { Fault::Gap }.into());
            }
            let answer = self.do_write(claim, certificate);
            match &mut self.stage {
                Stage::Pulling { target, requests } if *target == self.place => {
                    let requests = mem::take(requests);
                    self.settle(&requests);
                }
                Stage::Settling { last } if *last == self.place => self.stage = Stage::Open,
                _ => {}
            }
            Ok(record::answer(self.number, &claim, answer))
        }

        fn do_write(&mut self, claim: Claim, certificate: &[u8]) -> u64 {
            let code = claim.operation[0];
            let called = claim.client != MARK && (1..=O::HIGHEST).contains(&code);
            let answer = if called {
                self.object.perform(claim.client, &claim.operation)
            } else if claim.client == MARK {
                0
            } else {
                UNKNOWN_CODE
            };
            // the certificate that falls out of the backup leaves its memory to the new one
            let mut kept =
                self.backup.take().and_then(|backup| backup.current).map_or(Vec::new(), |old| old.certificate);
            kept.clear();
            kept.extend_from_slice(certificate);
            let current = self.current.replace(Current { claim, certificate: kept });
            let entry = match self.done.get_mut(usize::from(claim.client)) {
                Some(entry) => entry.replace(Done { claim, answer }),
                None => None,
            };
            self.backup = Some(Backup { current, entry, called });
            self.place += 1;
            self.nobody_waits();
            answer
        }

        fn take_back(&mut self) {
            let Some(backup) = self.backup.take() else {
                return;
            };
            if backup.called {
                self.object.take_back();
            }
            if let Some(undone) = mem::replace(&mut self.current, backup.current) {
                if let Some(entry) = self.done.get_mut(usize::from(undone.claim.client)) {
                    *entry = backup.entry;
                }
            }
            self.place -= 1;
        }

        fn nobody_waits(&mut self) {
            self.out = None;
            self.waiting = [None; 16];
        }

        fn read(&self, client: u8, operation: &Operation, nonce: u64) -> Bytes {
            let (round, place) =
                self.current.as_ref().map_or((0, 0), |current| (current.claim.round, current.claim.place));
            let answer = self.object.look(operation);
            let kind = record::READ_ANSWER;
            Fields { kind, signer: self.number, client, number: 0, round, place, operation: *operation, answer, nonce }
                .write()
        }

        fn resolve(&mut self, round: u32, place: u32, request: &Request) -> Result<Bytes, Refusal> {
            match self.stage {
                Stage::Pulling { .. } | Stage::Settling { .. } => return Err(Fault::Wait.into()),
                Stage::Frozen => {}
                Stage::Open if round > self.round => return Err(Fault::Ahead.into()),
                Stage::Open if round < self.round || place <= self.place => {
                    return self.write_1(request, 2 * usize::from(self.f) + 1);
                }
                Stage::Open => self.stage = Stage::Frozen,
            }
            Ok(record::start(self.number, self.round, self.place))
        }

        fn take_round(&mut self, round: u32, target: u32, requests: &[Bytes]) -> Result<(), Refusal> {
            if matches!(self.stage, Stage::Pulling { .. } | Stage::Settling { .. }) {
                return Err(Fault::Wait.into());
            }
            if round != self.round {
                return Err(if round > self.round { Fault::Ahead } else { Fault::Stale }.into());
            }
            if self.round >= LIMIT || target >= LIMIT {
                return Err(Fault::UsedUp.into());
            }
            if self.place > target + 1 {
                return Err(Fault::TooFar.into());
            }
            if self.place == target + 1 {
                self.take_back();
            }
            self.nobody_waits();
            self.round += 1;
            let requests: Vec<Request> = requests.iter().map(|bytes| Record(bytes).request()).collect();
            if self.place < target {
                self.settlement.clear();
                self.stage = Stage::Pulling { target, requests };
            } else {
                self.settle(&requests);
            }
            Ok(())
        }

        /// The settlement from the place where the site stands: the mark, then each request that is not done yet.
        fn settle(&mut self, requests: &[Request]) {
            self.settlement.clear();
            self.settlement.push(Claim::mark(self.round, self.place + 1));
            for request in requests {
                let last = self.done[usize::from(request.client)].map_or(0, |done| done.claim.number);
                if request.number > last {
                    let place = self.place + 1 + self.settlement.len() as u32;
                    self.settlement.push(Claim::of(request, self.round, place));
                }
            }
            self.stage = Stage::Settling { last: self.place + self.settlement.len() as u32 };
        }

        fn show_grant(&self, place: u32) -> Result<Bytes, Refusal> {
            let mut granted = self.settlement.iter().chain(&self.out);
            match granted.find(|claim| claim.place == place) {
                Some(claim) => Ok(record::grant(self.number, claim)),
                None => Err(Fault::Nothing.into()),
            }
        }
    }

    fn put(output: &mut [u8], bytes: &[u8]) -> usize {
        output[..bytes.len()].copy_from_slice(bytes);
        bytes.len()
    }
}

/// Timing of calls. The recipe of the messages is that of crates/bench_site.
mod timing {
    use super::notary::Notary;
    use super::object::{Object, Titles};
    use super::record::{self, Claim, Operation, Request};
    use super::site::{ROOM, Site};
    use std::time::Instant;

    /// How many calls a site gets before a fresh one takes its place.
    const LAP: u32 = 256;

    /// One case: a fresh site gets the first message once, and then each of the others.
    struct Case {
        name: &'static str,
        f: u8,
        first: Vec<u8>,
        messages: Vec<u8>,
        size: usize,
    }

    /// Issues, transfers and surrenders of the titles in turn.
    fn operation(k: u32) -> Operation {
        let mut operation = [0; 16];
        operation[0] = (k % 3 + 1) as u8;
        operation[1] = (k % 64) as u8;
        operation[2] = (k % 16) as u8;
        operation
    }

    /// The certificate for place k: client k mod 16 has its request number k done in round 0.
    fn certificate(notary: &Notary, f: u8, k: u32) -> Vec<u8> {
        let claim = Claim { client: (k % 16) as u8, number: k, round: 0, place: k, operation: operation(k) };
        (0..2 * f + 1).flat_map(|site| notary.sealed(record::grant(site, &claim))).collect()
    }

    fn cases(notary: &Notary, f: u8) -> [Case; 3] {
        let request = Request { client: 1, number: 1, operation: operation(1) };
        let request = notary.sealed(record::request(&request));
        let question = notary.sealed(record::question(1, &operation(0), 7));
        let times = |bytes: &[u8]| bytes.repeat(LAP as usize);
        [
            Case { name: "WRITE-1", f, first: request.to_vec(), messages: times(&request), size: 80 },
            Case {
                name: "WRITE-2",
                f,
                first: certificate(notary, f, 1),
                messages: (2..LAP + 2).flat_map(|k| certificate(notary, f, k)).collect(),
                size: 80 * (2 * usize::from(f) + 1),
            },
            Case { name: "READ", f, first: certificate(notary, f, 1), messages: times(&question), size: 80 },
        ]
    }

    /// The buffers of the calls, and what the replies come to.
    struct Desk {
        output: [u8; ROOM],
        board: [u8; 16],
        sum: u64,
    }

    impl Desk {
        fn new() -> Desk {
            Desk { output: [0; ROOM], board: [0; 16], sum: 0 }
        }

        fn call(&mut self, site: &mut Site<Titles>, message: &[u8]) -> usize {
            match site.call(message, &mut self.output, &mut self.board) {
                Ok(n) => n,
                Err(refusal) => {
                    self.sum = self.sum.wrapping_add(1000 + refusal.fault as u64);
                    0
                }
            }
        }
    }

    fn begun(notary: &Notary, case: &Case, desk: &mut Desk) -> Site<Titles> {
        let mut site = Site::new(case.f, 0, notary.clone(), Titles::fresh());
        desk.call(&mut site, &case.first);
        site
    }

    /// A checksum of all bytes of all replies of one lap.
    fn checksum(notary: &Notary, case: &Case) -> u64 {
        let mut desk = Desk::new();
        let mut site = begun(notary, case, &mut desk);
        for message in case.messages.chunks_exact(case.size) {
            let n = desk.call(&mut site, message);
            for byte in &desk.output[..n] {
                desk.sum = (desk.sum ^ u64::from(*byte)).wrapping_mul(0x100_0000_01b3);
            }
        }
        desk.sum
    }

    /// The time of a number of laps in nanoseconds, with a sum over a few bytes of each reply.
    fn timed(notary: &Notary, case: &Case, laps: u32) -> (u128, u64) {
        let mut desk = Desk::new();
        let start = Instant::now();
        for _ in 0..laps {
            let mut site = begun(notary, case, &mut desk);
            for message in case.messages.chunks_exact(case.size) {
                let n = desk.call(&mut site, message);
                let few = u64::from(desk.output[15]) + u64::from(desk.output[39]);
                desk.sum = desk.sum.wrapping_add(n as u64 + few);
            }
        }
        (start.elapsed().as_nanos(), desk.sum)
    }

    pub fn run(calls: u32) {
        let notary = Notary::rehearsal();
        for f in [1, 5] {
            for case in cases(&notary, f) {
                let Case { name, f, .. } = case;
                println!("f {f} {name} checksum {}", checksum(&notary, &case));
                let laps = calls / LAP + 1;
                let (nanoseconds, sum) = timed(&notary, &case, laps);
                eprintln!("f {f} {name} calls {} nanoseconds {nanoseconds} sum {sum}", laps * LAP);
            }
        }
    }
}

/// Does what the words ask for; none where they ask for nothing known.
fn run(words: &[&str]) -> Option<io::Result<()>> {
    match *words {
        ["bench"] => timing::run(1),
        ["bench", calls] => timing::run(calls.parse().ok()?),
        ["gen", seed, calls] => return Some(hostile::generate(seed.parse().ok()?, calls.parse().ok()?)),
        ["answer"] => return Some(hostile::answer()),
        _ => return None,
    }
    Some(Ok(()))
}

fn main() -> ExitCode {
    let args: Vec<String> = env::args().skip(1).collect();
    let words: Vec<&str> = args.iter().map(String::as_str).collect();
    match run(&words) {
        Some(Ok(())) => return ExitCode::SUCCESS,
        Some(Err(error)) => eprintln!("{error}"),
        None => eprintln!("usage: site bench [CALLS] | site gen SEED CALLS | site answer"),
    }
    ExitCode::FAILURE
}
