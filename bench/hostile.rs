//! Hostile lives of a pool: scenarios of calls that liars, replays and damage go into, and what each call is answered.
//!
//! A scenario is text: `pool F titles` or `pool F slots`, then lines `call SITE HEX [OUTPUT BOARD]`, the lengths of the buffers being 880 and 16 where they
//! are not given. An answer is `call SITE ok HEX`, with the seal of a record of the
//! site's own filled in, or `call SITE refused NUMBER INDEX LAYER NAME`. No bytes are written `-`.

use crate::message::Refusal;
use crate::notary::Notary;
use crate::object::{Object, Slots, Titles};
use crate::record::{self, Bytes, Claim, LIMIT, MARK, Operation, Record, Request, SIZE};
use crate::site::{BOARD, ROOM, Site, Stage};
use std::collections::BTreeMap;
use std::fmt::Write as _;
use std::io::{self, BufRead, Write};

/// Splitmix64: the same numbers from the same seed.
struct Random(u64);

impl Random {
    fn next(&mut self) -> u64 {
        self.0 = self.0.wrapping_add(0x9e37_79b9_7f4a_7c15);
        let z = (self.0 ^ (self.0 >> 30)).wrapping_mul(0xbf58_476d_1ce4_e5b9);
        let z = (z ^ (z >> 27)).wrapping_mul(0x94d0_49bb_1331_11eb);
        z ^ (z >> 31)
    }

    fn below(&mut self, n: usize) -> usize {
        (self.next() % n as u64) as usize
    }

    /// Yes in so many of a hundred cases.
    fn percent(&mut self, n: usize) -> bool {
        self.below(100) < n
    }

    fn pick<T: Copy>(&mut self, from: &[T]) -> T {
        from[self.below(from.len())]
    }

    fn shuffle<T>(&mut self, items: &mut [T]) {
        for i in (1..items.len()).rev() {
            items.swap(i, self.below(i + 1));
        }
    }
}

/// A pool in one process.
struct Pool<O> {
    f: u8,
    notary: Notary,
    sites: Vec<Site<O>>,
}

impl<O: Object> Pool<O> {
    fn new(f: u8) -> Pool<O> {
        let notary = Notary::rehearsal();
        let sites = (0..=3 * f).map(|i| Site::new(f, i, notary.clone(), O::fresh())).collect();
        Pool { f, notary, sites }
    }

    /// What a site replies, the seal of a record of its own filled in. A certificate is shown as it was kept.
    fn call(&mut self, call: &Call) -> Result<Vec<u8>, Refusal> {
        let mut output = vec![0; call.output];
        let mut board = vec![0; call.board];
        let n = self.sites[call.site].call(&call.message, &mut output, &mut board)?;
        match output[..n].as_array::<SIZE>() {
            Some(own) => Ok(self.notary.sealed(*own).to_vec()),
            None => Ok(output[..n].to_vec()),
        }
    }
}

/// A call: the site, the message, and the lengths of the output and the board.
struct Call {
    site: usize,
    message: Vec<u8>,
    output: usize,
    board: usize,
}

impl Call {
    fn usual(site: usize, message: Vec<u8>) -> Call {
        Call { site, message, output: ROOM, board: BOARD }
    }

    /// The call that the words after `call` mean.
    fn read(words: &[&str]) -> Option<Call> {
        match *words {
            [site, message] => Some(Call::usual(site.parse().ok()?, from_hex(message)?)),
            [site, message, output, board] => {
                Some(Call { output: output.parse().ok()?, board: board.parse().ok()?, ..Call::read(&[site, message])? })
            }
            _ => None,
        }
    }

    fn line(&self) -> String {
        let mut line = format!("call {} {}", self.site, hex(&self.message));
        if (self.output, self.board) != (ROOM, BOARD) {
            let _ = write!(line, " {} {}", self.output, self.board);
        }
        line
    }
}

/// The claims and STARTs that were seen, sealed, by their signers.
type Signed = BTreeMap<u8, Bytes>;

/// A life as its liars and its clients see it.
struct Life<O> {
    random: Random,
    pool: Pool<O>,
    /// the sites whose keys the liars have
    liars: Vec<u8>,
    operation: fn(&mut Random) -> Operation,
    /// the last request of each client
    asked: [Option<Request>; 16],
    grants: BTreeMap<Claim, Signed>,
    starts: BTreeMap<u32, Signed>,
    certificates: Vec<Vec<u8>>,
    rounds: BTreeMap<u32, Vec<u8>>,
    sent: Vec<Vec<u8>>,
}

fn title_operation(random: &mut Random) -> Operation {
    let mut operation = [0; 16];
    operation[0] = random.pick(&[1, 1, 1, 1, 2, 2, 2, 2, 3, 3, 0, 4]);
    operation[1] = random.pick(&[0, 0, 1, 1, 2, 3, 63, 64]);
    operation[2] = random.pick(&[0, 1, 1, 2, 2, 3, 15, 16]);
    operation
}

fn slot_operation(random: &mut Random) -> Operation {
    let mut operation = [0; 16];
    operation[0] = random.pick(&[1, 1, 1, 1, 1, 1, 1, 0, 2]);
    operation[1] = random.pick(&[0, 1, 1, 2, 2, 3, 15, 16]);
    operation[3] = random.pick(&[0, 0, 0, 1, 15, 16]);
    operation[4] = random.next() as u8;
    operation[5] = random.next() as u8;
    operation
}

impl<O: Object> Life<O> {
    fn new(seed: u64, f: u8, operation: fn(&mut Random) -> Operation) -> Life<O> {
        let mut random = Random(seed);
        let mut liars: Vec<u8> = (0..=3 * f).collect();
        // in one life of four every key is known, so that calls come which no pool within its limits sees
        if !random.percent(25) {
            random.shuffle(&mut liars);
            liars.truncate(usize::from(f));
        }
        Life {
            random,
            pool: Pool::new(f),
            liars,
            operation,
            asked: [None; 16],
            grants: BTreeMap::new(),
            starts: BTreeMap::new(),
            certificates: Vec::new(),
            rounds: BTreeMap::new(),
            sent: Vec::new(),
        }
    }

    /// Whether every site's key is known to the liars.
    fn all_lie(&self) -> bool {
        self.liars.len() == self.pool.sites.len()
    }

    fn quorum(&self) -> usize {
        2 * usize::from(self.pool.f) + 1
    }

    /// The round and place of the next write that a site would do.
    fn due(&self, site: usize) -> (u32, u32) {
        let site = &self.pool.sites[site];
        match site.stage {
            Stage::Pulling { .. } => (site.round - 1, site.place + 1),
            _ => (site.round, site.place + 1),
        }
    }

    fn sealed(&self, bytes: Bytes) -> Bytes {
        self.pool.notary.sealed(bytes)
    }

    fn client(&mut self) -> u8 {
        self.random.pick(&[0, 0, 0, 1, 1, 2, 3, 5, 8, 14, 15])
    }

    /// A client's request: mostly the one that is out or the next.
    fn request(&mut self) -> Request {
        let client = self.client();
        let operation = (self.operation)(&mut self.random);
        let asked = &mut self.asked[usize::from(client)];
        match *asked {
            Some(last) if self.random.percent(60) => last,
            Some(last) if self.random.percent(20) => Request { operation, ..last },
            Some(last) if self.random.percent(10) => Request { number: last.number.saturating_sub(1).max(1), ..last },
            last => *asked.insert(Request { client, number: last.map_or(1, |last| last.number + 1), operation }),
        }
    }

    fn write_1(&mut self) -> Vec<u8> {
        let request = self.request();
        self.sealed(record::request(&request)).to_vec()
    }

    fn read(&mut self) -> Vec<u8> {
        let client = self.client();
        let operation = (self.operation)(&mut self.random);
        let nonce = self.random.next();
        self.sealed(record::question(client, &operation, nonce)).to_vec()
    }

    fn show(&mut self, site: usize) -> Vec<u8> {
        if self.random.percent(25) {
            return record::show_cert().to_vec();
        }
        let place = self.pool.sites[site].place + self.random.below(5) as u32;
        record::show_grant(place.max(1)).to_vec()
    }

    /// The GRANTs of a claim that were seen, and those that the liars add.
    fn granted(&self, claim: &Claim) -> Signed {
        let mut signed = self.grants.get(claim).cloned().unwrap_or_default();
        for &liar in &self.liars {
            signed.insert(liar, self.sealed(record::grant(liar, claim)));
        }
        signed
    }

    /// So many of the records, in any order.
    fn some(&mut self, signed: &Signed, n: usize) -> Vec<Bytes> {
        let mut records: Vec<Bytes> = signed.values().copied().collect();
        self.random.shuffle(&mut records);
        records.truncate(n);
        records
    }

    /// A certificate for the next write of a site, if the GRANTs that were seen make one; or one that was made before.
    fn write_2(&mut self, site: usize) -> Option<Vec<u8>> {
        let due = self.due(site);
        let mut claims: Vec<Claim> = self.grants.keys().copied().collect();
        if self.random.percent(90) {
            claims.retain(|claim| (claim.round, claim.place) == due);
        }
        self.random.shuffle(&mut claims);
        for claim in claims {
            let signed = self.granted(&claim);
            if signed.len() >= self.quorum() {
                let certificate = self.some(&signed, self.quorum()).concat();
                self.certificates.push(certificate.clone());
                return Some(certificate);
            }
        }
        None
    }

    /// A certificate that was made before: mostly the one that a site lacks.
    fn caught_up(&mut self, site: usize) -> Option<Vec<u8>> {
        let due = self.due(site);
        let mut known = self.certificates.clone();
        if self.random.percent(80) {
            known.retain(|certificate| named(certificate) == due);
        }
        (!known.is_empty()).then(|| known.swap_remove(self.random.below(known.len())))
    }

    /// GRANTs of one round and place for different claims, with a request.
    fn resolve(&mut self, site: usize) -> Option<Vec<u8>> {
        let (round, place) = self.due(site);
        // now and then the place that is taken already
        let place = if self.random.percent(25) { place - 1 } else { place };
        let mut claims: Vec<Claim> = self.grants.keys().copied().collect();
        claims.retain(|claim| (claim.round, claim.place) == (round, place) || self.random.percent(2));
        let first = *claims.first()?;
        claims.retain(|claim| (claim.round, claim.place) == (first.round, first.place));
        // a liar that has signed the one claim signs another
        let other = Claim { client: first.client % 16, number: first.number + 1, operation: [9; 16], ..first };
        claims.push(other);
        self.random.shuffle(&mut claims);
        let mut signed = Signed::new();
        for claim in claims {
            for (signer, grant) in self.granted(&claim) {
                if !signed.contains_key(&signer) || self.random.percent(30) {
                    signed.insert(signer, grant);
                }
            }
        }
        let mut message = self.some(&signed, self.quorum()).concat();
        message.extend(self.write_1());
        Some(message)
    }

    /// STARTs of a site's round, if there are enough with those that the liars add.
    fn stopped(&mut self, site: usize) -> Option<Vec<Bytes>> {
        let Site { round, place, .. } = self.pool.sites[site];
        let mut signed = self.starts.get(&round).cloned().unwrap_or_default();
        for liar in self.liars.clone() {
            let place = place.saturating_sub(self.random.below(2) as u32);
            signed.insert(liar, self.sealed(record::start(liar, round, place)));
        }
        (signed.len() >= self.quorum()).then(|| self.some(&signed, self.quorum()))
    }

    /// The GRANTs of a ROUND for the target that its STARTs ask for; now and then for another one.
    fn reached(&mut self, round: u32, mut target: u32) -> Option<Vec<u8>> {
        if self.random.percent(8) {
            target = target.saturating_sub(1);
        }
        if self.all_lie() && self.random.percent(8) {
            let claim = Claim { client: 1, number: 1, round, place: LIMIT, operation: [1; 16] };
            return Some(self.some(&self.granted(&claim), self.quorum()).concat());
        }
        if target == 0 {
            return Some(Vec::new());
        }
        self.certificates.iter().find(|known| named(known) == (round, target)).cloned()
    }

    /// A ROUND that follows from STARTs, or the one that a site has accepted for their round.
    fn round(&mut self, site: usize) -> Option<Vec<u8>> {
        let round = self.pool.sites[site].round;
        if let Some(known) = self.rounds.get(&round) {
            if !self.all_lie() || self.random.percent(80) {
                return Some(known.clone());
            }
        }
        let starts = self.stopped(site)?;
        let target = starts.iter().map(|start| Record(start).place()).max().unwrap_or(0);
        let mut message = starts.concat();
        message.extend(self.reached(round, target)?);
        let mut requests: Vec<Request> = self.asked.into_iter().flatten().collect();
        requests.retain(|_| self.random.percent(50));
        if self.random.percent(5) {
            requests.reverse();
        }
        for request in requests {
            message.extend(self.sealed(record::request(&request)));
        }
        Some(message)
    }

    /// What would move a site on, or ask it something.
    fn useful(&mut self, site: usize) -> Vec<u8> {
        let message = match &self.pool.sites[site].stage {
            Stage::Settling { .. } | Stage::Pulling { .. } => match self.random.below(10) {
                0..=3 => Some(self.show(site)),
                4..=6 => self.write_2(site),
                7..=8 => self.caught_up(site),
                _ => None,
            },
            Stage::Frozen => match self.random.below(10) {
                0..=5 => self.round(site),
                6 => self.resolve(site),
                _ => None,
            },
            Stage::Open => match self.random.below(10) {
                0..=2 => self.write_2(site),
                3..=4 => self.caught_up(site),
                5 => self.resolve(site),
                6 => self.round(site),
                _ => None,
            },
        };
        match message {
            Some(message) => message,
            None => match self.random.below(10) {
                0 => self.read(),
                1 => self.show(site),
                2..=7 if self.pool.sites[site].stage != Stage::Open => self.show(site),
                _ => self.write_1(),
            },
        }
    }

    /// A number that lies near a limit or near what a site stands at.
    fn telling(&mut self, site: usize) -> u32 {
        let Site { round, place, .. } = self.pool.sites[site];
        let near = [0, 1, round, round + 1, place, place + 1, place + 2];
        let far = [LIMIT - 1, LIMIT, LIMIT + 1, LIMIT + 16, LIMIT + 17, u32::MAX];
        if self.random.percent(60) { self.random.pick(&near) } else { self.random.pick(&far) }
    }

    /// Changes a field of a record; whoever has the signer's key seals it again.
    fn forge(&mut self, site: usize, bytes: &mut Bytes) {
        let number = self.telling(site).to_be_bytes();
        match self.random.below(10) {
            0 => bytes[0] = self.random.below(10) as u8,
            1 => bytes[1] = self.random.pick(&[0, 1, 2, 3, 4, 6, 7, 15, 16, 255]),
            2 => bytes[2] = self.random.pick(&[0, 1, 2, 15, MARK, 17, 255]),
            3 => bytes[3] = 1,
            4 => bytes[4..8].copy_from_slice(&number),
            5 => bytes[8..12].copy_from_slice(&number),
            6 => bytes[12..16].copy_from_slice(&number),
            7 => bytes[16 + self.random.below(16)] ^= 1,
            8 => bytes[32 + self.random.below(16)] ^= 1,
            _ => (bytes[1], bytes[2]) = (bytes[2], bytes[2]),
        }
        if self.random.percent(90) {
            self.seal_again(bytes);
        }
    }

    /// The same change in every record of one kind, so that a group agrees with itself.
    fn forge_all(&mut self, site: usize, kind: u8, records: &mut [Bytes]) {
        let number = self.telling(site).to_be_bytes();
        let at = self.random.pick(&[4, 8, 12, 12]);
        for bytes in records.iter_mut().filter(|bytes| bytes[0] == kind) {
            bytes[at..at + 4].copy_from_slice(&number);
            self.seal_again(bytes);
        }
    }

    /// Seals a record anew, where it is a client's or a liar's.
    fn seal_again(&self, bytes: &mut Bytes) {
        if matches!(bytes[0], record::REQUEST | record::QUESTION) || self.liars.contains(&bytes[1]) {
            *bytes = self.sealed(*bytes);
        }
    }

    /// Damages a message: its records, their order and number, or its bytes.
    fn damaged(&mut self, site: usize, message: Vec<u8>) -> Vec<u8> {
        let mut records = message.as_chunks::<SIZE>().0.to_vec();
        if records.is_empty() {
            return vec![0; self.random.below(200)];
        }
        let i = self.random.below(records.len());
        let j = if self.random.percent(50) { (i + 1) % records.len() } else { self.random.below(records.len()) };
        let old = self.random.below(self.sent.len().max(1));
        let old = self.sent.get(old).and_then(|sent| sent.first_chunk::<SIZE>()).copied().unwrap_or([0; SIZE]);
        match self.random.below(16) {
            0..=4 => self.forge(site, &mut records[i]),
            5..=7 => self.forge_all(site, records[i][0], &mut records),
            8 => drop(records.remove(i)),
            9 => records[i] = records[j],
            10 => records.swap(i, j),
            11 => records.push(old),
            12 => records[i] = old,
            13 => records[i][self.random.below(SIZE)] ^= 1 << self.random.below(8),
            14 => records.extend(records.clone().repeat(self.random.below(4))),
            _ => {
                let mut bytes = records.concat();
                bytes.truncate(self.random.below(bytes.len() + 1));
                return bytes;
            }
        }
        records.concat()
    }

    fn message(&mut self, site: usize) -> Vec<u8> {
        if !self.sent.is_empty() && self.random.percent(5) {
            let old = self.random.below(self.sent.len());
            return self.sent[old].clone();
        }
        let message = self.useful(site);
        // ROUNDs of one round are to be equal where not every site lies: a damaged one that passes would end the life
        let damage = if message.first() == Some(&record::START) && !self.all_lie() { 2 } else { 12 };
        if self.random.percent(damage) { self.damaged(site, message) } else { message }
    }

    /// Remembers what a site wrote, or that it accepted a ROUND.
    fn hear(&mut self, message: &[u8], reply: &[u8]) {
        let Some(bytes) = reply.as_array::<SIZE>() else {
            if let (Some(start), []) = (message.first_chunk::<SIZE>(), reply) {
                self.rounds.entry(Record(start).round()).or_insert_with(|| message.to_vec());
            }
            return;
        };
        let record = Record(bytes);
        match record.kind() {
            record::GRANT => drop(self.grants.entry(record.claim()).or_default().insert(record.signer(), *bytes)),
            record::START => drop(self.starts.entry(record.round()).or_default().insert(record.signer(), *bytes)),
            _ => {}
        }
    }

    /// One call more, as a line of the scenario.
    fn step(&mut self) -> String {
        let site = self.random.below(self.pool.sites.len());
        let mut call = Call::usual(site, self.message(site));
        if self.random.percent(2) {
            call.output = self.random.pick(&[0, 80, ROOM - 1, ROOM, ROOM + 1, 2000]);
            call.board = self.random.pick(&[0, BOARD - 1, BOARD, BOARD, BOARD, BOARD + 1]);
        }
        if let Ok(reply) = self.pool.call(&call) {
            self.hear(&call.message, &reply);
        }
        let line = call.line();
        self.sent.push(call.message);
        // what lies far behind is forgotten, so that a long life stays quick
        let round = self.pool.sites.iter().map(|site| site.round).min().unwrap_or(0);
        let place = self.pool.sites.iter().map(|site| site.place).min().unwrap_or(0);
        self.grants.retain(|claim, _| claim.round + 1 >= round && claim.place + 2 >= place);
        self.certificates.retain(|known| named(known).1 + 2 >= place);
        line
    }
}

/// The round and place of a certificate.
fn named(certificate: &[u8]) -> (u32, u32) {
    certificate.first_chunk::<SIZE>().map_or((0, 0), |grant| (Record(grant).round(), Record(grant).place()))
}

fn hex(bytes: &[u8]) -> String {
    if bytes.is_empty() {
        return "-".to_string();
    }
    bytes.iter().fold(String::new(), |mut text, byte| {
        let _ = write!(text, "{byte:02x}");
        text
    })
}

fn from_hex(text: &str) -> Option<Vec<u8>> {
    if text == "-" {
        return Some(Vec::new());
    }
    let digits = text.chars().map(|digit| digit.to_digit(16)).collect::<Option<Vec<u32>>>()?;
    let (pairs, rest) = digits.as_chunks::<2>();
    rest.is_empty().then(|| pairs.iter().map(|[high, low]| (16 * high + low) as u8).collect())
}

fn life<O: Object>(seed: u64, f: u8, calls: u64, operation: fn(&mut Random) -> Operation) -> io::Result<()> {
    let mut life = Life::<O>::new(seed, f, operation);
    let mut out = io::BufWriter::new(io::stdout());
    for _ in 0..calls {
        writeln!(out, "{}", life.step())?;
    }
    for (i, site) in life.pool.sites.iter().enumerate() {
        eprintln!("site {i} ends in round {} at place {}", site.round, site.place);
    }
    out.flush()
}

/// Prints a scenario of so many calls. Even seeds have f = 1 and odd ones f = 2; every other pair of seeds has slots.
pub fn generate(seed: u64, calls: u64) -> io::Result<()> {
    let f = 1 + (seed % 2) as u8;
    if seed / 2 % 2 == 0 {
        println!("pool {f} titles");
        life::<Titles>(seed, f, calls, title_operation)
    } else {
        println!("pool {f} slots");
        life::<Slots>(seed, f, calls, slot_operation)
    }
}

/// A pool over either kind of object.
trait Called {
    fn answer(&mut self, call: &Call) -> Result<Vec<u8>, Refusal>;
}

impl<O: Object> Called for Pool<O> {
    fn answer(&mut self, call: &Call) -> Result<Vec<u8>, Refusal> {
        self.call(call)
    }
}

/// What a line is answered: nothing, unless it is a call on a pool.
fn line_answered(pool: &mut Option<Box<dyn Called>>, line: &str) -> Option<String> {
    let words: Vec<&str> = line.split_whitespace().collect();
    match &words[..] {
        ["pool", f, "titles"] => *pool = Some(Box::new(Pool::<Titles>::new(f.parse().ok()?))),
        ["pool", f, "slots"] => *pool = Some(Box::new(Pool::<Slots>::new(f.parse().ok()?))),
        ["call", words @ ..] => {
            let call = Call::read(words)?;
            let site = call.site;
            return Some(match pool.as_mut()?.answer(&call) {
                Ok(reply) => format!("call {site} ok {}", hex(&reply)),
                Err(Refusal { fault, index }) => {
                    format!("call {site} refused {} {index} {} {}", fault as u8, fault.layer(), fault.name())
                }
            });
        }
        _ => {}
    }
    None
}

/// Prints what each call of the scenario on standard input is answered, and on standard error how often each answer came.
pub fn answer() -> io::Result<()> {
    let mut pool = None;
    let mut counts: BTreeMap<String, u32> = BTreeMap::new();
    let mut out = io::BufWriter::new(io::stdout());
    for line in io::stdin().lock().lines() {
        if let Some(answer) = line_answered(&mut pool, &line?) {
            *counts.entry(outcome(&answer)).or_default() += 1;
            writeln!(out, "{answer}")?;
        }
    }
    for (outcome, count) in counts {
        eprintln!("{outcome} {count}");
    }
    out.flush()
}

/// A refusal's name, or what was written.
fn outcome(answer: &str) -> String {
    let words: Vec<&str> = answer.split_whitespace().collect();
    let name = match words[..] {
        ["call", _, "ok", "-"] => "nothing written",
        ["call", _, "ok", bytes] => match &bytes[..2] {
            _ if bytes.len() > 2 * SIZE => "certificate",
            "02" => "GRANT",
            "04" => "ANSWER",
            "05" => "READ-ANSWER",
            _ => "START",
        },
        [.., name] => name,
        [] => "",
    };
    name.to_string()
}
