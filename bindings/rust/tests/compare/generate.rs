//! Messages made at random: well-formed ones, and what is done to them to make them not so.
use crate::rng::Rng;

/// A message as it is built, field after field.
pub struct Draft(pub Vec<u8>);

impl Draft {
    pub fn new(letter: u8) -> Draft {
        Draft(vec![letter])
    }

    pub fn byte(mut self, value: u8) -> Draft {
        self.0.push(value);
        self
    }

    pub fn short(mut self, value: u16) -> Draft {
        self.0.extend(value.to_be_bytes());
        self
    }

    pub fn word(mut self, value: u32) -> Draft {
        self.0.extend(value.to_be_bytes());
        self
    }

    pub fn long(mut self, value: u64) -> Draft {
        self.0.extend(value.to_be_bytes());
        self
    }

    pub fn xid(self, xid: Option<u32>) -> Draft {
        match xid {
            Some(xid) => self.word(xid),
            None => self,
        }
    }

    /// A text of up to `most` bytes.
    pub fn text(mut self, rng: &mut Rng, most: u64) -> Draft {
        for _ in 0..rng.below(most + 1) {
            self.0.push(rng.byte().max(1));
        }
        self.byte(0)
    }

    /// A length and up to `most` bytes, zero bytes among them.
    pub fn value(self, rng: &mut Rng, most: u64) -> Draft {
        let length = rng.below(most + 1) as u32;
        let mut draft = self.word(length);
        draft.0.extend((0..length).map(|_| rng.byte() & rng.byte()));
        draft
    }

    pub fn tuple(self, rng: &mut Rng, count: u16) -> Draft {
        let mut draft = self.short(count);
        for _ in 0..count {
            let letter = rng.pick(b"nutttb");
            draft = draft.byte(letter);
            if letter == b't' || letter == b'b' {
                draft = draft.value(rng, 6);
            }
        }
        draft
    }

    pub fn columns(self, rng: &mut Rng, count: u16) -> Draft {
        let mut draft = self.short(count);
        for _ in 0..count {
            draft = draft.byte(rng.below(2) as u8).text(rng, 5).word(rng.any() as u32).word(rng.any() as u32);
        }
        draft
    }

    pub fn oids(self, oids: &[u32], options: u8) -> Draft {
        let draft = self.word(oids.len() as u32).byte(options);
        oids.iter().fold(draft, |draft, &oid| draft.word(oid))
    }
}

fn id(rng: &mut Rng) -> u32 {
    (rng.any() as u32 >> rng.below(32)).max(1)
}

fn columns(rng: &mut Rng) -> u16 {
    if rng.one_in(300) {
        rng.pick(&[1599, 1600, 1601])
    } else {
        rng.below(5) as u16
    }
}

/// A message of any kind; well-formed, but for counts just past their limits now and then.
pub fn message(rng: &mut Rng, in_block: bool) -> Vec<u8> {
    let letter = rng.pick(b"BCORYIUDTMSEcA");
    let draft = Draft::new(letter);
    let xid = if in_block { Some(id(rng)) } else { None };
    let draft = match letter {
        b'B' => draft.long(rng.any()).long(rng.any()).word(id(rng)),
        b'C' => draft.byte(0).long(rng.any()).long(rng.any()).long(rng.any()),
        b'O' => draft.long(rng.any()).text(rng, 20),
        b'R' => {
            let draft = draft.xid(xid).word(id(rng)).text(rng, 8).text(rng, 8).byte(rng.pick(b"dnfi"));
            let count = columns(rng);
            draft.columns(rng, count)
        }
        b'Y' => draft.xid(xid).word(rng.any() as u32).text(rng, 8).text(rng, 8),
        b'I' | b'U' | b'D' => {
            let mut draft = draft.xid(xid).word(id(rng));
            if letter == b'D' || letter == b'U' && rng.one_in(2) {
                let count = columns(rng);
                draft = draft.byte(rng.pick(b"KO")).tuple(rng, count);
            }
            if letter != b'D' {
                let count = columns(rng);
                draft = draft.byte(b'N').tuple(rng, count);
            }
            draft
        }
        b'T' => {
            let count = if rng.one_in(100) { rng.pick(&[0, 255, 256, 257]) } else { 1 + rng.below(4) };
            let oids: Vec<u32> = (0..count).map(|_| id(rng)).collect();
            draft.xid(xid).oids(&oids, rng.below(4) as u8)
        }
        b'M' => draft.xid(xid).byte(rng.below(2) as u8).long(rng.any()).text(rng, 12).value(rng, 12),
        b'S' => draft.word(id(rng)).byte(rng.below(2) as u8),
        b'E' => draft,
        b'c' => draft.word(id(rng)).byte(0).long(rng.any()).long(rng.any()).long(rng.any()),
        _ => draft.word(id(rng)).word(id(rng)),
    };
    draft.0
}

/// Damage: bytes changed, zeroed, cut off, added, or all of them replaced.
pub fn damage(rng: &mut Rng, bytes: &mut Vec<u8>) {
    let length = bytes.len() as u64;
    let at = rng.below(length.max(1)) as usize;
    match rng.below(8) {
        0 if length > 0 => bytes[at] = rng.byte(),
        1 if length > 0 => bytes[at] ^= 1 << rng.below(8),
        // near the front, where the fields are
        2 if length > 0 => bytes[at.min(rng.below(16) as usize)] = rng.pick(&[0, 1, 2, 3, 4, 0x7F, 0x80, 0xFF, b'N', b'K', b'O', b't']),
        3 => {
            let end = (at + 4).min(bytes.len());
            bytes[at..end].fill(0);
        }
        4 => bytes.truncate(at),
        5 => bytes.extend((0..=rng.below(3)).map(|_| rng.byte())),
        6 if length > 0 => {
            bytes.remove(at);
        }
        _ => {
            let letter = rng.pick(b"BCORYIUDTMSEcA");
            *bytes = (0..rng.below(40)).map(|_| rng.byte() & rng.byte()).collect();
            if let Some(first) = bytes.first_mut() {
                *first = letter;
            }
        }
    }
}

/// A version and a place, mostly known ones.
pub fn setting(rng: &mut Rng) -> (u32, bool) {
    let version = if rng.one_in(50) { rng.pick(&[0, 3, 4, u32::MAX]) } else { 1 + rng.below(2) as u32 };
    let in_block = if version == 1 { rng.one_in(50) } else { rng.one_in(2) };
    (version, in_block)
}
