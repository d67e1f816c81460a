//! The document that `gen SEED SIZE` runs.

use crate::engine::put_number;

const POLICY: &str = "attr s credit : int 0..1000 = 0;
attr o users : int 0..100000 = 0;
right use {
  pre a funds: s.credit >= 3;
  on a cap: o.users <= 20;
  on a left: s.credit > 0;
  on c time: lasts 50;
  before s.credit = s.credit - 3;
  before o.users = o.users + 1;
  during s.credit = s.credit - 1;
  after_end o.users = o.users - 1;
  after_revoke o.users = o.users - 1;
}
%%
client 0
";
const SUBJECTS: u64 = 10;
const OBJECTS: u64 = 5;

/// A linear congruential generator modulo 2^64, of whose state the upper half is drawn.
struct Draws(u64);

impl Draws {
    fn below(&mut self, limit: u64) -> u64 {
        self.0 = self.0.wrapping_mul(6_364_136_223_846_793_005).wrapping_add(1_442_695_040_888_963_407);
        (self.0 >> 33) % limit
    }
}

/// Adds a heading, and a command made of words with a number behind each.
fn put(document: &mut Vec<u8>, client: u64, words: &[(&str, u64)]) {
    document.extend_from_slice(b"client ");
    put_number(document, client);
    document.push(b'\n');
    for (word, number) in words {
        document.extend_from_slice(word.as_bytes());
        put_number(document, *number);
    }
    document.push(b'\n');
}

pub fn generate(seed: u64, size: u64) -> Vec<u8> {
    let mut document = POLICY.as_bytes().to_vec();
    (0..SUBJECTS).for_each(|number| document.extend_from_slice(format!("subject u{number}\n").as_bytes()));
    (0..OBJECTS).for_each(|number| document.extend_from_slice(format!("object v{number}\n").as_bytes()));
    (0..SUBJECTS).for_each(|number| document.extend_from_slice(format!("set s u{number} credit 100\n").as_bytes()));
    let mut draws = Draws(seed);
    let (mut tick, mut tries) = (0, 0);
    for _ in 0..size {
        match draws.below(8) {
            0..=3 => {
                let client = 1 + draws.below(4);
                let subject = draws.below(SUBJECTS);
                let object = draws.below(OBJECTS);
                put(&mut document, client, &[("try u", subject), (" use v", object)]);
                tries += 1;
            }
            kind @ (4 | 5) => {
                let client = 1 + draws.below(4);
                if tries == 0 {
                    put(&mut document, client, &[("look ", 1)]);
                } else {
                    let session = 1 + draws.below(tries);
                    put(&mut document, client, &[(if kind == 4 { "beat " } else { "end " }, session)]);
                }
            }
            6 => {
                tick += draws.below(10);
                put(&mut document, 0, &[("tick ", tick)]);
            }
            _ => {
                let subject = draws.below(SUBJECTS);
                let credit = draws.below(200);
                put(&mut document, 0, &[("set s u", subject), (" credit ", credit)]);
            }
        }
    }
    document
}
