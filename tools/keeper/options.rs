//! What the program's arguments ask for.

use crate::cheat::Cheat;

pub const USAGE: &str = "\
usage: hundzelo-keeper write [options] > LOG
  --seed N          what follows from it is the same every time (1)
  --ops N           gets and sets (1000)
  --keys N          accounts (100)
  --verifiers N     1 to 64 (1)
  --places N        records in each verifier's store, 2 to 32768 (64)
  --epochs N        under way, 2 to 16 (2)
  --epoch-length N  gets and sets in an epoch (200)
  --sets N          share of sets, in percent (50)
  --skew N          share that goes to a sixteenth of the accounts, in percent (0)
  --values N        length of values, 0 to 1024 (8)
  --merkle-only     only verifier 0, and nothing by Blum
  --cheat NAME      one lie; standard error has the event by which it must be found";

pub struct Options {
    pub seed: u64,
    pub ops: u64,
    pub keys: u64,
    pub verifiers: u64,
    pub places: u64,
    pub epochs: u64,
    pub epoch_length: u64,
    pub sets: u64,
    pub skew: u64,
    pub values: u64,
    pub merkle_only: bool,
    pub cheat: Option<Cheat>,
}

impl Options {
    fn new() -> Options {
        Options {
            seed: 1,
            ops: 1000,
            keys: 100,
            verifiers: 1,
            places: 64,
            epochs: 2,
            epoch_length: 200,
            sets: 50,
            skew: 0,
            values: 8,
            merkle_only: false,
            cheat: None,
        }
    }

    pub fn parse(mut words: impl Iterator<Item = String>) -> Result<Options, String> {
        let mut options = Options::new();
        if words.next().as_deref() != Some("write") {
            return Err("the command is 'write'".to_string());
        }
        while let Some(word) = words.next() {
            if word == "--merkle-only" {
                options.merkle_only = true;
                continue;
            }
            let value = words.next().ok_or(format!("after {word} something is missing"))?;
            options.take(&word, &value)?;
        }
        Ok(options)
    }

    fn take(&mut self, word: &str, value: &str) -> Result<(), String> {
        if word == "--cheat" {
            self.cheat = Some(Cheat::named(value).ok_or(format!("there is no cheat '{value}'"))?);
            return Ok(());
        }
        let (field, range) = match word {
            "--seed" => (&mut self.seed, 0..=u64::MAX),
            "--ops" => (&mut self.ops, 0..=u64::MAX),
            "--keys" => (&mut self.keys, 1..=u64::from(u32::MAX)),
            "--verifiers" => (&mut self.verifiers, 1..=64),
            "--places" => (&mut self.places, 2..=32_768),
            "--epochs" => (&mut self.epochs, 2..=16),
            "--epoch-length" => (&mut self.epoch_length, 1..=u64::MAX),
            "--sets" => (&mut self.sets, 0..=100),
            "--skew" => (&mut self.skew, 0..=100),
            "--values" => (&mut self.values, 0..=1024),
            _ => return Err(format!("there is no option '{word}'")),
        };
        match value.parse() {
            Ok(number) if range.contains(&number) => *field = number,
            _ => return Err(format!("{word} {value} is out of range")),
        }
        Ok(())
    }
}
