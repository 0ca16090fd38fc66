//! The labels and names of the standard's table, and the look-up of a label.

use std::collections::{BTreeMap, HashMap};
use support::data;

pub struct Labels {
    known: HashMap<String, u8>,
    names: BTreeMap<u8, String>,
}

impl Labels {
    pub fn read() -> Result<Labels, String> {
        let text = data::read("vectors/labels.txt")?;
        let mut labels = Labels {
            known: HashMap::new(),
            names: BTreeMap::new(),
        };
        for line in data::lines(&text) {
            let fields: Vec<&str> = line.split('\t').collect();
            let [number, name, label] = fields[..] else {
                return Err(format!("labels.txt: {line}"));
            };
            let encoding = number.parse().map_err(|_| format!("labels.txt: {line}"))?;
            labels.names.insert(encoding, name.to_string());
            labels.known.insert(label.to_string(), encoding);
        }
        if (labels.known.len(), labels.names.len()) != (228, 40) {
            return Err("labels.txt has not 228 labels of 40 encodings".to_string());
        }
        Ok(labels)
    }

    pub fn name(&self, encoding: u8) -> Option<&str> {
        self.names.get(&encoding).map(String::as_str)
    }

    /// The labels in the order of their encodings.
    pub fn all(&self) -> Vec<&str> {
        let mut labels: Vec<&String> = self.known.keys().collect();
        labels.sort_by_key(|&label| (self.known[label], label));
        labels.into_iter().map(String::as_str).collect()
    }

    /// Refusal, encoding, and start and length of the trimmed label.
    pub fn find(&self, bytes: &[u8]) -> (u8, u8, usize, usize) {
        let blank = |byte: &u8| matches!(byte, 0x09 | 0x0A | 0x0C | 0x0D | 0x20);
        let start = bytes.iter().take_while(|byte| blank(byte)).count();
        let rest = &bytes[start..];
        let length = rest.len() - rest.iter().rev().take_while(|byte| blank(byte)).count();
        let label = String::from_utf8_lossy(&rest[..length]).to_ascii_lowercase();
        match self.known.get(&label) {
            Some(&encoding) => (0, encoding, start, length),
            None => (1, 0, 0, 0),
        }
    }
}
