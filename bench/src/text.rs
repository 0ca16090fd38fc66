//! Text in a language, as scalars: words of a small list, or characters of an index in plausible proportions.

use crate::data::Indexes;
use support::random::Random;

#[derive(Clone, Copy, Debug, PartialEq, Eq)]
pub enum Language {
    English,
    French,
    Russian,
    Japanese,
    /// Japanese without half-width katakana, which ISO-2022-JP has no common escape for.
    JapaneseFullWidth,
    Chinese,
    /// Chinese with rare characters, letters and emoji that take four bytes in gb18030.
    ChineseRare,
    Taiwanese,
    Korean,
    /// French, Russian and Japanese with emoji.
    Mixed,
}

use Language::*;

const ENGLISH: &[&str] = &[
    "width", "height", "frame", "glass", "colour", "handle", "left", "right", "door", "window",
    "with", "without", "the", "and", "for", "of", "extra", "lock", "price", "delivery", "white",
    "matt", "wood", "steel", "per", "piece", "set", "standard", "option", "from",
];

const FRENCH: &[&str] = &[
    "fenêtre",
    "porte",
    "largeur",
    "hauteur",
    "poignée",
    "côté",
    "gauche",
    "droit",
    "à",
    "la",
    "le",
    "les",
    "de",
    "des",
    "du",
    "et",
    "où",
    "très",
    "été",
    "réglage",
    "sécurité",
    "vitrage",
    "chêne",
    "hêtre",
    "décor",
    "d’intérieur",
    "l’extérieur",
    "prix",
    "pièce",
    "livré",
    "avec",
    "sans",
    "cœur",
    "œil",
    "modèle",
    "références",
    "jusqu’à",
    "12 €",
    "sur",
    "pour",
    "français",
];

const RUSSIAN: &[&str] = &[
    "окно",
    "дверь",
    "ширина",
    "высота",
    "ручка",
    "левая",
    "правая",
    "стекло",
    "рама",
    "замок",
    "цвет",
    "белый",
    "дуб",
    "сталь",
    "без",
    "и",
    "в",
    "на",
    "с",
    "для",
    "по",
    "цена",
    "штука",
    "набор",
    "доставка",
    "наружный",
    "внутренний",
    "размер",
    "настройка",
    "защита",
    "ещё",
    "объём",
];

/// The frequent characters of each index: its first level, in an order that stands for frequency.
pub struct Characters {
    kanji: Vec<u32>,
    hanzi: Vec<u32>,
    traditional: Vec<u32>,
    hangul: Vec<u32>,
    rare_hangul: Vec<u32>,
}

fn shuffled(mut list: Vec<u32>, seed: &str) -> Vec<u32> {
    list.retain(|&cell| cell != 0);
    Random::of(seed).shuffle(&mut list);
    list
}

/// The rows of 94 cells that an index of 190 cells to a lead byte has from trail byte A1 on.
fn rows(index: &[u32], leads: std::ops::RangeInclusive<usize>) -> Vec<u32> {
    leads
        .flat_map(|lead| {
            let start = (lead - 0x81) * 190 + 0x60;
            &index[start..start + 94]
        })
        .copied()
        .collect()
}

impl Characters {
    pub fn of(indexes: &Indexes) -> Characters {
        let (first_kanji, last_kanji) = (1410, 4374);
        let (first_traditional, last_traditional) = (5495, 10895);
        Characters {
            kanji: shuffled(indexes.jis0208[first_kanji..=last_kanji].to_vec(), "kanji"),
            hanzi: shuffled(hanzi(&indexes.gb18030), "hanzi"),
            traditional: shuffled(
                indexes.big5[first_traditional..=last_traditional].to_vec(),
                "traditional",
            ),
            hangul: shuffled(rows(&indexes.euc_kr, 0xB0..=0xC8), "hangul"),
            rare_hangul: shuffled(indexes.euc_kr[..8000].to_vec(), "rare hangul"),
        }
    }

    /// Appends a phrase of some words, without a line feed.
    pub fn phrase(&self, language: Language, random: &mut Random, text: &mut Vec<u32>) {
        match language {
            English => words(ENGLISH, ".", random, text),
            French => words(FRENCH, ".", random, text),
            Russian => words(RUSSIAN, ".", random, text),
            Japanese => self.japanese(true, random, text),
            JapaneseFullWidth => self.japanese(false, random, text),
            Chinese => self.chinese(&self.hanzi, random, text),
            ChineseRare => self.chinese_rare(random, text),
            Taiwanese => self.chinese(&self.traditional, random, text),
            Korean => self.korean(random, text),
            Mixed => self.mixed(random, text),
        }
    }

    fn japanese(&self, half_width: bool, random: &mut Random, text: &mut Vec<u32>) {
        for _ in 0..random.between(2, 6) {
            match random.below(100) {
                0..=79 => {
                    for _ in 0..random.between(1, 2) {
                        text.push(random.pick_frequent(&self.kanji));
                    }
                    for _ in 0..random.between(1, 4) {
                        text.push(0x3042 + random.below(0x3093 - 0x3042 + 1) as u32);
                    }
                }
                80..=91 => {
                    for _ in 0..random.between(2, 5) {
                        text.push(0x30A2 + random.below(0x30F3 - 0x30A2 + 1) as u32);
                    }
                    text.push(0x30FC);
                }
                92..=93 if half_width => {
                    for _ in 0..random.between(3, 6) {
                        text.push(0xFF71 + random.below(45) as u32);
                    }
                }
                _ => digits(random, text),
            }
        }
        punctuation(&['、', '。', '「', '」', '・'], random, text);
    }

    fn chinese(&self, hanzi: &[u32], random: &mut Random, text: &mut Vec<u32>) {
        for _ in 0..random.between(5, 14) {
            text.push(random.pick_frequent(hanzi));
        }
        if random.chance(1, 8) {
            digits(random, text);
        }
        punctuation(&['，', '。', '、', '：', '；'], random, text);
    }

    fn chinese_rare(&self, random: &mut Random, text: &mut Vec<u32>) {
        for _ in 0..random.between(5, 14) {
            text.push(match random.below(9) {
                0 => 0x3400 + random.below(0x100) as u32,
                1 => 0x20000 + random.below(0x1000) as u32,
                2 => 0x1F600 + random.below(0x40) as u32,
                _ => random.pick_frequent(&self.hanzi),
            });
        }
        punctuation(&['，', '。', '、'], random, text);
    }

    fn korean(&self, random: &mut Random, text: &mut Vec<u32>) {
        for place in 0..random.between(3, 8) {
            if place > 0 {
                text.push(0x20);
            }
            if random.chance(1, 12) {
                digits(random, text);
            }
            for _ in 0..random.between(2, 4) {
                text.push(match random.below(200) {
                    0 => random.pick_frequent(&self.rare_hangul),
                    _ => random.pick_frequent(&self.hangul),
                });
            }
        }
        punctuation(&['.', ',', '.'], random, text);
    }

    fn mixed(&self, random: &mut Random, text: &mut Vec<u32>) {
        match random.below(4) {
            0 => words(FRENCH, ",", random, text),
            1 => words(RUSSIAN, ",", random, text),
            2 => self.japanese(false, random, text),
            _ => {
                for _ in 0..random.between(1, 4) {
                    text.push(0x1F600 + random.below(0x40) as u32);
                }
            }
        }
    }
}

/// GB 2312's first level; its last row ends in private code points.
fn hanzi(index: &[u32]) -> Vec<u32> {
    let mut hanzi = rows(index, 0xB0..=0xD7);
    hanzi.retain(|&scalar| scalar < 0xE000);
    hanzi
}

fn words(list: &[&str], end: &str, random: &mut Random, text: &mut Vec<u32>) {
    for place in 0..random.between(3, 12) {
        if place > 0 {
            text.push(0x20);
        }
        text.extend(random.pick(list).chars().map(u32::from));
        if random.chance(1, 15) {
            text.push(0x20);
            digits(random, text);
        }
    }
    text.extend(end.chars().map(u32::from));
    text.push(0x20);
}

fn digits(random: &mut Random, text: &mut Vec<u32>) {
    let number = random.between(1, 9999);
    text.extend(number.to_string().chars().map(u32::from));
}

fn punctuation(signs: &[char], random: &mut Random, text: &mut Vec<u32>) {
    text.push(u32::from(random.pick_frequent(signs)));
}

/// A line of prose.
pub fn line(characters: &Characters, language: Language, random: &mut Random, text: &mut Vec<u32>) {
    for _ in 0..random.between(2, 8) {
        characters.phrase(language, random, text);
    }
    text.push(0x0A);
}

/// A line of an options list: an ASCII name with a number, a tab, and a phrase.
pub fn option(
    characters: &Characters,
    language: Language,
    random: &mut Random,
    text: &mut Vec<u32>,
) {
    for _ in 0..random.between(1, 3) {
        text.extend(random.pick(ENGLISH).chars().map(u32::from));
        text.push(u32::from('-'));
    }
    digits(random, text);
    text.push(0x09);
    characters.phrase(language, random, text);
    text.push(0x0A);
}
