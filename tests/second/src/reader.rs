//! From a text to what it says, by document 01's "Text of a message".

use crate::letters;

pub const LARGEST_COUNT: u32 = 99_999_999;

/// The twelve legal contents of SVR, in the order of the report's numbers.
pub const SERVICES: [&str; 12] =
    ["", "IV", "KD", "KD.IV", "KK", "KK.IV", "KK.KD", "KK.KD.IV", "*KK", "*KK.IV", "*KK.KD", "*KK.KD.IV"];

pub const OPTION_CLASSES: [&str; 4] = ["DSM", "ERS", "RFS", "RTR"];
pub const KSM_OPTIONS: [&str; 6] = ["IDC", "KK", "*KK", "KKU", "*KKU", "KDU"];
pub const RSI_OPTIONS: [&str; 2] = ["IDU", "IDC"];

/// One KD: the enciphered key, its mark P, its own name IDK1 and the name IDK2 of the key above it.
pub struct KeyField<'a> {
    pub sealed: u64,
    pub marked: bool,
    pub own_name: Option<&'a [u8]>,
    pub upper_name: Option<&'a [u8]>,
}

pub struct KeyMessage<'a> {
    /// Whether NOS stands before the first KD.
    pub notarized: bool,
    pub keys: Vec<KeyField<'a>>,
    pub iv: Option<&'a [u8]>,
    pub date: Option<&'a [u8]>,
    pub count: u32,
    pub mac: u32,
}

pub enum Body<'a> {
    Rsi { service: usize },
    Ksm(KeyMessage<'a>),
    Rsm { mac: u32 },
    Esm { counts: Option<(u32, u32)>, letters: u16 },
    Unimplemented { option: String },
}

pub struct Message<'a> {
    pub receiver: &'a [u8],
    pub originator: &'a [u8],
    pub body: Body<'a>,
    /// What a MAC is taken over: from the M of `MCL/` through the blank before `MAC/`.
    pub covered: &'a [u8],
}

/// What the text says, if it is a message.
pub fn read(text: &[u8]) -> Option<Message<'_>> {
    if text.is_empty() || text.len() > 512 {
        return None;
    }
    let inner = text.strip_prefix(b"CSM(")?.strip_suffix(b")")?;
    let mut fields = Fields(inner);
    let class = fields.contents("MCL")?;
    let receiver = fields.contents("RCV").filter(|name| is_name(name))?;
    let originator = fields.contents("ORG").filter(|name| is_name(name))?;
    let body = body(std::str::from_utf8(class).ok()?, &mut fields)?;
    let covered = &inner[..inner.len().saturating_sub("MAC/0123 4567 ".len())];
    fields.0.is_empty().then_some(Message { receiver, originator, body, covered })
}

/// Whether the bytes are 1 to 16 of A-Z, 0-9.
pub fn is_name(name: &[u8]) -> bool {
    (1..=16).contains(&name.len()) && name.iter().all(is_plain)
}

fn is_plain(character: &u8) -> bool {
    character.is_ascii_uppercase() || character.is_ascii_digit()
}

/// The fields of a message that are still to be read.
struct Fields<'a>(&'a [u8]);

impl<'a> Fields<'a> {
    fn starts_with(&self, tag: &str) -> bool {
        self.0.strip_prefix(tag.as_bytes()).is_some_and(|rest| rest.first() == Some(&b'/'))
    }

    /// The contents of the next field, up to its blank, if it has this tag.
    fn contents(&mut self, tag: &str) -> Option<&'a [u8]> {
        let after = self.after(tag)?;
        let end = after.iter().position(|&character| character == b' ')?;
        self.0 = &after[end + 1..];
        Some(&after[..end])
    }

    /// The eight hex digits of the next field, a blank between each four, if it has this tag.
    fn halves(&mut self, tag: &str) -> Option<u32> {
        let after = self.after(tag)?;
        if after.len() < 10 || after[4] != b' ' || after[9] != b' ' {
            return None;
        }
        self.0 = &after[10..];
        Some((hexadecimal(&after[..4])? << 16 | hexadecimal(&after[5..9])?) as u32)
    }

    fn after(&self, tag: &str) -> Option<&'a [u8]> {
        self.0.strip_prefix(tag.as_bytes())?.strip_prefix(b"/")
    }

    /// Nothing, or an EDC that is well-formed.
    fn checked_code(&mut self) -> Option<()> {
        if self.starts_with("EDC") {
            self.halves("EDC")?;
        }
        Some(())
    }

    /// The whole rest of an option: characters of a message without parentheses, a blank last.
    fn rest(&mut self) -> Option<()> {
        let legal = |character: &u8| is_plain(character) || b" ./*-".contains(character);
        let whole = self.0.iter().all(legal) && self.0.last() == Some(&b' ');
        self.0 = &[];
        whole.then_some(())
    }
}

fn body<'a>(class: &str, fields: &mut Fields<'a>) -> Option<Body<'a>> {
    let options: &[&str] = match class {
        "KSM" => &KSM_OPTIONS,
        "RSI" => &RSI_OPTIONS,
        _ => &[],
    };
    if let Some(tag) = options.iter().find(|tag| fields.starts_with(tag)) {
        fields.rest()?;
        return Some(Body::Unimplemented { option: format!("{class} with {tag}") });
    }
    match class {
        "RSI" => service_request(fields),
        "KSM" => key_message(fields).map(Body::Ksm),
        "RSM" => Some(Body::Rsm { mac: fields.halves("MAC")? }),
        "ESM" => error_message(fields),
        _ if OPTION_CLASSES.contains(&class) => {
            if !fields.0.is_empty() {
                fields.rest()?;
            }
            Some(Body::Unimplemented { option: class.to_string() })
        }
        _ => None,
    }
}

fn service_request<'a>(fields: &mut Fields<'a>) -> Option<Body<'a>> {
    let contents = fields.contents("SVR")?;
    let service = SERVICES.iter().position(|service| service.as_bytes() == contents)?;
    fields.checked_code()?;
    Some(Body::Rsi { service })
}

fn key_message<'a>(fields: &mut Fields<'a>) -> Option<KeyMessage<'a>> {
    let notarized = fields.starts_with("NOS");
    if notarized {
        fields.contents("NOS").filter(|contents| contents.is_empty())?;
    }
    let mut keys = vec![key_field(fields.contents("KD")?)?];
    if fields.starts_with("KD") {
        keys.push(key_field(fields.contents("KD")?)?);
    }
    let mut iv = None;
    if fields.starts_with("IV") {
        let legal = |value: &&[u8]| (1..=17).contains(&value.len()) && value.iter().all(is_plain);
        iv = Some(fields.contents("IV").filter(legal)?);
    }
    let mut date = None;
    if fields.starts_with("EDK") {
        let legal = |digits: &&[u8]| digits.len() == 12 && digits.iter().all(u8::is_ascii_digit);
        date = Some(fields.contents("EDK").filter(legal)?);
    }
    let count = number(fields.contents("CTP")?)?;
    let mac = fields.halves("MAC")?;
    Some(KeyMessage { notarized, keys, iv, date, count, mac })
}

/// A KD's key and up to three subfields, the last of them not empty.
fn key_field(contents: &[u8]) -> Option<KeyField<'_>> {
    let mut parts = contents.split(|&character| character == b'.');
    let key = parts.next().filter(|digits| digits.len() == 16)?;
    let parts: Vec<&[u8]> = parts.collect();
    let legal = |place: usize| match (place, parts.get(place)) {
        (_, None) => true,
        (_, Some(&[])) => place + 1 < parts.len(),
        (0, Some(mark)) => *mark == b"P",
        (_, Some(name)) => is_name(name),
    };
    if parts.len() > 3 || !(0..3).all(legal) {
        return None;
    }
    let present = |place: usize| parts.get(place).copied().filter(|part| !part.is_empty());
    let marked = present(0).is_some();
    Some(KeyField { sealed: hexadecimal(key)?, marked, own_name: present(1), upper_name: present(2) })
}

fn error_message<'a>(fields: &mut Fields<'a>) -> Option<Body<'a>> {
    let mut counts = None;
    if fields.starts_with("CTP") {
        counts = Some((number(fields.contents("CTP")?)?, number(fields.contents("CTR")?)?));
    }
    let letters = letters::read(fields.contents("ERF")?)?;
    fields.checked_code()?;
    (counts.is_some() == (letters & letters::P != 0)).then_some(Body::Esm { counts, letters })
}

/// A count: decimal, 1 to 99,999,999, no leading zero.
fn number(digits: &[u8]) -> Option<u32> {
    if digits.is_empty() || digits.len() > 8 || digits[0] == b'0' || !digits.iter().all(u8::is_ascii_digit) {
        return None;
    }
    Some(digits.iter().fold(0, |number, digit| number * 10 + u32::from(digit - b'0')))
}

/// The number that at most sixteen hex digits show, letters only as capitals.
pub fn hexadecimal(digits: &[u8]) -> Option<u64> {
    digits.iter().try_fold(0, |number, &digit| {
        let value = match digit {
            b'0'..=b'9' => digit - b'0',
            b'A'..=b'F' => digit - b'A' + 10,
            _ => return None,
        };
        Some(number << 4 | u64::from(value))
    })
}
