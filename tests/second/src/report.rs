//! The report's 32 bytes.

use crate::case::REPORT;

#[derive(Default)]
pub struct Report {
    pub letters: u16,
    pub length: usize,
    pub class: u8,
    pub service: u8,
    pub iv: Option<u64>,
    pub date: Option<Vec<u8>>,
}

impl Report {
    pub fn bytes(&self) -> Vec<u8> {
        let mut bytes = self.letters.to_be_bytes().to_vec();
        bytes.extend((self.length as u16).to_be_bytes());
        bytes.extend([self.class, self.service, u8::from(self.iv.is_some()), u8::from(self.date.is_some())]);
        bytes.extend(self.iv.unwrap_or(0).to_be_bytes());
        bytes.extend(self.date.as_deref().unwrap_or(&[0; 12]));
        bytes.resize(REPORT, 0);
        bytes
    }
}
