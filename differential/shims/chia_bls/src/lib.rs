//! Stands in for chia_bls so that source document 000 compiles. Points are no part of the port: nothing here is called.

pub struct G1Element([u8; 48]);
pub struct G2Element([u8; 96]);

impl G1Element {
    pub fn from_bytes(bytes: &[u8; 48]) -> Result<Self, ()> {
        Ok(Self(*bytes))
    }
    pub fn to_bytes(&self) -> [u8; 48] {
        self.0
    }
}

impl G2Element {
    pub fn from_bytes(bytes: &[u8; 96]) -> Result<Self, ()> {
        Ok(Self(*bytes))
    }
    pub fn to_bytes(&self) -> [u8; 96] {
        self.0
    }
}
