//! Stands in for rcgen, which Debian 12 lacks: a certificate for some names, with a key of its own (RFC 5280, 4.1).
use ring::{
    rand::SystemRandom,
    signature::{EcdsaKeyPair, KeyPair, ECDSA_P256_SHA256_ASN1_SIGNING},
};

pub struct Certificate {
    der: Vec<u8>,
    key: Vec<u8>,
}

#[derive(Debug)]
pub struct RcgenError;

impl Certificate {
    pub fn serialize_der(&self) -> Result<Vec<u8>, RcgenError> {
        Ok(self.der.clone())
    }

    pub fn serialize_private_key_der(&self) -> Vec<u8> {
        self.key.clone()
    }
}

/// A value of ASN.1 with its tag and its length (X.690, 8.1).
fn der(tag: u8, parts: &[&[u8]]) -> Vec<u8> {
    let value = parts.concat();
    let length = value.len().to_be_bytes();
    let bytes = &length[length.iter().take_while(|it| **it == 0).count()..];
    let mut all = vec![tag];
    if value.len() >= 128 {
        all.push(0x80 + bytes.len() as u8);
    }
    all.extend(if bytes.is_empty() { &[0] } else { bytes });
    all.extend(value);
    all
}

const SEQUENCE: u8 = 0x30;
const ID_EC_PUBLIC_KEY: &[u8] = b"\x06\x07\x2a\x86\x48\xce\x3d\x02\x01";
const PRIME256V1: &[u8] = b"\x06\x08\x2a\x86\x48\xce\x3d\x03\x01\x07";
const ECDSA_WITH_SHA256: &[u8] = b"\x30\x0a\x06\x08\x2a\x86\x48\xce\x3d\x04\x03\x02";
const COMMON_NAME: &[u8] = b"\x06\x03\x55\x04\x03";
const SUBJECT_ALT_NAME: &[u8] = b"\x06\x03\x55\x1d\x11";

pub fn generate_simple_self_signed(names: Vec<String>) -> Result<Certificate, RcgenError> {
    let random = SystemRandom::new();
    let algorithm = &ECDSA_P256_SHA256_ASN1_SIGNING;
    let key = EcdsaKeyPair::generate_pkcs8(algorithm, &random).map_err(|_| RcgenError)?;
    let pair = EcdsaKeyPair::from_pkcs8(algorithm, key.as_ref()).map_err(|_| RcgenError)?;

    let name = der(0x0c, &[b"quic-recovery"]);
    let name = der(SEQUENCE, &[&der(0x31, &[&der(SEQUENCE, &[COMMON_NAME, &name])])]);
    let (from, until) = (der(0x17, &[b"200101000000Z"]), der(0x18, &[b"40960101000000Z"]));
    let held = der(0x03, &[&[0], pair.public_key().as_ref()]);
    let names: Vec<_> = names.iter().map(|it| der(0x82, &[it.as_bytes()])).collect();
    let names: Vec<_> = names.iter().map(|it| &it[..]).collect();
    let names = der(SEQUENCE, &[SUBJECT_ALT_NAME, &der(0x04, &[&der(SEQUENCE, &names)])]);
    let told = der(
        SEQUENCE,
        &[
            &der(0xa0, &[&der(0x02, &[&[2]])]),
            &der(0x02, &[&[1]]),
            ECDSA_WITH_SHA256,
            &name,
            &der(SEQUENCE, &[&from, &until]),
            &name,
            &der(SEQUENCE, &[&der(SEQUENCE, &[ID_EC_PUBLIC_KEY, PRIME256V1]), &held]),
            &der(0xa3, &[&der(SEQUENCE, &[&names])]),
        ],
    );
    let signature = pair.sign(&random, &told).map_err(|_| RcgenError)?;
    let signature = der(0x03, &[&[0], signature.as_ref()]);
    Ok(Certificate { der: der(SEQUENCE, &[&told, ECDSA_WITH_SHA256, &signature]), key: key.as_ref().to_vec() })
}
