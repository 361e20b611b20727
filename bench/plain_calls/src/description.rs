//! What a description says: layouts of messages, attributes, hash texts.

use base64::URL_SAFE_NO_PAD;
use sha1::{Digest, Sha1};

#[derive(Clone, Debug, PartialEq, Eq)]
pub struct TypeDetail {
    pub name: String,
    pub is_dynamic: bool,
    pub size: usize,
    /// A power of two.
    pub alignment: usize,
}

#[derive(Clone, Debug)]
pub struct Types {
    pub header: TypeDetail,
    pub user_header: TypeDetail,
    pub payload: TypeDetail,
}

#[derive(Clone, Copy, Debug)]
pub struct Layout {
    pub size: usize,
    #[allow(dead_code)]
    pub alignment: usize,
}

impl Types {
    /// The room for a message of this many elements, wherever its header lies, or `None` beyond 2^63 - 1 bytes.
    pub fn layout(&self, elements: usize) -> Option<Layout> {
        let size = self
            .payload
            .size
            .checked_mul(elements)?
            .checked_add(self.header.size)?
            .checked_add(self.user_header.size)?
            .checked_add(self.user_header.alignment - 1)?
            .checked_add(self.payload.alignment - 1)?;
        let alignment = self.header.alignment;
        let size = size.checked_add(alignment - 1)? & !(alignment - 1);
        (size <= isize::MAX as usize).then_some(Layout { size, alignment })
    }
}

#[derive(Clone, Debug, PartialEq, Eq, PartialOrd, Ord)]
pub struct Attribute {
    pub key: String,
    pub value: String,
}

/// At most 16 attributes, in order.
#[derive(Debug, Default)]
pub struct Attributes(Vec<Attribute>);

#[derive(Debug)]
#[allow(dead_code)]
pub enum Missing {
    Attribute(Attribute),
    Key(String),
}

/// What an opener requires of attributes: at most 16 pairs and keys.
#[derive(Debug, Default)]
pub struct Verifier {
    pub pairs: Attributes,
    pub keys: Vec<String>,
}

impl Attributes {
    pub fn add(&mut self, attribute: Attribute) {
        let index = self.0.partition_point(|other| *other <= attribute);
        self.0.insert(index, attribute);
    }

    fn has(&self, attribute: &Attribute) -> bool {
        self.0.binary_search(attribute).is_ok()
    }

    fn has_key(&self, key: &str) -> bool {
        self.0
            .binary_search_by(|attribute| attribute.key.as_str().cmp(key))
            .is_ok()
    }
}

impl Verifier {
    pub fn verify(&self, attributes: &Attributes) -> Result<(), Missing> {
        if let Some(pair) = self.pairs.0.iter().find(|pair| !attributes.has(pair)) {
            return Err(Missing::Attribute(pair.clone()));
        }
        match self.keys.iter().find(|key| !attributes.has_key(key)) {
            Some(key) => Err(Missing::Key(key.clone())),
            None => Ok(()),
        }
    }
}

/// The number of a pattern and a name, hashed by SHA-1 and written in the URL-safe alphabet of base64.
pub fn hash_text(pattern: u8, name: &str) -> [u8; 27] {
    let digest = Sha1::new()
        .chain_update([b'0' + pattern])
        .chain_update(name)
        .finalize();
    let mut text = [0; 27];
    base64::encode_config_slice(digest, URL_SAFE_NO_PAD, &mut text);
    text
}
