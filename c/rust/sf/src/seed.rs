use core::fmt;

/// A seed for the hashes of keys. Attackers choose the keys, so use one that they can't predict. No
/// result depends on it.
///
/// ```
/// let parser = sf::Parser::seeded(sf::Seed::from_bytes([7; 16]));
/// assert!(parser.check(sf::Kind::Item, "1").is_ok());
/// ```
#[derive(Clone, Copy)]
pub struct Seed {
    pub(crate) bytes: [u8; 16],
}

impl Seed {
    /// A seed that attackers can't predict, from the random numbers by which the standard library
    /// seeds its hash maps.
    ///
    /// ```
    /// let parser = sf::Parser::seeded(sf::Seed::random());
    /// assert!(parser.check(sf::Kind::Item, "1").is_ok());
    /// ```
    #[cfg(feature = "std")]
    #[must_use]
    pub fn random() -> Seed {
        use std::collections::hash_map::RandomState;
        use std::hash::{BuildHasher, Hasher};

        let mut bytes = [0; 16];
        for half in bytes.chunks_mut(8) {
            let number = RandomState::new().build_hasher().finish();
            half.copy_from_slice(&number.to_le_bytes());
        }
        Seed { bytes }
    }

    /// The seed of these bytes.
    ///
    /// ```
    /// let seed = sf::Seed::from_bytes([7; 16]); // for a test
    /// # let _ = seed;
    /// ```
    #[must_use]
    pub const fn from_bytes(bytes: [u8; 16]) -> Seed {
        Seed { bytes }
    }
}

// The bytes of a seed are a secret.
impl fmt::Debug for Seed {
    fn fmt(&self, f: &mut fmt::Formatter<'_>) -> fmt::Result {
        f.write_str("Seed(..)")
    }
}

/// Where the seed of a call comes from.
#[derive(Clone, Copy, Debug)]
pub(crate) enum SeedSource {
    /// A new random one for each call.
    #[cfg(feature = "std")]
    Random,
    /// This one.
    Chosen(Seed),
}

impl SeedSource {
    /// A seed for one call.
    pub(crate) fn seed(self) -> Seed {
        match self {
            #[cfg(feature = "std")]
            SeedSource::Random => Seed::random(),
            SeedSource::Chosen(seed) => seed,
        }
    }
}
