//! Class loads: sheets made from a seed.

use crate::ffi::{self, Reply};
use crate::limits;
use crate::refusal::Refusal;

/// What a class load is made from: three numbers that stand for one sheet, the same on every machine.
///
/// The sheet has one parameter, identifier 0, returns its last identifier and has one block, with an
/// instruction of one effect at each of the orders 1 to `effects`. What an effect is, mutation or
/// relation, and which identifiers it names, is drawn from the seed. [`Service`](crate::Service)
/// accepts every such sheet of each of its callers.
///
/// ```
/// use service_host::{ClassLoad, Service};
///
/// let load = ClassLoad { seed: 2026, identifiers: 4, effects: 6 };
/// let words = load.words()?;
/// assert_eq!(words.len(), 21 + 3 * 4 + 16 * 6);
/// let mut service = Service::new();
/// assert_eq!(service.infer(0, &words)?.ranges().len(), 4);
/// # Ok::<(), service_host::Refusal>(())
/// ```
#[derive(Debug, Clone, Copy, PartialEq, Eq, Hash)]
pub struct ClassLoad {
    /// Any number.
    pub seed: u32,
    /// How many identifiers: [`limits::LOAD_IDENTIFIERS`].
    pub identifiers: u32,
    /// How many effects: [`limits::LOAD_EFFECTS`].
    pub effects: u32,
}

impl ClassLoad {
    /// The words of the sheet, made by the library. Refused is a count outside its limits, with
    /// [`Refusal::OutOfRange`], and nothing else. [`Service::load`](crate::Service::load) makes them
    /// for a caller.
    pub fn words(self) -> Result<Vec<u32>, Refusal> {
        made(|words| ffi::load(self.seed, self.identifiers, self.effects, words))
    }
}

/// What a call makes in words that are enough for every load.
pub(crate) fn made(call: impl FnOnce(&mut [u32]) -> Reply) -> Result<Vec<u32>, Refusal> {
    let mut words = vec![0; limits::LOAD];
    let reply = call(&mut words);
    match reply.refusal {
        0 => {
            words.truncate(reply.length);
            Ok(words)
        }
        number => Err(Refusal::of_library(number)),
    }
}
