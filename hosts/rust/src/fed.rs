//! The test of one supplier, fed one amount a call. Any cells whatever are such a test; what those answer that no test was begun in
//! is left open.
use crate::engine::{self, FedCells};
use crate::{Refusal, Verdict};

/// How many cells a test that is fed has.
pub const FED_CELLS: usize = 6;

/// The test of one supplier for totals that come as a stream: begun with the supplier's place and a need, fed one amount a call,
/// then asked. It takes six numbers however many amounts come.
///
/// ```
/// use capping::{FedTest, Verdict};
///
/// let mut fed = FedTest::begin(3, 2);
/// fed.extend([4, 3]);
/// assert_eq!(fed.ask().unwrap_err().number, 11); // no amount has come for place 3 yet
/// fed.feed(2);
/// fed.feed(1);
/// assert_eq!(fed.ask()?, (2, Verdict::P)); // as capping::test(&[4, 3, 2, 1], 3, 2)
/// # Ok::<(), capping::Refusal>(())
/// ```
#[derive(Clone, Debug)]
pub struct FedTest {
    cells: FedCells,
}

impl FedTest {
    /// A test of the supplier at `place`, counted from 0, with no amount yet. Any place will do: whether an amount has come for it
    /// is looked at when the test is asked.
    pub fn begin(place: usize, need: u64) -> FedTest {
        FedTest {
            cells: engine::fed_begin(place as u64, need),
        }
    }

    /// The test that stored cells are.
    pub fn from_cells(cells: [u64; FED_CELLS]) -> FedTest {
        FedTest { cells }
    }

    /// The cells, to store. What each stands for is the engine's own business.
    pub fn cells(&self) -> &[u64; FED_CELLS] {
        &self.cells
    }

    /// Gives the test one amount more. Nothing is refused here: a 33rd amount, or one above 10^12, is remembered whatever comes
    /// behind it, and told when the test is asked.
    pub fn feed(&mut self, amount: u64) {
        engine::fed_feed(&mut self.cells, amount);
    }

    /// What [`test`](crate::test) answers on the amounts fed so far. The test stays as it is: it can be asked in between and fed
    /// on.
    pub fn ask(&self) -> Result<(u64, Verdict), Refusal> {
        engine::fed_ask(&self.cells)
    }
}

/// Feeds each amount as it comes.
impl Extend<u64> for FedTest {
    fn extend<I: IntoIterator<Item = u64>>(&mut self, amounts: I) {
        amounts.into_iter().for_each(|amount| self.feed(amount));
    }
}
