//! What the three files import from the crate `recasting`.

/// Gives new items for old ones.
pub trait Recaster {
    type Item;

    /// Replaces the item; an unknown one is the error.
    fn recast_item(&self, item: &mut Self::Item) -> Result<(), Self::Item>;
}

/// Holds items that can be replaced.
pub trait Recast<I> {
    fn recast<R: Recaster<Item = I>>(&mut self, recaster: &R) -> Result<(), <R as Recaster>::Item>;
}
