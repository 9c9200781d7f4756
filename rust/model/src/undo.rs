//! Undo of the last union: document 02, ticket 7.

use crate::{layout::*, rows::Rows};

impl Rows<'_> {
    /// Head and tables become those before the union that the head remembers, with nothing further to undo.
    pub fn undo(&mut self) -> Result<(), Refusal> {
        let Memory { kept: x, gone: y, moved, value } = self.head.undo;
        if x == 0 {
            return Err(Refusal::Nothing);
        }
        let (after_x, after_y) = (self.elem(x, NEXT), self.elem(y, NEXT));
        self.put_elem(x, NEXT, after_y);
        self.put_elem(after_y, PREVIOUS, x);
        self.put_elem(y, NEXT, after_x);
        self.put_elem(after_x, PREVIOUS, y);
        let (c, d) = (self.class(x), self.take_shared());
        // after the links are exchanged: before, the walk would go round the joined ring
        let (mut z, mut bytes) = (y, 0);
        for _ in 0..moved {
            self.put_elem(z, CLASS, d);
            bytes += self.elem(z, SIZE);
            z = self.elem(z, NEXT);
        }
        self.put_shared(d, [moved, value, 0, 0, bytes]);
        self.put_header(c, COUNT, self.header(c, COUNT) - moved);
        self.put_header(c, TOTAL, self.header(c, TOTAL) - bytes);
        self.head.undo = Memory::default();
        Ok(())
    }
}
