// A table with open addressing and linear probing, without tombstones, that the plain programs of this folder share.

// A record has a key that is not 0; an empty slot is the default, and its key is 0.
trait Record: Copy + Default {
    fn key(&self) -> u32;
}

// There are always fewer records than slots, and the slots are a power of two.
struct Table<R, const SLOTS: usize> {
    slots: [R; SLOTS],
    count: usize,
}

impl<R: Record, const SLOTS: usize> Table<R, SLOTS> {
    fn new() -> Self {
        Table { slots: [R::default(); SLOTS], count: 0 }
    }

    fn home(key: u32) -> usize {
        (key.wrapping_mul(2_654_435_769) >> (32 - SLOTS.trailing_zeros())) as usize
    }

    // The slot with this key, or the empty one where it would go.
    fn slot(&self, key: u32) -> Result<usize, usize> {
        let mut i = Self::home(key);
        while self.slots[i].key() != key {
            if self.slots[i].key() == 0 {
                return Err(i);
            }
            i = (i + 1) % SLOTS;
        }
        Ok(i)
    }

    fn find(&self, key: u32) -> Option<usize> {
        self.slot(key).ok()
    }

    fn put(&mut self, empty: usize, record: R) {
        self.slots[empty] = record;
        self.count += 1;
    }

    fn insert(&mut self, record: R) {
        let mut i = Self::home(record.key());
        while self.slots[i].key() != 0 {
            i = (i + 1) % SLOTS;
        }
        self.put(i, record);
    }

    // Empties a slot, and moves into the hole what it would cut off from its home.
    fn remove(&mut self, mut hole: usize) {
        let mut i = (hole + 1) % SLOTS;
        while self.slots[i].key() != 0 {
            let home = Self::home(self.slots[i].key());
            if hole.wrapping_sub(home) % SLOTS < i.wrapping_sub(home) % SLOTS {
                self.slots[hole] = self.slots[i];
                hole = i;
            }
            i = (i + 1) % SLOTS;
        }
        self.slots[hole] = R::default();
        self.count -= 1;
    }
}
