//! The states of a station's entities.

/// Pages of 256 numbers: each one's state and when it was made. What was done to all of them is kept beside, with when.
pub struct Entities {
    pages: Vec<Option<Box<[(u32, u8); 256]>>>,
    now: u32,
    removed: u32,
    all: (u32, u8),
}

impl Entities {
    pub fn new(opening: &[(u16, u8)]) -> Entities {
        let pages = (0..256).map(|_| None).collect();
        let mut entities = Entities { pages, now: 1, removed: 0, all: (0, 0) };
        for (entity, state) in opening {
            entities.put(*entity, *state);
        }
        entities
    }

    pub fn put(&mut self, entity: u16, state: u8) {
        self.now += 1;
        let page = self.pages[usize::from(entity >> 8)].get_or_insert_with(|| Box::new([(0, 0); 256]));
        page[usize::from(entity & 255)] = (self.now, state);
    }

    pub fn put_all(&mut self, state: u8) {
        self.now += 1;
        if state == 0 {
            self.removed = self.now;
        } else {
            self.all = (self.now, state);
        }
    }

    fn now(&self, (made, state): (u32, u8)) -> u8 {
        if made < self.removed {
            0
        } else if state != 0 && made < self.all.0 {
            self.all.1
        } else {
            state
        }
    }

    pub fn get(&self, entity: u16) -> u8 {
        self.pages[usize::from(entity >> 8)].as_ref().map_or(0, |page| self.now(page[usize::from(entity & 255)]))
    }

    /// Those that are there, by rising numbers, with their states.
    pub fn all(&self) -> impl Iterator<Item = (u16, u8)> + '_ {
        let pages = (0_u16..).zip(&self.pages).filter_map(|(number, page)| Some((number << 8, page.as_ref()?)));
        let each = pages.flat_map(|(from, page)| (from..=from | 255).zip(page.iter()));
        each.map(|(entity, slot)| (entity, self.now(*slot))).filter(|(_, state)| *state > 0)
    }
}
