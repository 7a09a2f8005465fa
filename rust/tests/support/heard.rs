//! What is heard of a table, worked out by exact sums.
//!
//! It knows the rules of settings, passes, restarts and origins. It knows nothing
//! of messages, and nothing of fractions: a boundary is the sum of all that sounds
//! since the last restart. Where the sums restart is a parameter, so that a wrong
//! rule can be heard too.

/// What a player meets on its way, each just ahead of what it names.
#[derive(Clone, Copy, Debug, PartialEq, Eq)]
pub enum Event {
    Pattern,
    Recall,
    /// A pass of a pattern that sounds a number of times, the first one too.
    Pass,
    FirstEndlessPass,
    SecondEndlessPass,
    Scale,
    Style,
    /// A tempo other than the one in force.
    OtherTempo,
    SameTempo,
    Volume,
    Note,
    Pause,
}

pub const EVENTS: [Event; 12] = [
    Event::Pattern,
    Event::Recall,
    Event::Pass,
    Event::FirstEndlessPass,
    Event::SecondEndlessPass,
    Event::Scale,
    Event::Style,
    Event::OtherTempo,
    Event::SameTempo,
    Event::Volume,
    Event::Note,
    Event::Pause,
];

/// Whether the sums restart there.
pub fn restarts(event: Event) -> bool {
    matches!(
        event,
        Event::OtherTempo | Event::SameTempo | Event::FirstEndlessPass | Event::SecondEndlessPass
    )
}

/// Beats a minute of the tempo codes.
const BEATS: [u128; 32] = [
    25, 28, 31, 35, 40, 45, 50, 56, 63, 70, 80, 90, 100, 112, 125, 140, 160, 180, 200, 225, 250,
    285, 320, 355, 400, 450, 500, 565, 635, 715, 800, 900,
];

/// So many parts of a microsecond that a unit is a whole number of them at each
/// tempo: a multiple of all the beats.
const PARTS: u128 = 64 * 9 * 125 * 7 * 11 * 13 * 19 * 31 * 71 * 113 * 127;

const _: () = {
    let mut code = 0;
    while code < 32 {
        assert!(PARTS % BEATS[code] == 0);
        code += 1;
    }
};

/// A note or a pause that is heard.
#[derive(Clone, Copy, Debug)]
pub struct Sound {
    /// The first number of its entry.
    pub first: u32,
    /// The third one.
    pub origin: u32,
    pub units: u128,
    pub beats: u128,
    /// Whether the sums restart at it.
    pub anew: bool,
}

/// Plays bodies one pass after the other, and keeps what it hears.
pub struct Player<R> {
    restarts: R,
    scale: u32,
    style: u32,
    tempo: u32,
    volume: u32,
    anew: bool,
    pub sounds: Vec<Sound>,
}

impl<R: Fn(Event) -> bool> Player<R> {
    pub fn at_start(restarts: R) -> Player<R> {
        Player {
            restarts,
            scale: 1,
            style: 0,
            tempo: 8,
            volume: 7,
            anew: true,
            sounds: Vec::new(),
        }
    }

    pub fn meet(&mut self, event: Event) {
        self.anew |= (self.restarts)(event);
    }

    /// The code of the tempo in force.
    pub fn tempo(&self) -> u32 {
        self.tempo
    }

    /// Plays the patterns of a sound table, up to the endless one.
    pub fn table(&mut self, table: &[u32]) {
        let mut bodies: [&[u32]; 4] = [&[]; 4];
        let mut rest = table;
        let mut position = 0;
        while let [header, behind @ ..] = rest {
            let (id, loops) = ((header / 4096 % 4) as usize, header / 256 % 16);
            let (own, behind) = behind.split_at((header % 256) as usize);
            if own.is_empty() {
                self.meet(Event::Recall);
            } else {
                self.meet(Event::Pattern);
                bodies[id] = own;
            }
            self.passes(position, bodies[id], loops);
            rest = if loops == 15 { &[] } else { behind };
            position += 1;
        }
    }

    fn passes(&mut self, header: u32, body: &[u32], loops: u32) {
        let passes = if loops == 15 { 2 } else { loops + 1 };
        for pass in 0..passes {
            self.meet(match (loops, pass) {
                (15, 0) => Event::FirstEndlessPass,
                (15, _) => Event::SecondEndlessPass,
                _ => Event::Pass,
            });
            self.pass(header, body);
        }
    }

    /// Plays a body once. The header that sounds it is known by its position.
    pub fn pass(&mut self, header: u32, body: &[u32]) {
        for (origin, &entry) in (header * 256..).zip(body) {
            self.instruction(origin, entry / 65536, entry % 65536);
        }
    }

    fn instruction(&mut self, origin: u32, kind: u32, payload: u32) {
        match kind {
            1 if payload < 32 => self.meet(Event::Pause),
            1 => self.meet(Event::Note),
            2 => self.meet(Event::Scale),
            3 => self.meet(Event::Style),
            4 if payload == self.tempo => self.meet(Event::SameTempo),
            4 => self.meet(Event::OtherTempo),
            _ => self.meet(Event::Volume),
        }
        match kind {
            1 => self.sound(origin, payload),
            2 => self.scale = payload,
            3 => self.style = payload,
            4 => self.tempo = payload,
            _ => self.volume = payload,
        }
    }

    fn sound(&mut self, origin: u32, payload: u32) {
        let (note, duration, specifier) = (payload / 32, payload / 4 % 8, payload % 4);
        let full: u128 = [384, 576, 672, 256][specifier as usize];
        self.sounds.push(Sound {
            first: note * 1024 + self.scale * 256 + self.style * 16 + self.volume,
            origin,
            units: full >> duration,
            beats: BEATS[self.tempo as usize],
            anew: self.anew,
        });
        self.anew = false;
    }

    /// The list, three numbers an entry. Each duration is the difference of two
    /// boundaries, and each boundary is rounded down from its exact sum.
    pub fn cells(&self) -> Vec<u32> {
        let mut cells = Vec::new();
        let mut sum = 0;
        for sound in &self.sounds {
            if sound.anew {
                sum = 0;
            }
            let before = sum / PARTS;
            sum += sound.units * 625_000 * (PARTS / sound.beats);
            let microseconds = (sum / PARTS - before) as u32;
            cells.extend([sound.first, microseconds, sound.origin]);
        }
        cells
    }
}

/// All that is heard of a table.
pub fn heard(table: &[u32]) -> Vec<Sound> {
    let mut player = Player::at_start(restarts);
    player.table(table);
    player.sounds
}

/// The list of a table, where the sums restart at these events.
pub fn list_of(table: &[u32], restarts: impl Fn(Event) -> bool) -> Vec<u32> {
    let mut player = Player::at_start(restarts);
    player.table(table);
    player.cells()
}
