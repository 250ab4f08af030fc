//! A network: its queues, and its events with their rates.

/// To which of its targets an event gives customers.
#[derive(Clone, Copy, PartialEq)]
enum Choice {
    /// One customer to the first target that has space.
    First,
    /// One customer to the target that has space and the fewest customers.
    Shortest,
    /// One customer to each target; all need space.
    All,
}

/// An event: the queues that lose a customer, how many the first of them needs, and the targets.
struct Event {
    choice: Choice,
    takes: Vec<usize>,
    least: u32,
    targets: Vec<usize>,
    leaves: bool,
}

/// A network, from its first state on.
pub struct Network {
    pub start: Vec<u32>,
    pub watched: usize,
    capacities: Vec<u32>,
    events: Vec<Event>,
    /// The event of each unit of the total rate.
    picks: Vec<u16>,
}

impl Network {
    /// Reads a network; `None` where the text has another form.
    pub fn parse(text: &str) -> Option<Self> {
        let (mut capacities, mut start, mut watched) = (Vec::new(), Vec::new(), None);
        let (mut events, mut picks) = (Vec::new(), Vec::new());
        for line in text.lines() {
            let words: Vec<&str> = line.split(' ').collect();
            match words.as_slice() {
                ["capacities", numbers @ ..] => capacities = list(numbers)?,
                ["start", numbers @ ..] => start = list(numbers)?,
                ["watched", number] => watched = number.parse().ok(),
                ["event", kind, rate, takes, least, targets, full] => {
                    let rate: usize = rate.parse().ok()?;
                    picks.extend(std::iter::repeat(u16::try_from(events.len()).ok()?).take(rate));
                    events.push(Event {
                        choice: choice(kind)?,
                        takes: queues(takes, capacities.len())?,
                        least: least.parse().ok()?,
                        targets: queues(targets, capacities.len())?,
                        leaves: *full == "leave",
                    });
                }
                _ => return None,
            }
        }
        let is_whole = start.len() == capacities.len() && !picks.is_empty();
        let watched = watched.filter(|&queue| is_whole && queue < start.len())?;
        Some(Self { start, watched, capacities, events, picks })
    }

    /// Makes one step of the uniformized chain, by a random number.
    pub fn step(&self, state: &mut [u32], number: u64) {
        let unit = (u128::from(number) * self.picks.len() as u128) >> 64;
        let event = &self.events[usize::from(self.picks[unit as usize])];
        if !event.serves(state) {
            return;
        }
        match event.choice {
            Choice::All => {
                if event.targets.iter().all(|&queue| self.has_space(state, queue)) {
                    event.take(state);
                    event.targets.iter().for_each(|&queue| state[queue] += 1);
                }
            }
            Choice::First | Choice::Shortest => match self.target(state, event) {
                Some(queue) => {
                    event.take(state);
                    state[queue] += 1;
                }
                None if event.leaves => event.take(state),
                None => {}
            },
        }
    }

    fn has_space(&self, state: &[u32], queue: usize) -> bool {
        state[queue] < self.capacities[queue]
    }

    /// Returns the target to which a route sends its customer.
    fn target(&self, state: &[u32], event: &Event) -> Option<usize> {
        let mut free = event.targets.iter().copied().filter(|&queue| self.has_space(state, queue));
        match event.choice {
            Choice::Shortest => free.min_by_key(|&queue| state[queue]),
            _ => free.next(),
        }
    }
}

impl Event {
    /// Returns whether its queues hold the customers that it needs.
    fn serves(&self, state: &[u32]) -> bool {
        let mut others = self.takes.iter().skip(1);
        self.takes.first().map_or(true, |&queue| state[queue] >= self.least)
            && others.all(|&queue| state[queue] > 0)
    }

    /// Takes the customers that it removes.
    fn take(&self, state: &mut [u32]) {
        self.takes.iter().for_each(|&queue| state[queue] -= 1);
    }
}

/// Reads numbers.
fn list(words: &[&str]) -> Option<Vec<u32>> {
    words.iter().map(|word| word.parse().ok()).collect()
}

/// Reads the numbers of queues, `-` for none.
fn queues(text: &str, count: usize) -> Option<Vec<usize>> {
    let numbers = text.split(',').filter(|word| *word != "-");
    numbers.map(|word| word.parse().ok().filter(|&queue| queue < count)).collect()
}

/// Reads to which targets an event gives customers.
fn choice(word: &str) -> Option<Choice> {
    match word {
        "first" => Some(Choice::First),
        "shortest" => Some(Choice::Shortest),
        "all" => Some(Choice::All),
        _ => None,
    }
}
