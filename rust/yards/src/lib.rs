//! Yards with starts and goals, made from fixed seeds: what the agreement and the bench put in. And the vectors of planning.

pub mod compares;
pub mod editions;
pub mod surveys;
pub mod vectors;

/// Numbers that look random and are the same at every run (splitmix64).
pub struct Dice(u64);

impl Dice {
    pub fn new(seed: u64) -> Dice {
        Dice(seed)
    }

    pub fn any(&mut self) -> u64 {
        self.0 = self.0.wrapping_add(0x9E37_79B9_7F4A_7C15);
        let mut mixed = self.0;
        mixed = (mixed ^ mixed >> 30).wrapping_mul(0xBF58_476D_1CE4_E5B9);
        mixed = (mixed ^ mixed >> 27).wrapping_mul(0x94D0_49BB_1331_11EB);
        mixed ^ mixed >> 31
    }

    pub fn below(&mut self, count: usize) -> usize {
        (self.any() % count.max(1) as u64) as usize
    }

    pub fn from_to(&mut self, least: usize, most: usize) -> usize {
        least + self.below(most + 1 - least)
    }

    pub fn percent(&mut self, chance: usize) -> bool {
        self.below(100) < chance
    }

    pub fn pick<T: Copy>(&mut self, list: &[T]) -> T {
        list[self.below(list.len())]
    }

    pub fn shuffle<T>(&mut self, list: &mut [T]) {
        for end in (1..list.len()).rev() {
            list.swap(end, self.below(end + 1));
        }
    }

    pub fn shuffled(&mut self, count: usize) -> Vec<u16> {
        let mut list: Vec<u16> = (0..count as u16).collect();
        self.shuffle(&mut list);
        list
    }
}

/// What a planner is handed.
#[derive(Clone)]
pub struct Order {
    pub bays: u64,
    pub rails: Vec<u16>,
    pub start: Vec<u16>,
    pub goal: Vec<u16>,
}

impl Order {
    pub fn on(bays: usize, rails: Vec<u16>) -> Order {
        Order { bays: bays as u64, rails, start: Vec::new(), goal: Vec::new() }
    }

    /// Starts and goals for so many carriers at random.
    pub fn with_carriers(mut self, carriers: usize, dice: &mut Dice) -> Order {
        self.start = dice.shuffled(self.bays as usize);
        self.goal = dice.shuffled(self.bays as usize);
        self.start.truncate(carriers);
        self.goal.truncate(carriers);
        self
    }

    /// Starts and goals for so many carriers at random, with the goals in the order of the starts: on a ring numbered along it no other order can be
    /// planned.
    pub fn in_turn(mut self, carriers: usize, dice: &mut Dice) -> Order {
        self = self.with_carriers(carriers, dice);
        let mut order = dice.shuffled(carriers);
        let turn = dice.below(carriers);
        let (mut start, mut goal) = (self.start.clone(), self.goal.clone());
        start.sort_unstable();
        goal.sort_unstable();
        goal.rotate_left(turn);
        for (place, carrier) in order.drain(..).enumerate() {
            self.start[carrier as usize] = start[place];
            self.goal[carrier as usize] = goal[place];
        }
        self
    }

    /// The same yard with its bays numbered at random and its rails in another order: on a grid numbered row by row a wrong tie-break is
    /// right nearly always.
    pub fn renumbered(mut self, dice: &mut Dice) -> Order {
        let name = dice.shuffled(self.bays as usize);
        for list in [&mut self.rails, &mut self.start, &mut self.goal] {
            list.iter_mut().for_each(|bay| *bay = name[*bay as usize]);
        }
        let mut pairs: Vec<[u16; 2]> = self.rails.chunks_exact(2).map(|rail| [rail[0], rail[1]]).collect();
        dice.shuffle(&mut pairs);
        pairs.iter_mut().filter(|_| dice.percent(50)).for_each(|rail| rail.reverse());
        self.rails = pairs.concat();
        self
    }
}

pub fn line(bays: usize) -> Vec<u16> {
    (1..bays as u16).flat_map(|bay| [bay - 1, bay]).collect()
}

pub fn ring(bays: usize) -> Vec<u16> {
    let mut rails = line(bays);
    if bays > 2 {
        rails.extend([bays as u16 - 1, 0]);
    }
    rails
}

pub fn star(bays: usize) -> Vec<u16> {
    (1..bays as u16).flat_map(|bay| [0, bay]).collect()
}

pub fn grid(width: usize, height: usize) -> Vec<u16> {
    let mut rails = Vec::new();
    for bay in 0..width * height {
        if (bay + 1) % width != 0 {
            rails.extend([bay as u16, bay as u16 + 1]);
        }
        if bay + width < width * height {
            rails.extend([bay as u16, (bay + width) as u16]);
        }
    }
    rails
}

/// A line with a siding of one bay at every `every`th bay of it, as many as so many bays give. The line has the lower numbers.
pub fn line_with_sidings(bays: usize, every: usize) -> Vec<u16> {
    let along = bays * every / (every + 1);
    let mut rails = line(along);
    for siding in along..bays {
        let beside = ((siding - along) * every + every / 2).min(along - 1);
        rails.extend([beside as u16, siding as u16]);
    }
    rails
}

/// A line with a siding at each of its bays: bay 2i and its siding 2i + 1.
pub fn comb(bays: usize) -> Vec<u16> {
    (0..bays as u16 / 2).flat_map(|i| [[2 * i, 2 * i + 1], [2 * i, 2 * i + 2]]).flatten().take((bays - 1) * 2).collect()
}

/// A grid with walls at random, about a quarter of its cells, and so many bays, all in one piece, numbered row by row.
pub fn walled(bays: usize, dice: &mut Dice) -> Vec<u16> {
    let width = (1..).find(|width| 3 * width * width >= 4 * bays).unwrap_or(bays);
    let mut free = vec![true; width * width];
    let mut left = width * width;
    while left > bays {
        let cell = dice.below(width * width);
        if free[cell] {
            free[cell] = false;
            left -= 1;
            if in_reach(&free, width) < left {
                free[cell] = true;
                left += 1;
            }
        }
    }
    let name: Vec<usize> = free.iter().scan(0, |next, &free| Some(std::mem::replace(next, *next + free as usize))).collect();
    let both = |rail: &&[u16]| rail.iter().all(|&cell| free[cell as usize]);
    grid(width, width).chunks_exact(2).filter(both).flatten().map(|&cell| name[cell as usize] as u16).collect()
}

/// How many free cells are reached from the first one.
fn in_reach(free: &[bool], width: usize) -> usize {
    let mut met: Vec<usize> = free.iter().position(|&free| free).into_iter().collect();
    let mut seen = vec![false; free.len()];
    met.iter().for_each(|&cell| seen[cell] = true);
    let mut done = 0;
    while done < met.len() {
        let cell = met[done];
        let sides = [(cell % width > 0, cell.wrapping_sub(1)), (cell % width + 1 < width, cell + 1)];
        for (there, next) in sides.into_iter().chain([(cell >= width, cell.wrapping_sub(width)), (cell + width < free.len(), cell + width)])
        {
            if there && free[next] && !seen[next] {
                seen[next] = true;
                met.push(next);
            }
        }
        done += 1;
    }
    done
}

/// Carriers in the first bays, to be put in reverse order: on a line few of them have long plans.
pub fn reversed(rails: Vec<u16>, carriers: u16) -> Order {
    let mut order = Order::on(256, rails);
    order.start = (0..carriers).collect();
    order.goal = (0..carriers).rev().collect();
    order
}

/// A line with a ring at its end.
pub fn lollipop(bays: usize, around: usize) -> Vec<u16> {
    let mut rails = line(bays);
    if around > 2 && around <= bays {
        rails.extend([(bays - around) as u16, bays as u16 - 1]);
    }
    rails
}

/// A tree, then rails between pairs at random until there are `rails`. The tree's new bays join one of the last `reach` before them, so
/// a short reach gives long yards.
pub fn connected(bays: usize, rails: usize, reach: usize, dice: &mut Dice) -> Vec<u16> {
    let mut list: Vec<u16> = Vec::new();
    let mut joined = vec![false; bays * bays];
    for bay in 1..bays {
        let other = bay - 1 - dice.below(bay.min(reach.max(1)));
        joined[other * bays + bay] = true;
        list.extend([other as u16, bay as u16]);
    }
    let most = rails.min(bays * (bays - 1) / 2).min(bays - 1 + 20 * bays);
    while list.len() / 2 < most {
        let (a, b) = (dice.below(bays), dice.below(bays));
        let (low, high) = (a.min(b), a.max(b));
        if low != high && !joined[low * bays + high] {
            joined[low * bays + high] = true;
            list.extend([a as u16, b as u16]);
        }
    }
    list
}

/// A legal plan of exactly so many crossings, each at random, and the order whose goal is where it ends. At least one crossing must be
/// legal at the start.
pub fn wander(mut order: Order, crossings: usize, dice: &mut Dice) -> (Order, Vec<u64>) {
    let bays = order.bays as usize;
    let mut beside = vec![Vec::new(); bays];
    for rail in order.rails.chunks_exact(2) {
        beside[rail[0] as usize].push(rail[1]);
        beside[rail[1] as usize].push(rail[0]);
    }
    let mut place = order.start.clone();
    let mut taken = vec![false; bays];
    place.iter().for_each(|&bay| taken[bay as usize] = true);
    let mut plan = Vec::new();
    while plan.len() < crossings {
        let carrier = dice.below(place.len());
        let from = place[carrier];
        let to = dice.pick(&beside[from as usize]);
        if !taken[to as usize] {
            plan.push((carrier as u64) << 32 | (from as u64) << 16 | to as u64);
            taken[from as usize] = false;
            taken[to as usize] = true;
            place[carrier] = to;
        }
    }
    order.goal = place;
    (order, plan)
}
