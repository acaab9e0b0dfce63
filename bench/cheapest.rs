// The master's search in plain Rust, to time the proved program `proposals` against it.
// The cases, the order of the search and what is printed are the same. The number of branches
// looked at, which is the number of turns of the search, goes to the standard error.
use std::env;
use std::process::ExitCode;

const JOBS: usize = 16;
const PLACES: usize = 8;
const ROOM: usize = 512;
const SEED: u32 = 2_463_534_242;
const PRICES: u32 = 1000;
const CUT_TRIES: usize = 20_000;
const JOB_TRIES: usize = 64;

struct Random {
    state: u32,
}

impl Random {
    fn next(&mut self) -> u32 {
        self.state ^= self.state << 13;
        self.state ^= self.state >> 17;
        self.state ^= self.state << 5;
        self.state
    }

    fn below(&mut self, bound: u32) -> u32 {
        self.next() % bound
    }
}

#[derive(Clone, Copy)]
struct Cut {
    place: u8,
    set: u16,
}

fn lies_within(part: Cut, whole: Cut) -> bool {
    part.place == whole.place && part.set & !whole.set == 0
}

struct CutTable {
    cuts: [Cut; ROOM],
    len: usize,
}

impl CutTable {
    fn new() -> CutTable {
        CutTable {
            cuts: [Cut { place: 0, set: 0 }; ROOM],
            len: 0,
        }
    }

    fn held(&self) -> &[Cut] {
        &self.cuts[..self.len]
    }

    fn covers(&self, new: Cut) -> bool {
        self.held().iter().any(|cut| lies_within(*cut, new))
    }

    fn add(&mut self, new: Cut) {
        if self.covers(new) {
            return;
        }
        let mut left = self.cuts;
        let mut len = 0;
        for cut in self.held() {
            if !lies_within(new, *cut) {
                left[len] = *cut;
                len += 1;
            }
        }
        if len < ROOM {
            left[len] = new;
            self.cuts = left;
            self.len = len + 1;
        }
    }

    fn allows_start(&self) -> bool {
        self.held().iter().all(|cut| cut.set != 0)
    }

    fn allows(&self, job: usize, place: u8, so_far: u16) -> bool {
        let set = so_far | 1 << job;
        !self.covers(Cut { place, set })
    }
}

struct Tariff {
    prices: [[u32; PLACES]; JOBS],
    barred: [[bool; PLACES]; JOBS],
}

struct Priced {
    row: [u8; JOBS],
    cost: u32,
}

struct Walk {
    row: [u8; JOBS],
    totals: [u32; JOBS],
    groups: [u16; PLACES],
    depth: usize,
    best: Option<Priced>,
}

impl Walk {
    fn start() -> Walk {
        Walk {
            row: [0; JOBS],
            totals: [0; JOBS],
            groups: [0; PLACES],
            depth: 0,
            best: None,
        }
    }

    fn skip(&mut self) {
        self.row[self.depth] += 1;
    }

    fn take(&mut self, cost: u32) {
        self.best = Some(Priced {
            row: self.row,
            cost,
        });
        self.row[self.depth] += 1;
    }

    fn deepen(&mut self, total: u32) {
        let job = self.depth;
        self.groups[self.row[job] as usize] |= 1 << job;
        self.row[job + 1] = 0;
        self.totals[job + 1] = total;
        self.depth = job + 1;
    }

    fn back(&mut self) {
        let job = self.depth - 1;
        self.groups[self.row[job] as usize] &= !(1 << job);
        self.row[job] += 1;
        self.depth = job;
    }

    fn is_worth(&self, tariff: &Tariff, cuts: &CutTable, total: u32) -> bool {
        let job = self.depth;
        let place = self.row[job];
        if tariff.barred[job][place as usize] {
            return false;
        }
        if self.best.as_ref().is_some_and(|best| best.cost <= total) {
            return false;
        }
        cuts.allows(job, place, self.groups[place as usize])
    }

    // One turn of the search; false when it is over.
    fn turn(&mut self, tariff: &Tariff, cuts: &CutTable) -> bool {
        let job = self.depth;
        let place = self.row[job] as usize;
        if place >= PLACES {
            if job == 0 {
                return false;
            }
            self.back();
            return true;
        }
        let total = self.totals[job].saturating_add(tariff.prices[job][place]);
        if !self.is_worth(tariff, cuts, total) {
            self.skip();
        } else if job + 1 < JOBS {
            self.deepen(total);
        } else {
            self.take(total);
        }
        true
    }
}

// The cheapest row, and the number of branches looked at.
fn cheapest(tariff: &Tariff, cuts: &CutTable) -> (Option<Priced>, u64) {
    if !cuts.allows_start() {
        return (None, 0);
    }
    let mut walk = Walk::start();
    let mut branches = 1;
    while walk.turn(tariff, cuts) {
        branches += 1;
    }
    (walk.best, branches)
}

fn random_tariff(random: &mut Random) -> Tariff {
    let mut tariff = Tariff {
        prices: [[0; PLACES]; JOBS],
        barred: [[false; PLACES]; JOBS],
    };
    for offer in &mut tariff.prices {
        for price in offer {
            *price = random.below(PRICES);
        }
    }
    tariff
}

fn random_set(random: &mut Random) -> u16 {
    let wanted = 2 + random.below(3);
    let mut set: u16 = 0;
    for _ in 0..JOB_TRIES {
        if set.count_ones() >= wanted {
            break;
        }
        set |= 1 << random.below(JOBS as u32);
    }
    set
}

fn random_cuts(random: &mut Random, wanted: usize) -> CutTable {
    let mut cuts = CutTable::new();
    for _ in 0..CUT_TRIES {
        if cuts.len >= wanted {
            break;
        }
        let place = random.below(PLACES as u32) as u8;
        let set = random_set(random);
        cuts.add(Cut { place, set });
    }
    cuts
}

fn show(number: usize, held: usize, answer: Option<Priced>) {
    print!("instance {number}, cuts {held}: ");
    match answer {
        None => println!("none"),
        Some(best) => {
            print!("cost {}, row", best.cost);
            for place in best.row {
                print!(" {place}");
            }
            println!();
        }
    }
}

fn main() -> ExitCode {
    let numbers: Vec<usize> = env::args().skip(1).flat_map(|word| word.parse()).collect();
    let [wanted, cases] = numbers[..] else {
        eprintln!("usage: cheapest CUTS CASES");
        return ExitCode::FAILURE;
    };
    let mut random = Random { state: SEED };
    for number in 0..cases {
        let tariff = random_tariff(&mut random);
        let cuts = random_cuts(&mut random, wanted);
        let (best, branches) = cheapest(&tariff, &cuts);
        show(number, cuts.len, best);
        eprintln!("{branches}");
    }
    ExitCode::SUCCESS
}
