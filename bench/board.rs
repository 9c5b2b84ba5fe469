// The calls of a board by hand, with std alone: `board HANDS` with 1, 2 or 4 prints the nanoseconds of a
// claim, a poll, a post and a collect, as crates/conc_test_bench_board does, in the same rounds and threads,
// with the same clock readings. Each call makes the same loads and exchanges on the same words.
use std::cell::UnsafeCell;
use std::fmt::{self, Display, Formatter};
use std::process::ExitCode;
use std::sync::atomic::Ordering::SeqCst;
use std::sync::atomic::{AtomicBool, AtomicU64};
use std::thread;
use std::time::{Duration, Instant};

const PLACES: u32 = 64;
const ROUNDS: u32 = 60;
const REQUESTS: u32 = ROUNDS * PLACES;

// ---- the plan

#[derive(Clone, Copy, PartialEq, Eq)]
enum Item {
    Program(u32),
    #[allow(dead_code)]
    Set(u32),
}

#[allow(dead_code)]
struct Request {
    number: u32,
    command: u32,
    item: Item,
    user: String,
    request_type: String,
    priority: u8,
    start: u64,
    domain: String,
    argument: String,
    parent: Option<u32>,
    stage: u32,
}

#[derive(Default)]
struct Rule {
    program: Option<u32>,
    request_type: Option<String>,
    user: Option<String>,
}

struct Manager {
    include: Vec<Rule>,
    exclude: Vec<Rule>,
    shifts: Vec<u32>,
}

struct Plan {
    managers: Vec<Manager>,
    requests: Vec<Request>,
}

impl Rule {
    fn matches(&self, request: &Request) -> bool {
        self.program.is_none_or(|program| Item::Program(program) == request.item)
            && self.request_type.as_ref().is_none_or(|t| *t == request.request_type)
            && self.user.as_ref().is_none_or(|user| *user == request.user)
    }
}

impl Manager {
    fn places(&self) -> u32 {
        self.shifts.iter().copied().max().unwrap_or(1)
    }

    fn admits(&self, request: &Request) -> bool {
        matches!(request.item, Item::Program(_))
            && (self.include.is_empty() || self.include.iter().any(|rule| rule.matches(request)))
            && !self.exclude.iter().any(|rule| rule.matches(request))
    }
}

impl Plan {
    // One manager with all places, and requests of its program.
    fn new() -> Self {
        let rule = Rule { program: Some(0), ..Rule::default() };
        let manager = Manager { include: vec![rule], exclude: Vec::new(), shifts: vec![PLACES] };
        let requests = (1..=REQUESTS).map(|number| Request {
            number,
            command: number,
            item: Item::Program(0),
            user: "ann".to_string(),
            request_type: String::new(),
            priority: 50,
            start: 63_876_589_200,
            domain: String::new(),
            argument: String::new(),
            parent: None,
            stage: 0,
        });
        Plan { managers: vec![manager], requests: requests.collect() }
    }

    fn request(&self, number: u32) -> Option<&Request> {
        self.requests.get((number as usize).checked_sub(1)?)
    }

    fn admits_all(&self) -> bool {
        match &self.managers[..] {
            [manager] => self.requests.iter().all(|request| manager.admits(request)),
            _ => false,
        }
    }

    fn owners(&self) -> Vec<usize> {
        let places = |(owner, manager): (usize, &Manager)| (0..manager.places()).map(move |_| owner);
        self.managers.iter().enumerate().flat_map(places).collect()
    }
}

// ---- the board

const IDLE: u64 = 0;
const RELEASED: u64 = 1;
const DONE: u64 = 2;
const STATE: u64 = 256;

#[allow(dead_code)]
enum Posted {
    Text(bool, Vec<u8>),
    Stopped,
    NoMemory,
}

#[derive(Default)]
struct Bell {
    epoch: AtomicU64,
    waiters: AtomicU64,
}

impl Bell {
    // Nobody sleeps here, so a waiter is never woken.
    fn ring(&self) {
        if self.waiters.load(SeqCst) != 0 {
            self.epoch.fetch_add(1, SeqCst);
        }
    }
}

struct Board {
    words: Vec<AtomicU64>,
    slots: Vec<UnsafeCell<Option<Posted>>>,
    requests: usize,
    // For each place its manager.
    owners: Vec<usize>,
    hands: Bell,
    lead: Bell,
}

// A slot is the hand's that runs the request until its word says that something was left, and then the
// lead's.
unsafe impl Sync for Board {}

struct Claim {
    request: u32,
    place: u32,
}

struct Permit {
    request: u32,
    place: u32,
}

enum Polled {
    Go(Permit),
    NotYet(Claim),
    Withdrawn,
}

impl Board {
    fn new(plan: &Plan) -> Self {
        let owners = plan.owners();
        let requests = plan.requests.len();
        let words = requests + owners.len() + 1;
        Board {
            words: (0..words).map(|_| AtomicU64::new(IDLE)).collect(),
            slots: (0..requests).map(|_| UnsafeCell::new(None)).collect(),
            requests,
            owners,
            hands: Bell::default(),
            lead: Bell::default(),
        }
    }

    fn word(&self, request: u32) -> &AtomicU64 {
        &self.words[request as usize - 1]
    }

    fn open_place(&self, place: u32) {
        self.words[self.requests + place as usize].swap(1, SeqCst);
        self.hands.ring();
    }

    fn let_out(&self, request: u32) {
        self.word(request).swap(RELEASED, SeqCst);
        self.hands.ring();
    }

    fn claim_one(&self, request: u32, place: u32) -> Option<Claim> {
        let claimed = STATE + u64::from(place);
        self.word(request).compare_exchange(RELEASED, claimed, SeqCst, SeqCst).ok()?;
        self.lead.ring();
        Some(Claim { request, place })
    }

    fn claim(&self, plan: &Plan, place: u32, hint: u32) -> Option<Claim> {
        if self.words[self.requests + place as usize].load(SeqCst) != 1 {
            return None;
        }
        let manager = plan.managers.get(*self.owners.get(place as usize)?)?;
        let admits = |number| plan.request(number).is_some_and(|r| manager.admits(r));
        if admits(hint) {
            if let Some(claim) = self.claim_one(hint, place) {
                return Some(claim);
            }
        }
        (1..=self.requests as u32)
            .filter(|number| admits(*number))
            .find_map(|number| self.claim_one(number, place))
    }

    fn go_where_claimed(&self, request: u32) -> bool {
        let word = self.word(request).load(SeqCst);
        if word / STATE != 1 {
            return false;
        }
        self.word(request).swap(2 * STATE + word % STATE, SeqCst);
        self.hands.ring();
        true
    }

    fn poll(&self, claim: Claim) -> Polled {
        let word = self.word(claim.request).load(SeqCst);
        let place = u64::from(claim.place);
        if word == 2 * STATE + place || word == 3 * STATE + place {
            Polled::Go(Permit { request: claim.request, place: claim.place })
        } else if word == STATE + place {
            Polled::NotYet(claim)
        } else {
            Polled::Withdrawn
        }
    }

    fn post(&self, permit: Permit, posted: Posted) {
        let word = self.word(permit.request);
        unsafe { *self.slots[permit.request as usize - 1].get() = Some(posted) };
        word.swap(4 * STATE + u64::from(permit.place), SeqCst);
        self.lead.ring();
    }

    fn collect(&self, request: u32) -> Option<Posted> {
        let word = self.word(request);
        if word.load(SeqCst) / STATE != 4 {
            return None;
        }
        let posted = unsafe { (*self.slots[request as usize - 1].get()).take() };
        word.swap(DONE, SeqCst);
        posted
    }
}

// ---- workers

enum Task {
    Free,
    Waits(Claim),
    Serves(Permit),
}

struct Worker {
    place: u32,
    task: Task,
    next: u32,
}

impl Worker {
    fn claim_next(&mut self, board: &Board, plan: &Plan) -> bool {
        if !matches!(self.task, Task::Free) {
            return false;
        }
        match board.claim(plan, self.place, self.next) {
            Some(claim) => {
                let is_next = claim.request == self.next;
                self.task = Task::Waits(claim);
                is_next
            }
            None => false,
        }
    }

    fn poll_claim(&mut self, board: &Board) -> bool {
        match std::mem::replace(&mut self.task, Task::Free) {
            Task::Waits(claim) => match board.poll(claim) {
                Polled::Go(permit) => {
                    self.task = Task::Serves(permit);
                    true
                }
                Polled::NotYet(claim) => {
                    self.task = Task::Waits(claim);
                    false
                }
                Polled::Withdrawn => false,
            },
            other => {
                self.task = other;
                false
            }
        }
    }

    fn post_nothing(&mut self, board: &Board) -> bool {
        match std::mem::replace(&mut self.task, Task::Free) {
            Task::Serves(permit) => {
                board.post(permit, Posted::NoMemory);
                self.next += PLACES;
                true
            }
            other => {
                self.task = other;
                false
            }
        }
    }
}

// ---- threads that meet

// After so many looks a thread that waits yields.
const LOOKS: u64 = 4096;

struct Meeting {
    threads: u64,
    came: AtomicU64,
    broken: AtomicBool,
}

impl Meeting {
    fn wait_for(&self, due: u64) -> bool {
        self.came.fetch_add(1, SeqCst);
        for look in 0..u64::MAX {
            if self.came.load(SeqCst) >= due {
                return true;
            }
            if self.broken.load(SeqCst) {
                return false;
            }
            if look % LOOKS == LOOKS - 1 {
                thread::yield_now();
            }
        }
        false
    }
}

struct Member<'a> {
    meeting: &'a Meeting,
    due: u64,
}

impl Member<'_> {
    fn meet(&mut self) -> bool {
        self.due += self.meeting.threads;
        self.meeting.wait_for(self.due)
    }
}

#[derive(Clone, Copy, Default)]
struct Times {
    claims: Duration,
    polls: Duration,
    posts: Duration,
    collects: Duration,
}

impl Times {
    fn with(self, more: Times) -> Self {
        Times {
            claims: self.claims + more.claims,
            polls: self.polls + more.polls,
            posts: self.posts + more.posts,
            collects: self.collects + more.collects,
        }
    }
}

impl Display for Times {
    fn fmt(&self, f: &mut Formatter<'_>) -> fmt::Result {
        let each = |total: Duration| total.as_nanos() as f64 / f64::from(REQUESTS);
        let [claim, poll] = [each(self.claims), each(self.polls)];
        let [post, collect] = [each(self.posts), each(self.collects)];
        write!(f, "{claim:.1} {poll:.1} {post:.1} {collect:.1}")
    }
}

// The time of a batch is added. False where one of its calls answers something else.
fn batch(total: &mut Duration, workers: &mut [Worker], call: impl Fn(&mut Worker) -> bool) -> bool {
    let start = Instant::now();
    let mut fine = true;
    for worker in workers {
        fine &= call(worker);
    }
    *total += start.elapsed();
    fine
}

struct Bench {
    plan: Plan,
    board: Board,
    meeting: Meeting,
}

impl Bench {
    fn claim(&self, member: &mut Member, workers: &mut [Worker], times: &mut Times) -> bool {
        member.meet()
            && batch(&mut times.claims, workers, |w| w.claim_next(&self.board, &self.plan))
            && member.meet()
    }

    fn serve(&self, member: &mut Member, workers: &mut [Worker], times: &mut Times) -> bool {
        member.meet()
            && batch(&mut times.polls, workers, |w| w.poll_claim(&self.board))
            && member.meet()
            && batch(&mut times.posts, workers, |w| w.post_nothing(&self.board))
            && member.meet()
    }

    fn collect_all(&self, first: u32, times: &mut Times) -> bool {
        let start = Instant::now();
        let mut fine = true;
        for index in 0..PLACES {
            let posted = self.board.collect(first + index + 1);
            fine &= matches!(posted, Some(Posted::NoMemory));
        }
        times.collects += start.elapsed();
        fine
    }

    fn lead_round(
        &self,
        member: &mut Member,
        workers: &mut [Worker],
        first: u32,
        times: &mut Times,
    ) -> bool {
        for index in 0..PLACES {
            self.board.let_out(first + index + 1);
        }
        self.claim(member, workers, times)
            && (0..PLACES).all(|index| self.board.go_where_claimed(first + index + 1))
            && self.serve(member, workers, times)
            && self.collect_all(first, times)
    }

    // All rounds of a thread, the one with the lead or another one. First it asks whether the manager admits
    // each request, so that the plan is in its cache.
    fn run(&self, leads: bool, workers: &mut [Worker]) -> Option<Times> {
        if !self.plan.admits_all() {
            self.meeting.broken.store(true, SeqCst);
            return None;
        }
        let mut member = Member { meeting: &self.meeting, due: 0 };
        let mut times = Times::default();
        for round in 0..ROUNDS {
            let fine = if leads {
                self.lead_round(&mut member, workers, round * PLACES, &mut times)
            } else {
                self.claim(&mut member, workers, &mut times)
                    && self.serve(&mut member, workers, &mut times)
            };
            if !fine {
                self.meeting.broken.store(true, SeqCst);
                return None;
            }
        }
        Some(times)
    }
}

fn measure(threads: u32) -> Option<Times> {
    let plan = Plan::new();
    let bench = Bench {
        board: Board::new(&plan),
        plan,
        meeting: Meeting {
            threads: u64::from(threads),
            came: AtomicU64::new(0),
            broken: AtomicBool::new(false),
        },
    };
    let mut workers: Vec<Worker> = (0..PLACES)
        .map(|place| Worker { place, task: Task::Free, next: place + 1 })
        .collect();
    (0..PLACES).for_each(|place| bench.board.open_place(place));
    let size = (PLACES / threads) as usize;
    let mut crews = workers.chunks_mut(size);
    let first = crews.next()?;
    let bench = &bench;
    thread::scope(|scope| {
        let others: Vec<_> = crews.map(|crew| scope.spawn(move || bench.run(false, crew))).collect();
        let led = scope.spawn(move || bench.run(true, first)).join().ok()?;
        others.into_iter().try_fold(led?, |all, other| Some(all.with(other.join().ok()??)))
    })
}

fn main() -> ExitCode {
    let threads = std::env::args().nth(1).and_then(|word| word.parse().ok());
    match threads.filter(|threads| matches!(threads, 1 | 2 | 4)).and_then(measure) {
        Some(times) => {
            println!("{times}");
            ExitCode::SUCCESS
        }
        None => ExitCode::FAILURE,
    }
}
