//! The rounds of frame_gate with a lock in the gate's place, as a plain program with no proof: every call of a seat takes one
//! Mutex. So many processors and a pager make so many rounds beside one another; it prints the entries of all.
use std::sync::Mutex;
use std::thread;

const FRAMES: usize = 8;

#[derive(Clone, Copy, PartialEq)]
enum State {
    Free,
    Held,
    Blocked(u64),
}

#[derive(Clone, Copy)]
struct Frame {
    generation: u64,
    state: State,
}

struct Words {
    epoch: u64,
    inside: [u64; 2],
    frames: [Frame; FRAMES],
}

impl Words {
    fn enter(&mut self) -> u64 {
        self.inside[(self.epoch % 2) as usize] += 1;
        self.epoch
    }

    fn leave(&mut self, epoch: u64) {
        self.inside[(epoch % 2) as usize] -= 1;
    }

    fn fill(&self, frame: usize) -> Option<u64> {
        let found = self.frames[frame];
        (found.state == State::Held).then_some(found.generation)
    }

    fn touch(&self, frame: usize) -> u64 {
        self.frames[frame].generation
    }

    fn is_settled(&self) -> bool {
        self.inside[((self.epoch - 1) % 2) as usize] == 0
    }

    fn place(&mut self, frame: usize) {
        let generation = self.frames[frame].generation + 1;
        self.frames[frame] = Frame { generation, state: State::Held };
    }

    fn block(&mut self, frame: usize) {
        self.frames[frame].state = State::Blocked(self.epoch);
    }

    fn track(&mut self) -> bool {
        let settled = self.is_settled();
        if settled {
            self.epoch += 1;
        }
        settled
    }

    fn evict(&mut self, frame: usize, blocked: u64) -> bool {
        let drained = blocked + 1 < self.epoch || blocked + 1 == self.epoch && self.is_settled();
        if drained {
            self.frames[frame].state = State::Free;
        }
        drained
    }
}

fn processor(gate: &Mutex<Words>, rounds: u64) -> u64 {
    let mut entered = 0;
    for _ in 0..rounds {
        let epoch = gate.lock().unwrap().enter();
        entered += 1;
        let mut pairs = [None; FRAMES];
        for frame in 0..FRAMES {
            pairs[frame] = gate.lock().unwrap().fill(frame);
        }
        for frame in 0..FRAMES {
            if let Some(generation) = pairs[frame] {
                assert_eq!(gate.lock().unwrap().touch(frame), generation);
            }
        }
        gate.lock().unwrap().leave(epoch);
    }
    entered
}

// What the pager wrote it knows, as at the gate without a lock.
fn pager(gate: &Mutex<Words>, rounds: u64) {
    let mut states = [State::Free; FRAMES];
    let mut epoch = 1;
    for _ in 0..rounds {
        for frame in 0..FRAMES {
            if states[frame] == State::Free {
                gate.lock().unwrap().place(frame);
                states[frame] = State::Held;
            }
        }
        if let Some(frame) = (0..FRAMES).find(|frame| states[*frame] == State::Held) {
            gate.lock().unwrap().block(frame);
            states[frame] = State::Blocked(epoch);
        }
        if !gate.lock().unwrap().track() {
            continue;
        }
        epoch += 1;
        for frame in 0..FRAMES {
            if let State::Blocked(blocked) = states[frame] {
                if !gate.lock().unwrap().evict(frame, blocked) {
                    break;
                }
                states[frame] = State::Free;
            }
        }
    }
}

fn main() {
    let mut numbers = std::env::args().skip(1).map(|word| word.parse::<u64>().unwrap());
    let (processors, rounds) = (numbers.next().unwrap(), numbers.next().unwrap());
    let gate = Mutex::new(Words {
        epoch: 1,
        inside: [0; 2],
        frames: [Frame { generation: 0, state: State::Free }; FRAMES],
    });
    let entries: u64 = thread::scope(|scope| {
        scope.spawn(|| pager(&gate, rounds));
        let all: Vec<_> = (0..processors).map(|_| scope.spawn(|| processor(&gate, rounds))).collect();
        all.into_iter().map(|one| one.join().unwrap()).sum()
    });
    println!("{entries}");
}
