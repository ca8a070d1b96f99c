// Has 1, 2, 4 or 8 threads add one to a number as often each, under the mutex of Rust: `mutex THREADS CALLS`.
use std::sync::Mutex;
use std::thread;

struct Sum {
    total: u64,
}

impl Sum {
    #[inline(never)]
    fn step(&mut self, event: u64) -> u64 {
        self.total = self.total.wrapping_add(event);
        self.total
    }
}

fn main() {
    let counts: Vec<u32> = std::env::args()
        .skip(1)
        .map(|word| word.parse().unwrap())
        .collect();
    let sum = Mutex::new(Sum { total: 0 });
    thread::scope(|scope| {
        for _ in 1..counts[0] {
            scope.spawn(|| add(&sum, counts[1]));
        }
        add(&sum, counts[1]);
    });
    println!("{}", sum.into_inner().unwrap().total);
}

fn add(sum: &Mutex<Sum>, calls: u32) {
    for _ in 0..calls {
        std::hint::black_box(sum.lock().unwrap().step(1));
    }
}
