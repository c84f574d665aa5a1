// The same as the subject `lock` of the program bench_layers, with a mutex of Rust's standard library in place of our lock.
use std::env;
use std::hint::black_box;
use std::process::exit;
use std::sync::Mutex;
use std::thread;

fn main() {
    let words: Vec<String> = env::args().collect();
    let number = |at: usize| words.get(at).and_then(|word| word.parse::<u64>().ok());
    let (Some(threads), Some(turns)) = (number(1), number(2)) else {
        exit(2);
    };
    let counter = Mutex::new(0u64);
    thread::scope(|scope| {
        for _ in 0..threads {
            scope.spawn(|| {
                for _ in 0..turns {
                    let mut count = counter.lock().unwrap();
                    *count = black_box(count.wrapping_add(1));
                }
            });
        }
    });
    println!("{}", counter.into_inner().unwrap());
}
