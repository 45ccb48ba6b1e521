// The loops of bench/loops.py over Rust's std::sync, which has neither semaphores nor latches.
//   loops NAME N THREADS   runs that loop N times in all, and prints: NAME THREADS N NANOSECONDS
use std::hint::black_box;
use std::sync::atomic::{AtomicBool, Ordering};
use std::sync::{Barrier, Condvar, Mutex, Once, RwLock};
use std::thread;
use std::time::{Duration, Instant};

fn timed<F: FnOnce()>(work: F) -> u128 {
    let begin = Instant::now();
    work();
    begin.elapsed().as_nanos()
}

// From the common start of the threads to the last end.
fn together<F: Fn() + Sync>(threads: u64, work: F) -> u128 {
    let gate = Barrier::new(threads as usize + 1);
    let mut begin = Instant::now();
    thread::scope(|s| {
        for _ in 0..threads {
            s.spawn(|| {
                gate.wait();
                work();
            });
        }
        begin = Instant::now();
        gate.wait();
    });
    begin.elapsed().as_nanos()
}

fn alone(n: u64) -> u128 {
    let m = Mutex::new(0u64);
    timed(|| {
        for _ in 0..n {
            *m.lock().unwrap() += 1;
        }
    })
}

fn contended(n: u64, threads: u64) -> u128 {
    let m = Mutex::new(0u64);
    together(threads, || {
        for _ in 0..n / threads {
            *m.lock().unwrap() += 1;
        }
    })
}

fn shared_mutex_read(n: u64, threads: u64) -> u128 {
    let m = RwLock::new(0u64);
    let read = || {
        for _ in 0..n / threads {
            black_box(*m.read().unwrap());
        }
    };
    if threads == 1 { timed(read) } else { together(threads, read) }
}

fn barrier_phase(n: u64, threads: u64) -> u128 {
    let b = Barrier::new(threads as usize);
    together(threads, || {
        for _ in 0..n {
            b.wait();
        }
    })
}

fn call_once_passive(n: u64) -> u128 {
    let o = Once::new();
    o.call_once(|| {});
    timed(|| {
        for i in 0..n {
            o.call_once(|| {});
            black_box(i);
        }
    })
}

// Two threads hand a number over, there and back.
fn condition_pingpong(n: u64) -> u128 {
    let m = Mutex::new(0);
    let (full, empty) = (Condvar::new(), Condvar::new());
    let side = |mine: &Condvar, other: &Condvar, wanted: i32| {
        for _ in 0..n {
            let mut number = m.lock().unwrap();
            while *number != wanted {
                number = mine.wait(number).unwrap();
            }
            *number = 1 - wanted;
            other.notify_one();
        }
    };
    let second = AtomicBool::new(false);
    together(2, || {
        if second.swap(true, Ordering::SeqCst) {
            side(&full, &empty, 1);
        } else {
            side(&empty, &full, 0);
        }
    })
}

fn notify_one_nobody(n: u64) -> u128 {
    let c = Condvar::new();
    timed(|| {
        for i in 0..n {
            c.notify_one();
            black_box(i);
        }
    })
}

fn main() {
    let words: Vec<String> = std::env::args().collect();
    thread::spawn(|| thread::sleep(Duration::from_secs(3600)));
    let (n, threads) = (words[2].parse().unwrap(), words[3].parse().unwrap());
    let taken = match words[1].as_str() {
        "mutex_lock_unlock" => alone(n),
        "mutex_contended" => contended(n, threads),
        "shared_mutex_read" => shared_mutex_read(n, threads),
        "barrier_phase" => barrier_phase(n, threads),
        "call_once_passive" => call_once_passive(n),
        "condition_pingpong" => condition_pingpong(n),
        "notify_one_nobody" => notify_one_nobody(n),
        _ => 0,
    };
    println!("{} {threads} {n} {taken}", words[1]);
}
