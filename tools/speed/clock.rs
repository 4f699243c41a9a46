//! Rounds that run all in turn, from the first and from the last; processor time of the thread.
extern "C" {
    fn clock_gettime(clock: i32, time: *mut [i64; 2]) -> i32;
}

fn now() -> f64 {
    let mut t = [0; 2];
    assert_eq!(unsafe { clock_gettime(3, &mut t) }, 0); // CLOCK_THREAD_CPUTIME_ID
    t[0] as f64 + t[1] as f64 / 1e9
}

/// The median of each, in seconds.
pub fn medians(count: usize, all: &mut [&mut dyn FnMut()]) -> Vec<f64> {
    let mut times = vec![vec![]; all.len()];
    for round in 0..count {
        for k in 0..all.len() {
            let k = if round % 2 == 0 { k } else { all.len() - 1 - k };
            let start = now();
            all[k]();
            times[k].push(now() - start);
        }
    }
    times
        .into_iter()
        .map(|mut t| {
            t.sort_by(f64::total_cmp);
            t[t.len() / 2]
        })
        .collect()
}
