
// Stand-in, added to the text of minimax.rs: its three constants are weights that the thread has set.
std::thread_local! {
    static WEIGHTS: std::cell::Cell<[i64; 3]> = std::cell::Cell::new([1, 3, 20]);
}

pub fn set_weights(weights: [i64; 3]) {
    WEIGHTS.with(|w| w.set(weights))
}

#[derive(Clone, Copy)]
struct Weight(usize);

impl std::ops::Mul<i64> for Weight {
    type Output = i64;
    fn mul(self, n: i64) -> i64 {
        WEIGHTS.with(|w| w.get()[self.0]) * n
    }
}

impl std::ops::Mul<Weight> for i64 {
    type Output = i64;
    fn mul(self, w: Weight) -> i64 {
        w * self
    }
}
