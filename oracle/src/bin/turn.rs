use oracle::replay;

fn main() {
    replay::main(oracle::turn::Turn::new(replay::LONGEST_WALK));
}
