use oracle::replay;

fn main() {
    replay::main(oracle::page::Page::new(replay::LONGEST_WALK));
}
