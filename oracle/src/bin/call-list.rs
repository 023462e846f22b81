use oracle::replay;

fn main() {
    replay::main(oracle::call_list::CallList::new(replay::LONGEST_WALK));
}
