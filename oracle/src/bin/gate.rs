fn main() {
    oracle::replay::main(oracle::gate::Gate::new());
}
