fn main() {
    oracle::replay::main(oracle::scopes::Scopes::new());
}
