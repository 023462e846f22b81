fn main() {
    oracle::replay::main(oracle::tbf::Tbf::new());
}
