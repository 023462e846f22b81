fn main() {
    oracle::compare::main();
}
