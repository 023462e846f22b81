fn main() {
    oracle::replay::main(oracle::settings::Settings::default());
}
