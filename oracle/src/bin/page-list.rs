fn main() {
    oracle::kinds::print_lists("page");
}
