fn main() {
    let a = 2i64;
    let b = 3i64;
    let c = a * b;
    println!("{}", c);
}
