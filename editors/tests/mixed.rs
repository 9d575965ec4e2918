fn main() {
    let c = true;
    let mut y;
    if c {
        y = 1i64;
        println!("{}", y);
    }
    y = 2;
    println!("{}", y);
}
