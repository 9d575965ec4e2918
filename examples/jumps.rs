fn climb(top: i64) -> i64 {
    let mut height = 0i64;
    loop {
        if height > top {
            break;
        }
        height = height + 1;
        if height == 7 {
            return height;
        }
        if height == 3 {
            continue;
        }
        println!("{}", height);
    }
    -1
}

fn main() {
    println!("{}", climb(5));
    println!("{}", climb(9));
}
