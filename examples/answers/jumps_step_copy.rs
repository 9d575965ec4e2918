fn climb(top: i64) -> i64 {
    let mut height = 0i64;
    loop {
        match step(&mut height, top) {
            Exit_step::Next => {}
            Exit_step::Break_0 => break,
            Exit_step::Continue_0 => continue,
            Exit_step::Return(out_0) => return out_0,
        };
        println!("{}", height);
    }
    -1
}

enum Exit_step {
    Next,
    Break_0,
    Continue_0,
    Return(i64),
}

fn step<'r0>(height: &'r0 mut i64, top: i64) -> Exit_step {
    if *height > top {
        return Exit_step::Break_0;
    }
    *height = *height + 1;
    if *height == 7 {
        return Exit_step::Return(*height);
    }
    if *height == 3 {
        return Exit_step::Continue_0;
    }
    Exit_step::Next
}

fn main() {
    println!("{}", climb(5));
    println!("{}", climb(9));
}
