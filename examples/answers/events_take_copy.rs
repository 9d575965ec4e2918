// An event loop: a frame is a row of numbers that 0 ends; -1 skips the rest of a frame, -2 ends it all.
mod rt;

fn main() {
    let mut frames = 0i64;
    let mut total = 0i64;
    'frames: loop {
        let mut sum = 0i64;
        loop {
            let event = rt::next();
            match take(event, &mut sum) {
                Exit_take::Next => {}
                Exit_take::Break_0 => break,
                Exit_take::Break_1 => break 'frames,
                Exit_take::Continue_1 => continue 'frames,
            };
        }
        frames = frames + 1;
        total = total + sum;
    }
    println!("{}", frames);
    println!("{}", total);
}

enum Exit_take {
    Next,
    Break_0,
    Break_1,
    Continue_1,
}

fn take<'r0>(event: i64, sum: &'r0 mut i64) -> Exit_take {
    if event == -2 {
        return Exit_take::Break_1;
    }
    if event == -1 {
        return Exit_take::Continue_1;
    }
    if event == 0 {
        return Exit_take::Break_0;
    }
    *sum = *sum + event;
    Exit_take::Next
}
