// An event loop: a frame is a row of numbers that 0 ends; -1 skips the rest of a frame, -2 ends it all.
mod rt;

fn main() {
    let mut frames = 0i64;
    let mut total = 0i64;
    'frames: loop {
        let mut sum = 0i64;
        loop {
            let event = rt::next();
            if event == -2 {
                break 'frames;
            }
            if event == -1 {
                continue 'frames;
            }
            if event == 0 {
                break;
            }
            sum = sum + event;
        }
        frames = frames + 1;
        total = total + sum;
    }
    println!("{}", frames);
    println!("{}", total);
}
