// Reads an expression as character codes, one a line, and prints its value from left to right: 12+30-2 is 49 50 43 51 48 45 50 0.
mod rt;

enum Token {
    Number(i64),
    Plus,
    Minus,
    End,
}

fn is_digit(code: i64) -> bool {
    code >= 48 && code <= 57
}

// The token that begins with this code; what stands behind it goes to `ahead`.
fn token(ahead: &mut i64) -> Token {
    let code = *ahead;
    if is_digit(code) {
        let mut value = 0i64;
        digits(ahead, &mut value);
        return Token::Number(value);
    }
    *ahead = rt::next();
    match code {
        43 => Token::Plus,
        45 => Token::Minus,
        _ => Token::End,
    }
}

fn digits<'r0, 'r1>(ahead: &'r0 mut i64, value: &'r1 mut i64) {
    while is_digit(*ahead) {
        *value = *value * 10 + (*ahead - 48);
        *ahead = rt::next();
    }
}

fn main() {
    let mut ahead = rt::next();
    let mut sum = 0i64;
    let mut sign = 1i64;
    loop {
        match token(&mut ahead) {
            Token::Number(value) => sum = sum + sign * value,
            Token::Plus => sign = 1,
            Token::Minus => sign = -1,
            Token::End => break,
        }
    }
    println!("{}", sum);
}
