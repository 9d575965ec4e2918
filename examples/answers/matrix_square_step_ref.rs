// Two by two matrices: the numbers of Fibonacci by repeated squaring.
mod rt;

#[derive(Clone, Copy)]
struct Matrix {
    a: i64,
    b: i64,
    c: i64,
    d: i64,
}

fn times(x: Matrix, y: Matrix) -> Matrix {
    Matrix {
        a: x.a * y.a + x.b * y.c,
        b: x.a * y.b + x.b * y.d,
        c: x.c * y.a + x.d * y.c,
        d: x.c * y.b + x.d * y.d,
    }
}

fn power(base: Matrix, exponent: i64) -> Matrix {
    let mut result = Matrix { a: 1, b: 0, c: 0, d: 1 };
    let mut square = base;
    let mut left = exponent;
    while left > 0 {
        // The result takes each power of two that the exponent has.
        square_step(&mut left, &mut result, &mut square);
    }
    result
}

fn square_step<'r0, 'r1, 'r2>(left: &'r0 mut i64, result: &'r1 mut Matrix, square: &'r2 mut Matrix) {
    if *left % 2 == 1 {
        *result = times(*result, *square);
    }
    *square = times(*square, *square);
    *left = *left / 2;
}

fn main() {
    let step = Matrix { a: 1, b: 1, c: 1, d: 0 };
    let n = rt::next();
    let result = power(step, n);
    println!("{}", result.b);
}
