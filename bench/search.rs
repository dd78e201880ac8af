//! The search of bench/run by hand: halves the range 1 to COUNT, for each of INPUTS inputs that are all 4.

fn search(low: i64, high: i64, n: i64, found: &mut Vec<i64>) -> u64 {
    if low == high {
        if low * low % 1000003 == n {
            found.push(low);
        }
        return 1;
    }
    let middle = (low + high).div_euclid(2);
    1 + search(low, middle, n, found) + search(middle + 1, high, n, found)
}

fn main() {
    let numbers: Vec<i64> = std::env::args().skip(1).map(|word| word.parse().unwrap()).collect();
    for _ in 0..numbers[1] {
        let mut found = Vec::new();
        let splits = search(1, numbers[0], 4, &mut found);
        for z in &found {
            println!("{z}");
        }
        println!("(answers {} splits {})", found.len(), splits);
    }
}
