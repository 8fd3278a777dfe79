// A plain Dijkstra in Rust, to compare with: reads a card from standard input and prints for each T line what buildtables
// prints. It tests nothing; the card has to be one that buildtables reads.
use std::cmp::Reverse;
use std::collections::BinaryHeap;
use std::io::Read;

const MARK: u64 = u64::MAX;

#[derive(Default)]
struct Operator {
    cost: u64,
    asked: Vec<(usize, usize)>,
    effects: Vec<(usize, usize)>,
}

#[derive(Default)]
struct Card {
    sizes: Vec<usize>,
    goal: Vec<(usize, usize)>,
    operators: Vec<Operator>,
    patterns: Vec<Vec<usize>>,
}

fn read(text: &str) -> Card {
    let mut card = Card::default();
    for line in text.lines() {
        let fields: Vec<&str> = line.split('\t').collect();
        let number = |i: usize| fields[i].parse::<usize>().unwrap();
        match fields[0] {
            "V" => {
                if fields[4] != "-" {
                    card.goal.push((card.sizes.len(), number(4)));
                }
                card.sizes.push(number(2));
            }
            "O" => card.operators.push(Operator { cost: number(2) as u64, ..Operator::default() }),
            "R" => card.operators.last_mut().unwrap().asked.push((number(1), number(2))),
            "E" => card.operators.last_mut().unwrap().effects.push((number(1), number(2))),
            "T" => card.patterns.push((1..fields.len()).map(number).collect()),
            _ => {}
        }
    }
    card
}

// The card seen through a pattern: sizes and facts of its variables, numbered anew in their order.
fn projected(card: &Card, pattern: &[usize]) -> Card {
    let kept: Vec<usize> = (0..card.sizes.len()).filter(|v| pattern.contains(v)).collect();
    let place = |v: usize| kept.iter().position(|k| *k == v);
    let facts = |all: &[(usize, usize)]| all.iter().filter_map(|(v, x)| place(*v).map(|p| (p, *x))).collect();
    Card {
        sizes: kept.iter().map(|v| card.sizes[*v]).collect(),
        goal: facts(&card.goal),
        operators: card
            .operators
            .iter()
            .map(|o| Operator { cost: o.cost, asked: facts(&o.asked), effects: facts(&o.effects) })
            .filter(|o| !o.effects.is_empty())
            .collect(),
        patterns: Vec::new(),
    }
}

fn unpack(sizes: &[usize], mut rank: usize, values: &mut [usize]) {
    for (value, size) in values.iter_mut().zip(sizes) {
        *value = rank % size;
        rank /= size;
    }
}

fn rank(sizes: &[usize], values: &[usize]) -> usize {
    sizes.iter().zip(values).rev().fold(0, |sum, (size, value)| sum * size + value)
}

// The ranks from which the operator leads to the state of these values.
fn origins(task: &Card, operator: &Operator, values: &[usize], found: &mut Vec<usize>) {
    found.clear();
    if operator.effects.iter().any(|(v, x)| values[*v] != *x) {
        return;
    }
    let set = |v: usize| operator.effects.iter().any(|(w, _)| *w == v);
    if operator.asked.iter().any(|(v, x)| !set(*v) && values[*v] != *x) {
        return;
    }
    let mut from = values.to_vec();
    for (v, x) in &operator.asked {
        from[*v] = *x;
    }
    let free: Vec<usize> = operator.effects.iter().map(|(v, _)| *v).filter(|v| operator.asked.iter().all(|(w, _)| w != v)).collect();
    let ways: usize = free.iter().map(|v| task.sizes[*v]).product();
    for n in 0..ways {
        let mut rest = n;
        for v in &free {
            from[*v] = rest % task.sizes[*v];
            rest /= task.sizes[*v];
        }
        found.push(rank(&task.sizes, &from));
    }
}

fn table(task: &Card) -> Vec<u64> {
    let states = task.sizes.iter().product();
    let mut entries = vec![MARK; states];
    let mut values = vec![0; task.sizes.len()];
    let mut waiting = BinaryHeap::new();
    for state in 0..states {
        unpack(&task.sizes, state, &mut values);
        if task.goal.iter().all(|(v, x)| values[*v] == *x) {
            entries[state] = 0;
            waiting.push(Reverse((0, state)));
        }
    }
    let mut found = Vec::new();
    while let Some(Reverse((distance, state))) = waiting.pop() {
        if entries[state] < distance {
            continue;
        }
        unpack(&task.sizes, state, &mut values);
        for operator in &task.operators {
            origins(task, operator, &values, &mut found);
            for from in &found {
                if distance + operator.cost < entries[*from] {
                    entries[*from] = distance + operator.cost;
                    waiting.push(Reverse((entries[*from], *from)));
                }
            }
        }
    }
    entries
}

fn main() {
    let mut text = String::new();
    std::io::stdin().read_to_string(&mut text).unwrap();
    let card = read(&text);
    for pattern in &card.patterns {
        let entries = table(&projected(&card, pattern));
        let reached = entries.iter().filter(|e| **e != MARK).count();
        let sum: u64 = entries.iter().filter(|e| **e != MARK).sum();
        println!("{}\t{}\t{}", entries.len(), reached, sum);
    }
}
