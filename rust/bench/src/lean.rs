//! Planning on a small stack beside planning: the same answers, and how much longer it takes.

use crate::plans::{carried, random, ROOM};
use crate::timing::{median, race, ratio, written};
use crate::yard;
use sejjekoru::numbers;
use std::hint::black_box;
use std::time::Duration;
use yards::{grid, line_with_sidings, Order};

pub fn table() {
    println!("## Planning on a small stack\n");
    println!("| Yard | Carriers | Yards | Crossings, median | `sejjekoru_plan` | `sejjekoru_plan_lean` | Ratio |");
    println!("|---|---|---|---|---|---|---|");
    for carriers in [20, 60, 128, 200, 240, 254] {
        row("grid 16 × 16", (0..15).map(|seed| carried(grid(16, 16), carriers, seed)).collect());
    }
    for carriers in [20, 40] {
        row("line, siding at every fourth", (0..15).map(|seed| carried(line_with_sidings(256, 4), carriers, seed)).collect());
    }
    for carriers in [60, 128, 200, 240, 254] {
        row("random, 1,024 rails", (0..15).map(|seed| random(carriers, seed)).collect());
    }
}

fn row(name: &str, orders: Vec<Order>) {
    let (mut crossings, mut times, mut leans) = (Vec::new(), Vec::new(), Vec::new());
    for order in &orders {
        let (mut out, mut other) = (vec![0; ROOM], vec![0; ROOM]);
        let answer = numbers::plan(yard(order), &mut out);
        assert_eq!(answer, numbers::plan_lean(yard(order), &mut other));
        assert!(out == other);
        let (time, lean) = race(
            Duration::from_millis(100),
            || numbers::plan(yard(black_box(order)), &mut out),
            || numbers::plan_lean(yard(black_box(order)), &mut other),
        );
        crossings.push(if matches!(answer.0, 0 | 8) { answer.1 } else { 0 });
        times.push(time);
        leans.push(lean);
    }
    let (carriers, crossing) = (orders[0].start.len(), median(&mut crossings));
    let (time, lean) = (median(&mut times), median(&mut leans));
    println!("| {name} | {carriers} | {} | {crossing} | {} | {} | {} |", orders.len(), written(time), written(lean), ratio(lean, time));
}
