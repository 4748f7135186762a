"""A depot's day from Python: a plan, shortened, reported over a line that loses and repeats, and its bill."""

import os
import random
import sys

sys.path.insert(0, os.path.join(os.path.dirname(os.path.abspath(__file__)), "..", "python"))

import sejjekoru  # noqa: E402

SIDE = 5
RAILS = [(b, b + 1) for b in range(SIDE * SIDE) if b % SIDE < SIDE - 1] + [(b, b + SIDE) for b in range(SIDE * (SIDE - 1))]


def main() -> None:
    dice = random.Random(5)
    order = sejjekoru.Order(SIDE * SIDE, sorted(RAILS), list(range(12)), list(range(11, -1, -1)))
    found = sejjekoru.plan(order)
    plan = sejjekoru.shorten(order, found)
    print(f"{len(found)} crossings, {len(plan)} once shortened, in {max(sejjekoru.slots(order, plan))} slots")

    books = sejjekoru.Books(order, plan)
    answers = {"accepted": 0, "already": 0, "early": 0, "lost": 0}
    while books.done < len(plan):
        lowest = books.marks.index(0)
        name = min(lowest + dice.randrange(-3, 4), len(plan) - 1)
        if name < 0 or dice.random() < 0.25:
            answers["lost"] += 1
            continue
        try:
            answers[books.report(name)] += 1
        except sejjekoru.Refused as refused:
            assert refused.number == 13, refused
            answers["early"] += 1
    print(f"{answers['accepted']} reports accepted; some were lost, some repeated, some early")
    print("every carrier home:", books.placement == list(order.goal), "- books agree:", books.agrees())
    for line in books.lines:
        print(f"c{line.carrier} billed {line.billed}, last name {line.last}")


if __name__ == "__main__":
    main()
