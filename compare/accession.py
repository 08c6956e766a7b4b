"""The library's lines of accession records against accession_reference.py, on fresh lists.

    python3 accession.py [LISTS] [--seed N]

Every second list keeps the rules; the others are such a list with one record changed, position by position. Rooms and own numbers vary, and one list in a
hundred is long. Prints the differences, and at the end how many lists there were of each answer, and how many broke each rule, at how many positions.
"""
import argparse
import random
import sys
from collections import Counter

import package  # noqa: F401
from accession_lists import MAPS, MOST, damaged, flat, kept
from accession_reference import first_broken, records_of, report_line
from jenwyllt._library import U64, lent
from jenwyllt.accession import REPORT_LINE


def lists(draw):
    def fresh():
        count = draw.randrange(1000, 1200) if draw.random() < 0.01 else draw.randrange(0, 14)
        maps = draw.sample(MAPS, draw.randrange(1, 6)) if draw.random() < 0.7 else [draw.randrange(2 ** 64) for _ in range(draw.randrange(1, 40))]
        return kept(draw, count, maps)

    while True:
        records = fresh()
        yield records
        for i in range(min(len(records), 14)):
            yield draw.choice(list(damaged(records[:40], i))) + records[40:]
            yield fresh()


def main():
    parser = argparse.ArgumentParser()
    parser.add_argument('lists', type=int, nargs='?', default=20_000)
    parser.add_argument('--seed', type=int, default=random.SystemRandom().randrange(2 ** 32))
    args = parser.parse_args()
    draw, answers, broken, differences = random.Random(args.seed), Counter(), {}, 0
    source = lists(draw)
    for _ in range(args.lists):
        records = next(source)
        numbers = flat(records)
        if draw.random() < 0.03:
            numbers = numbers[:-draw.randrange(1, 4)]
        own = draw.choice([record[0] for record in records] + [0, draw.randrange(2 ** 64), MOST]) if records else draw.randrange(3)
        need = len(report_line(numbers, own, len(numbers))[2])
        room = draw.choice((need, need, max(need - 1, 0), 0, len(numbers) + 5))
        number, value, rows = report_line(numbers, own, room)
        before = [draw.randrange(2 ** 64) for _ in range(room)]
        output = lent(U64, before)
        answer = REPORT_LINE(lent(U64, numbers), own, output)
        answers[number] += 1
        if number == 17:
            rule = first_broken(records_of(numbers))[1]
            broken.setdefault(rule, Counter())[value] += 1
        if (answer.number, answer.value, output[:]) != (number, value, rows + before[len(rows):]):
            differences += 1
            print('DIFFERS', numbers, own, room, (answer.number, answer.value), (number, value))
    print(f'{args.lists} lists, seed {args.seed}:', ', '.join(f'{count} of number {number}' for number, count in sorted(answers.items())))
    for rule, places in sorted(broken.items()):
        print(f'  {rule}: {sum(places.values())}, at {len(places)} positions')
    print(f'{differences} differences')
    return 1 if differences else 0


if __name__ == '__main__':
    sys.exit(main())
