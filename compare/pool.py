"""The library's maps of a day against pool_reference.py: every date of the century, and fresh lists.

    python3 pool.py [LISTS] [--seed N]

Half of the lists keep the rules and half break one at one position, in each way in turn; rooms and days vary, and one list in a hundred is long. Then large
lists, more terms than the library sorts at once, in several orders, whole and with an overlap. Prints the differences, and at the end how many lists of each
answer there were.
"""
import argparse
import random
import sys
from collections import Counter

import package  # noqa: F401
import accession_lists
from jenwyllt._library import U64, lent
from jenwyllt.pool import MAPS_OF_DAY
from make_pool import flat, records_of
from pool_lists import MAPS, asked, damaged, date, kept, term
from pool_reference import day_of, maps_of_day


def said(terms, records, day, before):
    output = lent(U64, before)
    answer = MAPS_OF_DAY(lent(U64, terms), lent(U64, records), *day, output)
    return answer.number, answer.value, output[:]


def calendar():
    """each day is the one day of a term that starts there and ends on the next, and no day is where there is no date"""
    wrong = 0
    for year in range(1999, 2102):
        for month in range(14):
            for day in range(33):
                number, value, _ = maps_of_day([], [], (year, month, day), 0)
                wrong += said([], [], (year, month, day), []) != (number, value, [])
    for number in range(36_525):
        one = flat([term(3, number, number + 1)])
        for near in (number - 1, number, number + 1):
            if 0 <= near < 36_525:
                wrong += said(one, [1, 3, number, 0], date(near), [0] * 4) != ((0, 1, [3, 1, number, 0]) if near == number else (0, 0, [0] * 4))
    return wrong


def lists(draw):
    while True:
        long = draw.random() < 0.01
        maps = [draw.randrange(2 ** 64) for _ in range(draw.randrange(100, 300))] if long else draw.sample(MAPS, draw.randrange(1, 5))
        terms = kept(draw, 2_000 if long else draw.randrange(0, 16), maps)
        yield maps, terms
        for i in draw.sample(range(len(terms)), 2) if long else range(len(terms)):
            yield maps, draw.choice(list(damaged(draw, terms, i, maps)))


def large(draw):
    """in the order of their days, the last first or mixed; of many maps, of few that have a term every day, of one; without a fault and with one"""
    for maps, days in ((20_000, 5), (3_000, 40), (2, 36_525), (3, 30_000), (1, 36_525)):
        numbers = [draw.randrange(2 ** 64) for _ in range(maps)]
        terms = [term(number, first, first + 1) for first in range(days) for number in numbers]
        for order in ('days', 'last first', 'mixed'):
            listed = terms[::-1] if order == 'last first' else terms[:]
            if order == 'mixed':
                draw.shuffle(listed)
            yield listed
            for _ in range(2):
                i, j = sorted(draw.sample(range(len(listed)), 2))
                yield listed[:j] + [listed[i]] + listed[j:]
        yield terms + terms


def main():
    parser = argparse.ArgumentParser()
    parser.add_argument('lists', type=int, nargs='?', default=20_000)
    parser.add_argument('--seed', type=int, default=random.SystemRandom().randrange(2 ** 32))
    args = parser.parse_args()
    differences = calendar()
    print(f'every date from 1999 to 2101, 36,525 of them days: {differences} differences')
    draw, answers = random.Random(args.seed), Counter()
    source = lists(draw)
    for _ in range(args.lists):
        maps, terms = next(source)
        day = asked(draw, terms)
        records = records_of(draw, maps[:5], day_of(*day) or 0)
        if records and draw.random() < 0.1:
            records = draw.choice(list(accession_lists.damaged(records, draw.randrange(len(records)))))
        numbers, catalogue = flat(terms), flat(records)
        if numbers and draw.random() < 0.03:
            numbers = numbers[:-draw.randrange(1, 7)]
        need = len(maps_of_day(numbers, catalogue, day, 10 ** 6)[2])
        room = draw.choice((need, need, max(need - 1, 0), 0, need + 5))
        number, value, rows = maps_of_day(numbers, catalogue, day, room)
        before = [draw.randrange(2 ** 64) for _ in range(room)]
        answers[number] += 1
        if said(numbers, catalogue, day, before) != (number, value, rows + before[len(rows):]):
            differences += 1
            print('DIFFERS', numbers, catalogue, day, room, (number, value))
    for terms in large(draw):
        numbers, day = flat(terms), asked(draw, terms)
        number, value, rows = maps_of_day(numbers, [], day, 10 ** 6)
        answers[number] += 1
        if said(numbers, [], day, [0] * len(rows)) != (number, value, rows):
            differences += 1
            print('DIFFERS', len(terms), terms[:3], day, (number, value))
    print(f'{args.lists} lists and 50 large ones, seed {args.seed}:', ', '.join(f'{count} of number {number}' for number, count in sorted(answers.items())), f'; {differences} differences')
    return 1 if differences else 0


if __name__ == '__main__':
    sys.exit(main())
