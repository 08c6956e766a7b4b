"""Runner and guard over a graph (document 02, request 14), written without the product: a queue that goes backwards over predecessors, with a count of the
moves that the guard has left at each of his places. The product sweeps over sets of regions until nothing changes."""
from collections import deque

MAX_REGIONS = 32
ROOM = 3 * 2 * MAX_REGIONS * MAX_REGIONS


def neighbours(regions, pairs):
    """The regions that one step from each leads to, the region itself among them."""
    near = {region: {region} for region in range(1, regions + 1)}
    for a, b in zip(pairs[::2], pairs[1::2]):
        if a in near and b in near:
            near[a].add(b)
            near[b].add(a)
    return near


def fewest_moves(near, goal):
    """The fewest moves of both sides in which the runner can force a win, at the places (runner, guard, runner's turn) where he can."""
    found = {}
    left = {(runner, guard): len(near[guard]) for runner in near for guard in near}
    queue = deque()
    for guard in near:
        if guard != goal:
            for turn in (True, False):
                found[goal, guard, turn] = 0
                queue.append((goal, guard, turn))
    while queue:
        runner, guard, turn = place = queue.popleft()
        if turn:
            # the guard moved here
            for before in near[guard]:
                if before == runner or runner == goal:
                    continue
                left[runner, before] -= 1
                earlier = (runner, before, False)
                if left[runner, before] == 0 and earlier not in found:
                    found[earlier] = found[place] + 1
                    queue.append(earlier)
        else:
            for before in near[runner]:
                earlier = (before, guard, True)
                if before != guard and before != goal and earlier not in found:
                    found[earlier] = found[place] + 1
                    queue.append(earlier)
    return found


def verdict(near, goal, found, runner, guard, turn):
    """The winner, 1 for the runner and 2 for the guard; the moves; the least region that serves a winner to move."""
    moves = found.get((runner, guard, turn))
    winner = 2 if moves is None else 1
    over = runner == guard or runner == goal
    if over or turn != (winner == 1):
        return [winner, moves or 0, 0]
    if turn:
        serving = [d for d in near[runner] if found.get((d, guard, False)) == moves - 1]
        assert serving and all(found.get((d, guard, False), moves) >= moves - 1 for d in near[runner])
    else:
        serving = [d for d in near[guard] if (runner, d, True) not in found]
    return [winner, moves or 0, min(serving)]


def verdicts(regions, pairs, goal):
    near = neighbours(regions, pairs)
    found = fewest_moves(near, goal)
    numbers = []
    for runner in range(1, regions + 1):
        for guard in range(1, regions + 1):
            for turn in (True, False):
                numbers += verdict(near, goal, found, runner, guard, turn)
    return numbers


def solve_game(regions, pairs, goal, room):
    """The answer (number, value) and the verdicts; None where the lent list stays as it was."""
    if len(pairs) % 2:
        return (3, 0), None
    if room < ROOM:
        return (10, 0), None
    if regions > MAX_REGIONS:
        return (23, 0), None
    if not 1 <= goal <= regions:
        return (24, 0), None
    return (0, 2 * regions * regions), verdicts(regions, pairs, goal)
