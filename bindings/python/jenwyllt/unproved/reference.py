"""An independent rendering in Python of the partition, the three passes and the table of refusals.

Written from the scope paper and the Rust (areas.rs, topology/context.rs, ramp_boundaries.rs, junctions.rs of
broodmap-analysis), with sets and dicts where the Rust has them. Doubles are Python floats; each operation stands in
the Rust's order, and hypot is the correctly rounded one of hypotenuse.py.

A pass may be given a Counter (`notes`): it then counts each kind of proposal made, refused and taken.
"""
import math
from collections import Counter, deque
from dataclasses import dataclass, field

from .hypotenuse import bits, double, hypot

DIRECTIONS = [(0, -1), (-1, 0), (1, 0), (0, 1), (-1, -1), (1, -1), (-1, 1), (1, 1)]
MOST = 256


@dataclass
class Map:
    """what is lent to be read: cells are bytes, the other lists are flat lists of numbers"""
    pass_number: int
    width: int
    height: int
    cells: list
    spans: list = field(default_factory=list)       # 4 numbers each
    boundaries: list = field(default_factory=list)  # 9 numbers each
    anchors: list = field(default_factory=list)     # 2 numbers each


@dataclass
class Ramp:
    id: int
    end: int                 # 1 Lower, 2 Upper
    lower_elevation: int
    upper_elevation: int


@dataclass
class Boundary:
    endpoints: tuple         # ((x, y), (x, y))
    width_pixels: float
    ramp: object             # Ramp or None


@dataclass
class Assessment:
    removed_edge_count: int
    separated_edge_count: int
    region_pairs: list       # sorted distinct (smaller, larger)


@dataclass
class RegionStats:
    cells: int = 0
    min_x: float = math.inf
    min_y: float = math.inf
    max_x: float = -math.inf
    max_y: float = -math.inf
    ramp_cells: int = 0
    elevations: int = 0
    elevation_counts: list = field(default_factory=lambda: [0, 0, 0, 0])

    @property
    def has_ramp(self):
        """the Rust's flag"""
        return self.ramp_cells > 0

    def corners(self):
        return [(self.min_x, self.min_y), (self.min_x, self.max_y), (self.max_x, self.min_y), (self.max_x, self.max_y)]


def groups(numbers, size):
    return [tuple(numbers[i:i + size]) for i in range(0, len(numbers) - len(numbers) % size, size)]


def boundary_of(nine):
    x1, y1, x2, y2, width, kind, ramp_id, lower, upper = nine
    ramp = Ramp(ramp_id, kind, lower, upper) if kind else None
    return Boundary(((x1, y1), (x2, y2)), double(width), ramp)


# ---------------------------------------------------------------------------------------------- the grid and its cuts

class Grid:
    def __init__(self, width, height, cells):
        self.width, self.height, self.cells = width, height, cells

    def walkable(self, x, y):
        return 0 <= x < self.width and 0 <= y < self.height and self.cells[y * self.width + x] & 1 == 1

    def neighbors(self, x, y):
        for dx, dy in DIRECTIONS:
            if not self.walkable(x + dx, y + dy):
                continue
            if dx != 0 and dy != 0 and not (self.walkable(x + dx, y) and self.walkable(x, y + dy)):
                continue
            yield x + dx, y + dy


def cross(a, b, p):
    return (b[0] - a[0]) * (p[1] - a[1]) - (b[1] - a[1]) * (p[0] - a[0])


def on_segment(a, b, p):
    return min(a[0], b[0]) <= p[0] <= max(a[0], b[0]) and min(a[1], b[1]) <= p[1] <= max(a[1], b[1])


def strictly_opposite(left, right):
    return (left < 0 and right > 0) or (left > 0 and right < 0)


def segments_intersect(a, b, c, d):
    abc, abd, cda, cdb = cross(a, b, c), cross(a, b, d), cross(c, d, a), cross(c, d, b)
    if strictly_opposite(abc, abd) and strictly_opposite(cda, cdb):
        return True
    return ((abc == 0 and on_segment(a, b, c)) or (abd == 0 and on_segment(a, b, d))
            or (cda == 0 and on_segment(c, d, a)) or (cdb == 0 and on_segment(c, d, b)))


def cell_center(x, y):
    return x * 8 + 4, y * 8 + 4


class SpanGeometry:
    def __init__(self, first, second):
        self.a, self.b = (first, second) if first <= second else (second, first)

    def cuts(self, start, end):
        start, end = cell_center(*start), cell_center(*end)
        start_side, end_side = cross(self.a, self.b, start), cross(self.a, self.b, end)
        return (start_side >= 0) != (end_side >= 0) and segments_intersect(self.a, self.b, start, end)

    def candidate_positions(self, width, height):
        (ax, ay), (bx, by) = self.a, self.b
        dx, dy = bx - ax, by - ay
        found = []
        if abs(dx) >= abs(dy):
            for x in axis_range(min(ax, bx), max(ax, bx), width):
                line_x = min(max(x * 8 + 4, ax), bx)
                line_y = (ay * dx + dy * (line_x - ax)) // dx
                found.extend((x, y) for y in minor_range(line_y, height))
        else:
            (lx, ly), (ux, uy) = ((ax, ay), (bx, by)) if ay <= by else ((bx, by), (ax, ay))
            rise, run = uy - ly, ux - lx
            for y in axis_range(min(ay, by), max(ay, by), height):
                line_y = min(max(y * 8 + 4, ly), uy)
                line_x = (lx * rise + run * (line_y - ly)) // rise
                found.extend((x, y) for x in minor_range(line_x, width))
        return found


def axis_range(least, most, limit):
    return range(max(least - 16, 0) // 8, min((most + 16) // 8, limit - 1) + 1)


def minor_range(pixels, limit):
    middle = pixels // 8
    return range(max(middle - 3, 0), min(middle + 3, limit - 1) + 1)


def partition_by_spans(grid, spans):
    """labels, the count of regions, and an Assessment for each span"""
    cut = set()                                   # both directions of every cut step
    span_edges = []
    for x1, y1, x2, y2 in spans:
        geometry = SpanGeometry((x1, y1), (x2, y2))
        edges = []
        for x, y in geometry.candidate_positions(grid.width, grid.height):
            if not grid.walkable(x, y):
                continue
            index = y * grid.width + x
            for nx, ny in grid.neighbors(x, y):
                other = ny * grid.width + nx
                if index >= other or not geometry.cuts((x, y), (nx, ny)):
                    continue
                cut.add((index, other))
                cut.add((other, index))
                edges.append((index, other))
        span_edges.append(edges)

    labels = [0] * (grid.width * grid.height)
    regions = 0
    for start in range(len(labels)):
        if grid.cells[start] & 1 == 0 or labels[start] != 0:
            continue
        regions += 1
        labels[start] = regions
        queue = deque([start])
        while queue:
            index = queue.popleft()
            for nx, ny in grid.neighbors(index % grid.width, index // grid.width):
                other = ny * grid.width + nx
                if (index, other) in cut or labels[other] != 0:
                    continue
                labels[other] = regions
                queue.append(other)

    assessments = []
    for edges in span_edges:
        separated = [(labels[a], labels[b]) for a, b in edges if labels[a] != labels[b]]
        pairs = sorted({(min(p), max(p)) for p in separated})
        assessments.append(Assessment(len(edges), len(separated), pairs))
    return labels, regions, assessments


# -------------------------------------------------------------------------------------------------------- the context

class Context:
    def __init__(self, grid, labels, assessments, anchors, notes=None):
        self.grid, self.labels, self.metadata = grid, labels, assessments
        self.notes = notes if notes is not None else Counter()
        self.incidents = {}
        for index, entry in enumerate(assessments):
            for pair in entry.region_pairs:
                for region in pair:
                    self.incidents.setdefault(region, set()).add(index)
        self.anchored = {labels[y * grid.width + x] for x, y in anchors}
        self.stats = {}
        for index, region in enumerate(labels):
            if region == 0:
                continue
            cell = grid.cells[index]
            x, y = float(index % grid.width) * 8.0, float(index // grid.width) * 8.0
            value = self.stats.setdefault(region, RegionStats())
            value.cells += 1
            value.min_x, value.min_y = min(value.min_x, x), min(value.min_y, y)
            value.max_x, value.max_y = max(value.max_x, x + 8.0), max(value.max_y, y + 8.0)
            value.ramp_cells += cell >> 1 & 1
            elevation = cell >> 2
            value.elevations |= 1 << elevation
            value.elevation_counts[elevation] += 1


def full_cut(entry):
    return (entry.removed_edge_count > 0 and entry.removed_edge_count == entry.separated_edge_count
            and len(entry.region_pairs) > 0 and all(p[0] != p[1] for p in entry.region_pairs))


def full_pair(entry):
    return entry.region_pairs[0] if full_cut(entry) and len(entry.region_pairs) == 1 else None


def canonical(endpoints):
    return tuple(sorted(endpoints))


def point(position):
    return float(position[0]), float(position[1])


def center(boundary):
    a, b = boundary.endpoints
    return (float(a[0]) + float(b[0])) / 2.0, (float(a[1]) + float(b[1])) / 2.0


def distance(a, b):
    return hypot(a[0] - b[0], a[1] - b[1])


def clamp(value, low, high):
    if value < low:
        value = low
    if value > high:
        value = high
    return value


def point_segment_distance(p, a, b):
    dx = b[0] - a[0]
    dy = b[1] - a[1]
    n = dx * dx + dy * dy
    t = 0.0 if n == 0.0 else clamp(((p[0] - a[0]) * dx + (p[1] - a[1]) * dy) / n, 0.0, 1.0)
    return distance(p, (a[0] + t * dx, a[1] + t * dy))


def canonical_output(boundaries, removed):
    """rows: number and canonical endpoints; by endpoints, then number"""
    kept = [(canonical(b.endpoints), i) for i, b in enumerate(boundaries) if i not in removed]
    kept.sort(key=lambda row: row[0])             # stable, as in the Rust: equal endpoints keep the order of numbers
    return [(i, a[0], a[1], b[0], b[1]) for (a, b), i in kept]


def edge(notes, name, value, limit):
    """counts how often a threshold is met exactly, or missed by less than a half of a pixel (or of a part)"""
    if value == limit:
        notes[f'edge {name}: equal'] += 1
    elif abs(value - limit) <= 0.5:
        notes[f'edge {name}: {"above" if value > limit else "below"}'] += 1


# ------------------------------------------------------------------------------------------------ pass 1: ramp mouths

MAX_MOUTH_DISTANCE = 224.0
MAX_APPROACH_RADIUS = 512.0
MAX_REPRESENTATIVE_OFFSET = 32.0
MAX_OVERLAY_NORMAL_OFFSET = 64.0
MIN_OVERLAY_FRACTION = 0.75
MAX_OVERLAY_WIDTH_RATIO = 1.5
MIN_PARALLEL_COSINE = 0.9659258262890683


def is_nearby_parallel_representative(left, right, notes=Counter()):
    left_start, left_end = canonical(left)
    right_start, right_end = canonical(right)
    starts = distance(point(left_start), point(right_start))
    ends = distance(point(left_end), point(right_end))
    edge(notes, 'offset 32', starts, MAX_REPRESENTATIVE_OFFSET)
    edge(notes, 'offset 32', ends, MAX_REPRESENTATIVE_OFFSET)
    if starts > MAX_REPRESENTATIVE_OFFSET or ends > MAX_REPRESENTATIVE_OFFSET:
        return False
    left_x = float(left_end[0]) - float(left_start[0])
    left_y = float(left_end[1]) - float(left_start[1])
    right_x = float(right_end[0]) - float(right_start[0])
    right_y = float(right_end[1]) - float(right_start[1])
    lengths = hypot(left_x, left_y) * hypot(right_x, right_y)
    if not lengths > 0.0:
        notes['nearby: degenerate'] += 1
        return False
    cosine = abs(left_x * right_x + left_y * right_y) / lengths
    notes[f'nearby: {"parallel" if cosine >= MIN_PARALLEL_COSINE else "askew"}'] += 1
    return cosine >= MIN_PARALLEL_COSINE


def overlapping_ramp_representative(candidate, ramp, notes=Counter()):
    """the greatest normal offset, or None"""
    candidate_start, candidate_end = canonical(candidate)
    ramp_start, ramp_end = canonical(ramp)
    dx = float(ramp_end[0]) - float(ramp_start[0])
    dy = float(ramp_end[1]) - float(ramp_start[1])
    ramp_length = hypot(dx, dy)
    candidate_dx = float(candidate_end[0]) - float(candidate_start[0])
    candidate_dy = float(candidate_end[1]) - float(candidate_start[1])
    candidate_length = hypot(candidate_dx, candidate_dy)
    if ramp_length == 0.0 or candidate_length == 0.0:
        notes['overlay: degenerate'] += 1
        return None
    if abs(dx * candidate_dx + dy * candidate_dy) / (ramp_length * candidate_length) < MIN_PARALLEL_COSINE:
        notes['overlay: askew'] += 1
        return None

    def normal_offset(position):
        return abs((float(position[0]) - float(ramp_start[0])) * dy
                   - (float(position[1]) - float(ramp_start[1])) * dx) / ramp_length

    max_offset = max(normal_offset(candidate_start), normal_offset(candidate_end))
    edge(notes, 'normal 64', max_offset, MAX_OVERLAY_NORMAL_OFFSET)
    if max_offset > MAX_OVERLAY_NORMAL_OFFSET:
        notes['overlay: too far aside'] += 1
        return None

    def project(position):
        return ((float(position[0]) - float(ramp_start[0])) * dx
                + (float(position[1]) - float(ramp_start[1])) * dy) / ramp_length

    candidate_min = min(project(candidate_start), project(candidate_end))
    candidate_max = max(project(candidate_start), project(candidate_end))
    overlap = max(min(ramp_length, candidate_max) - max(0.0, candidate_min), 0.0)
    least = MIN_OVERLAY_FRACTION * min(ramp_length, candidate_length)
    edge(notes, 'overlap 3/4', overlap, least)
    notes[f'overlay: {"over" if overlap >= least else "little overlap"}'] += 1
    return max_offset if overlap >= least else None


def signum(n):
    return (n > 0) - (n < 0)


def intersects(left, right):
    (ls, le), (rs, re) = left, right
    lrs, lre, rls, rle = cross(ls, le, rs), cross(ls, le, re), cross(rs, re, ls), cross(rs, re, le)
    return ((lrs == 0 and on_segment(ls, le, rs)) or (lre == 0 and on_segment(ls, le, re))
            or (rls == 0 and on_segment(rs, re, ls)) or (rle == 0 and on_segment(rs, re, le))
            or (signum(lrs) != signum(lre) and signum(rls) != signum(rle)))


def segment_distance(left, right):
    if intersects(left, right):
        return 0.0
    ls, le = map(point, left)
    rs, re = map(point, right)
    return min(min(min(point_segment_distance(ls, rs, re), point_segment_distance(le, rs, re)),
                   point_segment_distance(rs, ls, le)), point_segment_distance(re, ls, le))


def star(entry):
    """('single', pair), ('star', outer, inner) or None"""
    if not full_cut(entry):
        return None
    pairs = entry.region_pairs
    if len(pairs) == 1:
        return 'single', pairs[0]
    common = [region for region in pairs[0] if all(region in pair for pair in pairs)]
    if len(common) != 1:
        return None
    outer = common[0]
    inner = []
    for pair in pairs:
        for region in pair:
            if region != outer and region not in inner:
                inner.append(region)
    return ('star', outer, inner) if inner else None


def triangle_representative(mouth, ramp):
    if not full_cut(mouth) or not full_cut(ramp) or len(mouth.region_pairs) != 2 or len(ramp.region_pairs) != 2:
        return None
    regions = []
    for pair in mouth.region_pairs:
        for region in pair:
            if region not in regions:
                regions.append(region)
    ramp_regions = [region for pair in ramp.region_pairs for region in pair]
    if len(regions) != 3 or any(region not in ramp_regions for region in regions):
        return None
    mouth_edges = {(min(p), max(p)) for p in mouth.region_pairs}
    ramp_edges = {(min(p), max(p)) for p in ramp.region_pairs}
    if (len(mouth_edges) != 2 or len(ramp_edges) != 2 or len(mouth_edges | ramp_edges) != 3
            or len(mouth_edges & ramp_edges) != 1):
        return None
    return sorted(regions)


@dataclass
class MouthProposal:
    mouth_index: int
    ramp_index: int
    outer: object
    inner: list
    union: list
    triangle: bool
    separation: float
    ramp_center: tuple
    mouth_center: tuple
    two_port_broad_approach: bool
    kind: str                # for the notes only


def mouth_proposals(boundaries, ctx):
    metadata, notes = ctx.metadata, ctx.notes
    proposals = []
    for ramp_index, ramp in enumerate(boundaries):
        if ramp.ramp is None or not full_cut(metadata[ramp_index]):
            continue
        ramp_regions = full_pair(metadata[ramp_index])
        for mouth_index, mouth in enumerate(boundaries):
            nearby = is_nearby_parallel_representative(mouth.endpoints, ramp.endpoints, notes)
            wide, narrow = max(mouth.width_pixels, ramp.width_pixels), min(mouth.width_pixels, ramp.width_pixels)
            overlay = (wide <= MAX_OVERLAY_WIDTH_RATIO * narrow
                       and overlapping_ramp_representative(mouth.endpoints, ramp.endpoints, notes) is not None)
            broad = mouth.width_pixels >= 2.0 * ramp.width_pixels
            shape = star(metadata[mouth_index])
            triangle = triangle_representative(metadata[mouth_index], metadata[ramp_index]) if nearby else None
            if mouth.ramp is not None or (shape is None and triangle is None) or (not broad and not nearby and not overlay):
                continue
            edge(notes, 'width 2', mouth.width_pixels, 2.0 * ramp.width_pixels)
            edge(notes, 'ratio 3/2', wide, MAX_OVERLAY_WIDTH_RATIO * narrow)

            if triangle is not None:
                if sum(region in ctx.anchored for region in triangle) > 1:
                    notes['triangle: two anchored'] += 1
                    continue
                inner = [region for region in triangle if region not in ctx.anchored]
                outer = next((region for region in triangle if region in ctx.anchored), None)
                union, two_port = triangle, False
                kind = 'triangle' if outer is None else 'triangle anchored'
            else:
                if ramp_regions is None:
                    notes['mouth: ramp of several pairs'] += 1
                    continue
                single = shape[0] == 'single'
                mouth_inner = list(shape[1]) if single else shape[2]
                mouth_has_anchored_region = any(region in ctx.anchored for region in mouth_inner)
                shared = [region for region in mouth_inner if region in ramp_regions]
                if len(shared) != 1:
                    notes[f'mouth: {len(shared)} shared'] += 1
                    continue
                approach = shared[0]
                if single:
                    outer = next((region for region in shape[1] if region != approach), None)
                    inner = [approach]
                else:
                    outer, inner = shape[1], shape[2]
                if outer is None:
                    continue
                union = [outer] + inner
                if any(region in ctx.anchored for region in inner):
                    notes['mouth: inner anchored'] += 1
                    continue
                incidents = ctx.incidents.get(approach)
                only_these = incidents is not None and incidents == {mouth_index, ramp_index} and len(incidents) == 2
                overlay_only = overlay and not nearby and not broad
                if overlay_only and (not single or mouth_has_anchored_region or not only_these):
                    notes['mouth: overlay refused'] += 1
                    continue
                two_port = (broad or overlay_only) and single and only_these
                if any(other.ramp is not None and other.ramp.id == ramp.ramp.id and other.ramp.end != ramp.ramp.end
                       and any(approach in pair for pair in metadata[index].region_pairs)
                       for index, other in enumerate(boundaries)):
                    notes['mouth: other end of the ramp'] += 1
                    continue
                if len(inner) > 1:
                    if not only_these or any(region != approach and ctx.incidents.get(region) != {mouth_index}
                                             for region in inner):
                        notes['mouth: star refused'] += 1
                        continue
                    two_port = broad
                kind = (('single' if single else 'star') + (' overlay only' if overlay_only else '')
                        + (' two centres' if two_port else '') + (' outer anchored' if outer in ctx.anchored else ''))
                union = list(union)
            separation = segment_distance(mouth.endpoints, ramp.endpoints)
            edge(notes, 'separation 224', separation, MAX_MOUTH_DISTANCE)
            if separation > MAX_MOUTH_DISTANCE:
                notes['mouth: too far'] += 1
                continue
            proposals.append(MouthProposal(mouth_index, ramp_index, outer, inner, union, triangle is not None,
                                           separation, center(ramp), center(mouth), two_port, kind))

    def local(proposal):
        centers = [proposal.ramp_center] + ([proposal.mouth_center] if proposal.two_port_broad_approach else [])
        for region in proposal.inner:
            stat = ctx.stats.get(region)
            if stat is None or not math.isfinite(stat.min_x):
                return False
            for corner in stat.corners():
                distances = [distance(corner, c) for c in centers]
                edge(notes, 'approach 512', min(distances), MAX_APPROACH_RADIUS)
                if not any(d <= MAX_APPROACH_RADIUS for d in distances):
                    notes['mouth: region too large'] += 1
                    return False
        return True

    proposals = [p for p in proposals if local(p)]
    for p in proposals:
        notes[f'pass 1 made {p.kind}'] += 1
    proposals.sort(key=lambda p: (p.separation, canonical(boundaries[p.mouth_index].endpoints),
                                  canonical(boundaries[p.ramp_index].endpoints)))
    return proposals


def replace_ramp_mouths(boundaries, ctx):
    if len(ctx.metadata) != len(boundaries):
        return canonical_output(boundaries, set())
    notes = ctx.notes
    removed, absorbed, outers, ramp_ends, occupied, triangle_reserved = set(), set(), set(), set(), set(), set()
    for p in mouth_proposals(boundaries, ctx):
        ramp = boundaries[p.ramp_index].ramp
        causes = []
        if p.mouth_index in removed:
            causes.append('mouth removed')
        if (ramp.id, ramp.end) in ramp_ends:
            causes.append('ramp end')
        if p.outer is not None and p.outer in absorbed:
            causes.append('outer absorbed')
        if any(region in absorbed for region in p.inner):
            causes.append('inner absorbed')
        if any(region in outers for region in p.inner):
            causes.append('inner is outer')
        if p.triangle and any(region in occupied for region in p.union):
            causes.append('triangle occupied')
        if not p.triangle and any(region in triangle_reserved for region in p.union):
            causes.append('reserved by triangle')
        if causes:
            for cause in causes:
                notes[f'pass 1 refused: {cause}{"" if len(causes) > 1 else " alone"}'] += 1
            notes[f'pass 1 refused {p.kind}'] += 1
            continue
        notes[f'pass 1 taken {p.kind}'] += 1
        removed.add(p.mouth_index)
        absorbed.update(p.inner)
        if p.outer is not None:
            outers.add(p.outer)
        occupied.update(p.union)
        if p.triangle:
            triangle_reserved.update(p.union)
        ramp_ends.add((ramp.id, ramp.end))
    return canonical_output(boundaries, removed)


# -------------------------------------------------------------------------------------------- pass 2: ramp interiors

@dataclass
class InteriorProposal:
    regions: list
    edges: list
    ports: tuple
    ramp_id: int
    leaves: int              # for the notes only


def interior_proposals(boundaries, ctx):
    metadata, notes = ctx.metadata, ctx.notes
    graph = {}
    for index, entry in enumerate(metadata):
        if boundaries[index].ramp is None and full_cut(entry):
            for left, right in entry.region_pairs:
                graph.setdefault(left, []).append((right, index))
                graph.setdefault(right, []).append((left, index))

    visited = set()
    proposals = []
    for start in sorted(graph):
        if start in visited:
            continue
        visited.add(start)
        regions, edges, todo = {start}, set(), [start]
        while todo:
            for neighbor, index in graph[todo.pop()]:
                edges.add(index)
                if neighbor not in visited:
                    visited.add(neighbor)
                    regions.add(neighbor)
                    todo.append(neighbor)
        notes['interior: component'] += 1
        if len(edges) in (8, 9):
            notes[f'interior: {len(edges)} edges'] += 1
        if not edges or len(edges) > 8:
            continue
        if any(region in ctx.anchored for region in regions):
            notes['interior: anchored'] += 1
            continue
        if any(region not in regions for index in edges for pair in metadata[index].region_pairs for region in pair):
            notes['interior: edge leaves'] += 1
            continue
        ports = sorted({index for region in regions for index in ctx.incidents.get(region, ()) if index not in edges})
        if len(ports) != 2:
            notes[f'interior: {min(len(ports), 3)} ports'] += 1
            continue
        first_ramp, second_ramp = boundaries[ports[0]].ramp, boundaries[ports[1]].ramp
        if first_ramp is None or second_ramp is None:
            notes['interior: port without ramp'] += 1
            continue
        if not full_cut(metadata[ports[0]]) or not full_cut(metadata[ports[1]]):
            notes['interior: port not full'] += 1
            continue
        if first_ramp.id != second_ramp.id:
            notes['interior: two ramps'] += 1
            continue
        if {first_ramp.end, second_ramp.end} != {1, 2}:
            notes['interior: one end twice'] += 1
            continue
        expanded = set(regions)
        valid = True
        for index in ports:
            pairs = metadata[index].region_pairs
            exteriors = set()
            for pair in pairs:
                inside = [region for region in pair if region in expanded]
                if len(inside) > 1:
                    valid = False
                if len(inside) == 1:
                    exteriors.add(next(region for region in pair if region != inside[0]))
            for pair in pairs:
                if any(region in expanded for region in pair):
                    continue
                exterior = [region for region in pair if region in exteriors]
                if len(exterior) != 1:
                    notes['interior: stray pair'] += 1
                    valid = False
                    continue
                leaf = next(region for region in pair if region != exterior[0])
                if leaf in ctx.anchored or ctx.incidents.get(leaf) != {index}:
                    notes['interior: unfit leaf'] += 1
                    valid = False
                    continue
                expanded.add(leaf)
            if any(sum(region in expanded for region in pair) != 1 for pair in pairs):
                notes['interior: pair not split'] += 1
                valid = False
        if valid:
            proposals.append(InteriorProposal(sorted(expanded), sorted(edges), tuple(ports), first_ramp.id,
                                              len(expanded) - len(regions)))

    def kept(proposal):
        ports = [boundaries[index] for index in proposal.ports]
        centers = [center(port) for port in ports]
        ramp = ports[0].ramp
        allowed = (1 << ramp.lower_elevation) | (1 << ramp.upper_elevation)
        if not any(region in ctx.stats and ctx.stats[region].has_ramp for region in proposal.regions):
            notes['interior: no ramp cell'] += 1
            return False
        for region in proposal.regions:
            stat = ctx.stats.get(region)
            if stat is None or not math.isfinite(stat.min_x):
                return False
            if stat.elevations & ~allowed & 0xFF != 0:
                notes['interior: elevation'] += 1
                return False
            for corner in stat.corners():
                distances = [distance(corner, c) for c in centers]
                edge(notes, 'interior 512', min(distances), MAX_APPROACH_RADIUS)
                if not any(d <= MAX_APPROACH_RADIUS for d in distances):
                    notes['interior: region too large'] += 1
                    return False
        return True

    proposals = [p for p in proposals if kept(p)]
    for p in proposals:
        notes[f'pass 2 made {"grown" if p.leaves else "plain"}'] += 1
    proposals.sort(key=lambda p: (p.ramp_id, canonical(boundaries[p.ports[0]].endpoints)))
    return proposals


def collapse_ramp_interiors(boundaries, ctx):
    if len(ctx.metadata) != len(boundaries):
        return canonical_output(boundaries, set())
    removed, reserved_regions = set(), set()
    for p in interior_proposals(boundaries, ctx):
        if any(index in removed for index in p.edges) or any(region in reserved_regions for region in p.regions):
            ctx.notes['pass 2 refused'] += 1
            continue
        ctx.notes[f'pass 2 taken {"grown" if p.leaves else "plain"}'] += 1
        removed.update(p.edges)
        reserved_regions.update(p.regions)
    return canonical_output(boundaries, removed)


# -------------------------------------------------------------------------------------------------- pass 3: junctions

MAX_PORT_DISTANCE_PIXELS = 384.0
MAX_UNION_RADIUS_PIXELS = 512.0


def within_radius(stats, middle, notes):
    distances = [distance(corner, middle) for corner in stats.corners()]
    for d in distances:
        edge(notes, 'union 512', d, MAX_UNION_RADIUS_PIXELS)
    return stats.cells > 0 and all(d <= MAX_UNION_RADIUS_PIXELS for d in distances)


def within_span_radius(stats, boundary, notes):
    start, end = boundary.endpoints
    distances = [point_segment_distance(corner, point(start), point(end)) for corner in stats.corners()]
    for d in distances:
        edge(notes, 'span 512', d, MAX_UNION_RADIUS_PIXELS)
    return stats.cells > 0 and all(d <= MAX_UNION_RADIUS_PIXELS for d in distances)


def dominance(stats):
    """the elevation of most cells, of equal counts the lower, and its whole percent and remainder (document 02, request 2); of no cells None for these"""
    elevation = max(range(4), key=lambda e: (stats.elevation_counts[e], -e))
    return elevation, divmod(stats.elevation_counts[elevation] * 100, stats.cells) if stats.cells else None


def same_dominance(first, second):
    """unions accept at 99 percent"""
    (a, x), (b, y) = dominance(first), dominance(second)
    return x is not None and y is not None and x[0] >= 99 and y[0] >= 99 and a == b


def flat(stats):
    return stats.elevations != 0 and stats.elevations.bit_count() == 1


@dataclass
class JunctionProposal:
    bridge: bool
    index: int
    pair: tuple              # the union's pair; of a bridge pocket and exterior
    ports: set
    anchored_regions: int = 0
    near: bool = False       # for the notes only

    def tie_key(self):
        if self.bridge:
            return (1, self.pair[0], self.pair[1])
        return (0, min(self.pair), max(self.pair))

    def kind(self):
        if self.bridge:
            return 'bridge'
        return 'union' + (' anchored' if self.anchored_regions else '') + (' near flat' if self.near else '')


def junction_proposals(boundaries, ctx):
    """in the order of discovery: unions, then bridges"""
    metadata, notes = ctx.metadata, ctx.notes
    unions = []
    for index, entry in enumerate(metadata):
        pair = full_pair(entry)
        if pair is None or boundaries[index].ramp is not None:
            continue
        anchored_regions = sum(region in ctx.anchored for region in pair)
        if anchored_regions > 1:
            notes['union: two anchored'] += 1
            continue
        ports = set()
        valid = True
        for region in pair:
            for other in sorted(ctx.incidents.get(region, ())):
                if other == index:
                    continue
                other_pair = full_pair(metadata[other])
                if other_pair is None:
                    notes['union: port not full'] += 1
                    valid = False
                    break
                if (other_pair[0] in pair) == (other_pair[1] in pair):
                    notes['union: port inside'] += 1
                    valid = False
                    break
                ports.add(other)
            if not valid:
                break
        if not valid or len(ports) < 3:
            continue
        exteriors = set()
        widest = 0.0
        candidate_center = center(boundaries[index])
        for port in sorted(ports):
            other_pair = full_pair(metadata[port])
            exteriors.add(other_pair[1] if other_pair[0] in pair else other_pair[0])
            widest = max(widest, boundaries[port].width_pixels)
            apart = distance(candidate_center, center(boundaries[port]))
            edge(notes, 'port 384', apart, MAX_PORT_DISTANCE_PIXELS)
            if not apart <= MAX_PORT_DISTANCE_PIXELS:
                notes['union: port too far'] += 1
                valid = False
                break
        if not valid:
            continue
        if len(exteriors) < 3:
            notes['union: two exteriors'] += 1
            continue
        if anchored_regions == 1:
            edge(notes, 'widest', boundaries[index].width_pixels, widest)
            if not boundaries[index].width_pixels >= widest:
                notes['union: anchored and not widest'] += 1
                continue
        unions.append(JunctionProposal(False, index, pair, ports, anchored_regions))

    bridges = []
    for pocket in sorted(ctx.incidents):
        ports = ctx.incidents[pocket]
        if pocket in ctx.anchored or len(ports) != 3:
            continue
        if any(boundaries[index].ramp is not None or full_pair(metadata[index]) is None for index in ports):
            notes['bridge: unfit port'] += 1
            continue
        exteriors = {}
        for index in sorted(ports):
            pair = full_pair(metadata[index])
            if pair[0] == pocket:
                exteriors.setdefault(pair[1], []).append(index)
            elif pair[1] == pocket:
                exteriors.setdefault(pair[0], []).append(index)
        if len(exteriors) != 2:
            continue
        exterior = next((e for e in sorted(exteriors) if len(exteriors[e]) == 2), None)
        third = next((e for e in sorted(exteriors) if len(exteriors[e]) == 1), None)
        if exterior is None or third is None:
            continue
        if third not in ctx.anchored:
            notes['bridge: third not anchored'] += 1
            continue
        first, second = exteriors[exterior]
        first_width, second_width = boundaries[first].width_pixels, boundaries[second].width_pixels
        edge(notes, 'bridge 2', first_width, 2.0 * second_width)
        edge(notes, 'bridge 2', second_width, 2.0 * first_width)
        if first_width >= 2.0 * second_width:
            index = first
        elif second_width >= 2.0 * first_width:
            index = second
        else:
            notes['bridge: widths alike'] += 1
            continue
        middle = center(boundaries[index])
        distances = [distance(middle, center(boundaries[port])) for port in sorted(ports)]
        for d in distances:
            edge(notes, 'bridge 384', d, MAX_PORT_DISTANCE_PIXELS)
        if all(d <= MAX_PORT_DISTANCE_PIXELS for d in distances):
            bridges.append(JunctionProposal(True, index, (pocket, exterior), set(ports)))
        else:
            notes['bridge: port too far'] += 1

    proposals = []
    for p in unions:
        first, second = ctx.stats.get(p.pair[0]), ctx.stats.get(p.pair[1])
        if first is None or second is None:
            continue
        boundary = boundaries[p.index]
        if p.anchored_regions == 1:
            local = within_span_radius(first, boundary, notes) and within_span_radius(second, boundary, notes)
        else:
            local = within_radius(first, center(boundary), notes) and within_radius(second, center(boundary), notes)
        strictly_flat = (first.elevations | second.elevations).bit_count() == 1
        near_flat = p.anchored_regions == 1 and same_dominance(first, second)
        if not first.cells + second.cells > 0:
            continue
        if first.has_ramp or second.has_ramp:
            notes['union: ramp cell'] += 1
        elif not local:
            notes['union: too large'] += 1
        elif not (strictly_flat or near_flat):
            notes['union: not flat'] += 1
        else:
            p.near = not strictly_flat
            proposals.append(p)
    for p in bridges:
        stats = ctx.stats.get(p.pair[0])
        if stats is None:
            continue
        if stats.has_ramp:
            notes['bridge: ramp cell'] += 1
        elif not within_radius(stats, center(boundaries[p.index]), notes):
            notes['bridge: too large'] += 1
        elif not flat(stats):
            notes['bridge: not flat'] += 1
        else:
            proposals.append(p)
    for p in proposals:
        notes[f'pass 3 made {p.kind()}'] += 1
    return proposals


def total_order(x):
    """the key of f64::total_cmp"""
    b = bits(x)
    return b if b < 1 << 63 else (1 << 63) - 1 - b


def junction_key(boundaries, p):
    return (-total_order(boundaries[p.index].width_pixels), canonical(boundaries[p.index].endpoints), p.tie_key())


def select_proposals(boundaries, ranked, notes):
    ranked = sorted(ranked, key=lambda p: junction_key(boundaries, p))
    removed, reserved_ports, reserved_unions, pockets, exteriors = set(), set(), set(), set(), set()
    for p in ranked:
        causes = []
        if any(port in removed for port in p.ports):
            causes.append('port removed')
        if any(port in reserved_ports for port in p.ports):
            causes.append('port reserved')
        if p.index in reserved_ports:
            causes.append('itself reserved')
        if not p.bridge:
            if any(region in reserved_unions or region in pockets or region in exteriors for region in p.pair):
                causes.append('region reserved')
        else:
            pocket, exterior = p.pair
            if (pocket in reserved_unions or exterior in reserved_unions or pocket in pockets
                    or exterior in pockets or pocket in exteriors):
                causes.append('region reserved')
        if causes:
            for cause in causes:
                notes[f'pass 3 refused: {cause}{"" if len(causes) > 1 else " alone"}'] += 1
            notes[f'pass 3 refused {p.kind()}'] += 1
            continue
        notes[f'pass 3 taken {p.kind()}'] += 1
        removed.add(p.index)
        if p.bridge:
            pockets.add(p.pair[0])
            exteriors.add(p.pair[1])
        else:
            reserved_unions.update(p.pair)
        reserved_ports.update(p.ports)
    return removed


def remove_junction_boundaries(boundaries, ctx):
    if len(boundaries) != len(ctx.metadata):
        return canonical_output(boundaries, set())
    removed = select_proposals(boundaries, junction_proposals(boundaries, ctx), ctx.notes)
    return canonical_output(boundaries, removed)


PASSES = {1: replace_ramp_mouths, 2: collapse_ramp_interiors, 3: remove_junction_boundaries}


# ------------------------------------------------------------------------------- the table of refusals and the calls

def outside(m, x, y):
    return x > 8 * m.width or y > 8 * m.height


def faulty_span(m):
    for i, (x1, y1, x2, y2) in enumerate(groups(m.spans, 4)):
        if outside(m, x1, y1) or outside(m, x2, y2):
            return 5, i
        if (x1, y1) == (x2, y2):
            return 6, i
    return None


def faulty_boundary(m):
    for i, (x1, y1, x2, y2, width, kind, ramp_id, lower, upper) in enumerate(groups(m.boundaries, 9)):
        if (outside(m, x1, y1) or outside(m, x2, y2) or width >> 63 or (width >> 52) & 0x7FF == 0x7FF
                or double(width) > 65536.0 or kind > 2 or ramp_id >= 1 << 32 or lower > 7 or upper > 7
                or (kind == 0 and (ramp_id, lower, upper) != (0, 0, 0))):
            return 7, i
    return None


@dataclass
class Lent:
    """lists lent to be filled. Pairs are rows of three numbers, one after another; a record is a tuple of eleven
    numbers, the last four as one tuple: cells, four edges as bits, ramp flag, mask, four counts"""
    labels: list
    masks: list
    queue: list
    tallies: list
    pairs: list
    records: list
    output: list

    def copy(self):
        return Lent(*(list(getattr(self, name)) for name in LENT))


LENT = ('labels', 'masks', 'queue', 'tallies', 'pairs', 'records', 'output')
EMPTY_RECORD = (0, 0, 0, 0, 0, 0, 0, (0, 0, 0, 0))


def record_of(stats):
    return (stats.cells, bits(stats.min_x), bits(stats.min_y), bits(stats.max_x), bits(stats.max_y),
            stats.ramp_cells, stats.elevations, tuple(stats.elevation_counts))


def entry_fault(m):
    """checks 4 to 9"""
    if m.pass_number not in (1, 2, 3):
        return 4, 0
    fault = faulty_span(m) or faulty_boundary(m)
    if fault:
        return fault
    for i, (x, y) in enumerate(groups(m.anchors, 2)):
        if x >= m.width or y >= m.height:
            return 8, i
    for i, cell in enumerate(m.cells):
        if cell & 1 and cell >> 2 >= 4:
            return 9, i
    return None


def early_refusal(m, lent, whole):
    """checks 1 to 10; `whole` is false where only the partition is asked for"""
    if not (1 <= m.width <= 1024 and 1 <= m.height <= 1024):
        return 1, 0
    if len(m.cells) != m.width * m.height:
        return 2, 0
    lists = [(m.spans, 4)] + ([(m.boundaries, 9), (m.anchors, 2)] if whole else [])
    if any(len(numbers) // size > MOST or len(numbers) % size for numbers, size in lists):
        return 3, 0
    fault = entry_fault(m) if whole else faulty_span(m)
    if fault:
        return fault
    n = len(m.cells)
    if (len(lent.labels) < n or len(lent.masks) < n or len(lent.queue) < n
            or len(lent.tallies) < 2 * (len(m.spans) // 4)
            or (whole and len(lent.output) < 5 * (len(m.boundaries) // 9))):
        return 10, 0
    return None


def put(target, values):
    target[:len(values)] = values


def call(m, lent, whole=True, notes=None):
    """runs on the lent lists, which it fills; gives (number, place) or (0, count)"""
    refusal = early_refusal(m, lent, whole)
    if refusal:
        return refusal
    n = len(m.cells)
    grid = Grid(m.width, m.height, m.cells)
    spans = groups(m.spans, 4)
    labels, regions, assessments = partition_by_spans(grid, spans)
    pairs = [(i, a, b) for i, entry in enumerate(assessments) for a, b in entry.region_pairs]
    put(lent.labels, labels)
    put(lent.masks, [0] * n)
    put(lent.queue, [0] * n)
    if whole and regions > len(lent.records):
        put(lent.tallies, [0] * (2 * len(spans)))
        return 11, 0
    put(lent.tallies, [count for entry in assessments for count in (entry.removed_edge_count, entry.separated_edge_count)])
    if len(pairs) > len(lent.pairs) // 3:
        put(lent.pairs, [0] * len(lent.pairs))
        return 12, 0
    put(lent.pairs, [number for row in pairs for number in row])
    if not whole:
        return 0, regions
    boundaries = [boundary_of(nine) for nine in groups(m.boundaries, 9)]
    ctx = Context(grid, labels, assessments, groups(m.anchors, 2), notes)
    put(lent.records, [record_of(ctx.stats[region]) for region in range(1, regions + 1)])
    rows = PASSES[m.pass_number](boundaries, ctx)
    put(lent.output, [number for row in rows for number in row])
    return 0, len(rows)


def lend(m, fill=0):
    """lists that are long enough for a small map, all entries `fill`"""
    n = len(m.cells)
    spans, boundaries = len(m.spans) // 4, len(m.boundaries) // 9
    rows = min(spans * 4 * n, 1 << 14)           # a step a row at most
    record = (fill,) * 7 + ((fill,) * 4,)
    return Lent([fill] * n, [fill] * n, [fill] * n, [fill] * (2 * spans), [fill] * (3 * rows), [record] * n, [fill] * (5 * boundaries))


def results(m, notes=None):
    """everything that is compared for an accepted map: labels, region count, tallies, pairs, records, rows"""
    grid = Grid(m.width, m.height, m.cells)
    labels, regions, assessments = partition_by_spans(grid, groups(m.spans, 4))
    ctx = Context(grid, labels, assessments, groups(m.anchors, 2), notes)
    boundaries = [boundary_of(nine) for nine in groups(m.boundaries, 9)]
    return {
        'labels': labels,
        'regions': regions,
        'tallies': [(e.removed_edge_count, e.separated_edge_count) for e in assessments],
        'pairs': [(i, a, b) for i, e in enumerate(assessments) for a, b in e.region_pairs],
        'records': [record_of(ctx.stats[r]) for r in range(1, regions + 1)],
        'rows': PASSES[m.pass_number](boundaries, ctx),
    }
