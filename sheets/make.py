#!/usr/bin/env python3
"""Writes the sheets of this folder: `make.py [FOLDER]`. Each function builds one kind of sheet in the paper's terms."""
import itertools
import pathlib
import sys

BARRED, OPEN, FIXED = 0, 1, 2
WITHIN, BOTH, EITHER, LESS, UNION, DIFFER = 2, 3, 4, 5, 6, 7
# what a line's first group is of its others
FIRST = {BOTH: set.intersection, EITHER: set.union, LESS: set.difference, UNION: set.union}


class Sheet:
    def __init__(self, entrants, blank=False):
        """Where `blank`, open marks are left blank, but for the last column: spaces at a line's end are easily lost."""
        self.entrants, self.blank, self.groups, self.lines = entrants, blank, [], []

    def group(self, low, high, fixed=(), barred=()):
        """A new group; gives its number."""
        mark = lambda e: FIXED if e in fixed else BARRED if e in barred else OPEN
        self.groups.append([low, high] + [mark(e) for e in range(1, self.entrants + 1)])
        return len(self.groups)

    def line(self, code, *groups):
        self.lines.append([code, len(groups) - 1, *groups] if code == UNION else [code, *groups])

    def share(self, high, f, g):
        """F and G share at most `high` entrants."""
        self.line(BOTH, self.group(0, high), f, g)

    def split(self, parts, low, high, **marks):
        """The parts' union, of low to high entrants; where that is the sum of their sizes the parts are disjoint."""
        whole = self.group(low, high, **marks)
        self.line(UNION, whole, *parts)
        return whole

    def apart(self, parts, whole):
        """Nobody is in two of the parts, of which the whole is the union: one part after the other joins those before it."""
        before, *others, last = parts
        for part in others:
            joined = self.group(0, self.entrants)
            self.line(EITHER, joined, before, part)
            self.line(LESS, part, joined, before)
            before = joined
        self.line(LESS, last, whole, before)

    def differ(self, groups):
        """No two of the groups are the same."""
        for f, g in itertools.combinations(groups, 2):
            self.line(DIFFER, f, g)

    def draw(self, sets):
        """A draw as text, a group a line, from the sets of some groups by number: the others are what lines make of these."""
        for code, *groups in self.lines:
            first, *others = groups[1:] if code == UNION else groups
            sets.setdefault(first, FIRST[code](*[sets[group] for group in others]))
        return "".join(" ".join([f"{number}:", *map(str, sorted(sets[number]))]) + "\n" for number in range(1, len(self.groups) + 1))

    def text(self):
        rows = [[1, self.entrants, len(self.groups), len(self.lines)]]
        column = lambda mark: "" if self.blank and mark == OPEN else mark
        rows += [[2, number, low, high, *map(column, marks), last] for number, (low, high, *marks, last) in enumerate(self.groups, 1)]
        rows += [[3, *line] for line in self.lines]
        return "".join("".join(f"{field:4}" for field in row) + "\n" for row in rows)


def golfers(tables, size, weeks, first=True, later=True):
    """Social golfers: every week all entrants at tables of `size`, no two at one table twice.
    The first week is fixed; those of its first table are at different tables later, so their places are fixed too. Either can be left open."""
    sheet = Sheet(tables * size)
    season = []
    for week in range(weeks):
        places = [[]] * tables
        if week == 0 and first:
            places = [range(t * size + 1, (t + 1) * size + 1) for t in range(tables)]
        elif week > 0 and later:
            places = [[t + 1] if t < size else [] for t in range(tables)]
        season.append([sheet.group(size, size, fixed=places[t]) for t in range(tables)])
    for week in season:
        for f, g in itertools.combinations(week, 2):
            sheet.share(0, f, g)
    for one, other in itertools.combinations(season, 2):
        for f, g in itertools.product(one, other):
            sheet.share(1, f, g)
    return sheet


def four():
    """Four players, two rounds in pairs, nobody with the same partner twice; 1 is in each round's first pair. The example of README and docs/SHEET.md."""
    sheet = Sheet(4)
    pairs = [sheet.group(2, 2, fixed=(1,) if pair % 2 == 0 else ()) for pair in range(4)]
    everybody = sheet.group(4, 4, fixed=range(1, 5))
    sheet.line(EITHER, everybody, pairs[0], pairs[1])
    sheet.line(EITHER, everybody, pairs[2], pairs[3])
    sheet.line(DIFFER, pairs[0], pairs[2])
    sheet.line(DIFFER, pairs[0], pairs[3])
    return sheet


def golf_day():
    """A society's day, with open marks left blank: fourteen golfers, a round in the morning and one in the afternoon, each in four flights of three or four, no two in one flight twice.
    1, the captain, is in the first flight of both. 6 comes late and is in neither of the first two; 11 leaves early and is in neither of the last two.
    3 and 8 go in the second flight of the morning; 14 plays in the afternoon only."""
    sheet = Sheet(14, blank=True)
    morning = [((1,), (6, 14)), ((3, 8), (6, 14)), ((), (14,)), ((), (14,))]
    afternoon = [((1,), ()), ((), ()), ((), (11,)), ((), (11,))]
    rounds = []
    for places, absent in [(morning, (14,)), (afternoon, ())]:
        flights = [sheet.group(3, 4, fixed=fixed, barred=barred) for fixed, barred in places]
        sheet.split(flights, 14 - len(absent), 14 - len(absent), barred=absent)
        for f, g in itertools.combinations(flights, 2):
            sheet.share(0, f, g)
        rounds.append(flights)
    for f, g in itertools.product(*rounds):
        sheet.share(1, f, g)
    return sheet


def bridge_season(away=((13, 14), (), (2,))):
    """Fourteen members, three evenings of three tables with two pairs each. No partners twice, no table that shares three members
    with an earlier one, nobody sits out twice. Some are away: by default 13 and 14 on the first evening, 2 on the third. 1 runs table 1; 3 and 4 play together once."""
    sheet = Sheet(14)
    everyone = sheet.group(14, 14)
    pairs, tables, out = [], [], []
    for evening, absent in enumerate(away):
        now = [sheet.group(2, 2, barred=absent, fixed=(3, 4) if (evening, p) == (1, 5) else ()) for p in range(6)]
        seats = [sheet.group(4, 4, barred=absent, fixed=(1,) if t == 0 else ()) for t in range(3)]
        for t, seat in enumerate(seats):
            sheet.line(EITHER, seat, now[2 * t], now[2 * t + 1])
        playing = sheet.split(now, 12, 12, barred=absent)
        rest = sheet.group(2, 2)
        sheet.line(LESS, rest, everyone, playing)
        pairs.append(now)
        tables.append(seats)
        out.append(rest)
    for f, g in itertools.combinations(out, 2):
        sheet.share(0, f, g)
    for (one, other), high in [(two, 1) for two in itertools.combinations(pairs, 2)] + [(two, 2) for two in itertools.combinations(tables, 2)]:
        for f, g in itertools.product(one, other):
            sheet.share(high, f, g)
    return sheet


# the pairs of last season's evenings
LAST_SEASON = [
    [{4, 9}, {1, 2}, {7, 11}, {8, 10}, {5, 6}, {3, 12}],
    [{8, 12}, {1, 10}, {11, 13}, {9, 14}, {2, 7}, {3, 4}],
    [{4, 10}, {1, 11}, {5, 12}, {13, 14}, {6, 7}, {3, 8}],
]


def bridge_last_season():
    """Last season's draw of `bridge_season`, whoever is away now: group 1 is everyone, the pairs of the evenings begin at groups 2, 13 and 24."""
    sets = {1: set(range(1, 15))}
    for first, pairs in zip((2, 13, 24), LAST_SEASON):
        sets.update(enumerate(pairs, first))
    return bridge_season().draw(sets)


def bridge_long_season():
    """Fourteen members, four evenings of three tables, no partners twice; some are away, and 1 always sits in the first pair. It has 256 groups, as many as a sheet may."""
    sheet = Sheet(14)
    away = [(13, 14), (5,), (2, 9), (7,)]
    pairs = []
    for evening, absent in enumerate(away):
        now = [sheet.group(2, 2, barred=absent, fixed=(1,) if p == 0 else ()) for p in range(6)]
        for t in range(3):
            sheet.line(EITHER, sheet.group(4, 4, barred=absent), now[2 * t], now[2 * t + 1])
        sheet.split(now, 12, 12, barred=absent)
        pairs.append(now)
    for one, other in itertools.combinations(pairs, 2):
        for f, g in itertools.product(one, other):
            sheet.share(1, f, g)
    return sheet


def bridge_clash():
    """One evening of three tables for thirteen members, two of them away: twelve cannot sit down. Counting this is the solver's task."""
    sheet = Sheet(13)
    tables = [sheet.group(4, 4, barred=(6, 11)) for _ in range(3)]
    for f, g in itertools.combinations(tables, 2):
        sheet.share(0, f, g)
    return sheet


def bridge_five_at_a_table():
    """Five members promised to one table of four by way of two pairs and a guest: settling finds it."""
    sheet = Sheet(8)
    table = sheet.group(4, 4)
    sheet.line(WITHIN, sheet.group(2, 2, fixed=(1, 2)), table)
    sheet.line(WITHIN, sheet.group(2, 2, fixed=(3, 4)), table)
    sheet.line(WITHIN, sheet.group(1, 1, fixed=(5,)), table)
    return sheet


def bridge_pairs_within_tables():
    """Twenty pairs, two evenings of three tables. At each table a group of at least five pairs plays within it; the club writes four to seven pairs for a table.
    Tables of one evening share no pair and seat at least eighteen; a group shares at most two pairs with one of the other evening.
    Pairs 19 and 20 cannot come on the first evening, 4 not on the second; pair 1 is in the first group of each."""
    sheet = Sheet(20)
    season = []
    for absent in [(19, 20), (4,)]:
        groups = [sheet.group(5, 20, barred=absent, fixed=(1,) if t == 0 else ()) for t in range(3)]
        tables = [sheet.group(4, 7, barred=absent) for _ in range(3)]
        for group, table in zip(groups, tables):
            sheet.line(WITHIN, group, table)
        for f, g in itertools.combinations(tables, 2):
            sheet.share(0, f, g)
        sheet.split(tables, 18, 20, barred=absent)
        season.append(groups)
    for f, g in itertools.product(*season):
        sheet.share(2, f, g)
    return sheet


def bridge_too_few_places():
    """An evening of five tables with four places each, for twenty-four pairs of whom at least twenty-one must play.
    Twenty places are too few: settling adds them up."""
    sheet = Sheet(24)
    tables = [sheet.group(2, 4) for _ in range(5)]
    sheet.split(tables, 21, 24)
    return sheet


def bridge_teams_differ():
    """A league season of four evenings. The club registers at most six of its fourteen members; on each evening a team of four of them plays, in two pairs.
    A team keeps at least three of the evening before; no two teams of the season are the same, and no pair plays twice.
    Some are away. 1, the captain, is in the first pair of each team; 8, who is away on the second evening, plays on the third."""
    sheet = Sheet(14)
    pairs, teams = [], []
    for evening, absent in enumerate([(13, 14), (2, 8), (5, 9, 10), (3,)]):
        now = [sheet.group(2, 2, fixed=(1,) if p == 0 else (), barred=absent) for p in range(2)]
        team = sheet.group(4, 4, fixed=(8,) if evening == 2 else (), barred=absent)
        sheet.line(EITHER, team, *now)
        pairs += now
        teams.append(team)
    sheet.split(teams, 4, 6)
    for before, after in zip(teams, teams[1:]):
        sheet.line(BOTH, sheet.group(3, 4), before, after)
    sheet.differ(teams)
    sheet.differ(pairs)
    return sheet


def bridge_one_team_twice():
    """Five afternoons of a league, a team of four on each, no two the same. Of fourteen members 1 to 5 can come in the afternoon, and 1, the captain, always plays:
    that makes four teams, so one of them would play twice. No mark says which: finding it is the solver's task."""
    sheet = Sheet(14)
    sheet.differ([sheet.group(4, 4, fixed=(1,), barred=range(6, 15)) for _ in range(5)])
    return sheet


def bridge_teams_alike():
    """Three evenings of a league, a team of three or four on each, no two the same. 1, 4 and 7 always play, and 9 is the only one beside them who can come; on the first evening 9 is promised a place.
    So 9 is left out on the second and on the third evening, and their teams are the same: settling finds it."""
    sheet = Sheet(9)
    sheet.differ([sheet.group(3, 4, fixed=fixed, barred=(2, 3, 5, 6, 8)) for fixed in [(1, 4, 7, 9), (1, 4, 7), (1, 4, 7)]])
    return sheet


def conference(rooms=(8, 8, 8)):
    """A conference of sixty names over three days. Each day all who are there sit in working groups of five to eight, one in each of the day's rooms, everybody in one of them.
    1 to 8 chair the groups of their rooms. 58 to 60 come on the second day, 33 is away on it, and 41 to 46 leave before the third.
    1 and 9 to 15 come from one institute, and no two of them sit in one group. On the first day each group has one or two of the newcomers, 49 to 60.
    From one day to the next at most three stay in a room, the chair among them, and no room has the same group on the first and on the third day."""
    sheet = Sheet(60)
    institute, newcomers = [sheet.group(len(names), len(names), fixed=names, barred=set(range(1, 61)) - set(names)) for names in [(1, *range(9, 16)), range(49, 61)]]
    days = []
    for count, absent in zip(rooms, [(58, 59, 60), (33,), range(41, 47)]):
        groups = [sheet.group(5, 8, fixed=(room,), barred=absent) for room in range(1, count + 1)]
        there = 60 - len(absent)
        sheet.apart(groups, sheet.split(groups, there, there, barred=absent))
        for group in groups:
            sheet.share(1, group, institute)
        days.append(groups)
    for group in days[0]:
        sheet.line(BOTH, sheet.group(1, 2), group, newcomers)
    for before, after in zip(days, days[1:]):
        for f, g in zip(before, after):
            sheet.share(3, f, g)
    for f, g in zip(days[0], days[2]):
        sheet.line(DIFFER, f, g)
    return sheet


# the groups of the mixed weekend, on which both committees agreed: the men and the ladies of the club, the flights of Saturday and Sunday, the men and the ladies in each of them,
# all who play on Saturday and on Sunday, and for each flight of Saturday beside each of Sunday the men who are in both, and the ladies
THE_MEN, THE_LADIES = 1, 2
SATURDAY, SUNDAY = range(3, 7), range(7, 11)
MEN_IN_FLIGHTS, LADIES_IN_FLIGHTS = range(11, 19), range(19, 27)
ON_SATURDAY, ON_SUNDAY = 27, 28
MEN_AGAIN, LADIES_AGAIN = range(29, 45), range(45, 61)


class Committee:
    """What a committee wants of the mixed weekend: of some groups marks and limits, and lines. Its members are half of the sixteen."""

    def __init__(self, members, whole, in_flights, again):
        self.groups, self.lines = {}, []
        self.want(whole, 8, 8, fixed=members, barred=set(range(1, 17)) - set(members))
        for flight, own in zip([*SATURDAY, *SUNDAY], in_flights):
            self.want(own, 2, 2)
            self.lines.append((BOTH, own, flight, whole))
        for number, (f, g) in zip(again, itertools.product(in_flights[:4], in_flights[4:])):
            self.want(number, 0, 1)
            self.lines.append((BOTH, number, f, g))

    def want(self, number, low, high, fixed=(), barred=()):
        self.groups[number] = (low, high, set(fixed), set(barred))


def mixed_men():
    """The men, 1 to 8: two in each flight, no two of them in one flight twice, no flight of more than four. They see to Saturday: all sixteen play.
    1, the captain, is in the first flight on both days; 5 has to leave early on Sunday, so not in the last two flights; 3 and 4 go together in Saturday's third."""
    men = Committee(range(1, 9), THE_MEN, MEN_IN_FLIGHTS, MEN_AGAIN)
    fixed = {SATURDAY[0]: [1], SUNDAY[0]: [1], SATURDAY[2]: [3, 4]}
    barred = {SUNDAY[2]: [5], SUNDAY[3]: [5]}
    for flight in [*SATURDAY, *SUNDAY]:
        men.want(flight, 0, 4, fixed.get(flight, ()), barred.get(flight, ()))
    men.want(ON_SATURDAY, 16, 16)
    men.lines.append((UNION, ON_SATURDAY, *SATURDAY))
    return men


def mixed_ladies(fixed={}, barred={}, on_saturday=(2, 2)):
    """The ladies, 9 to 16: two in each flight, no two of them in one flight twice, no flight of fewer than four. They see to Sunday: all sixteen play.
    9, the ladies' captain, is in the second flight on both days; 12 comes late on Saturday, so not in the first two flights; 14 and 15 go together in Sunday's third.
    Beside that, more marks, or other limits of the ladies in a flight on Saturday."""
    ladies = Committee(range(9, 17), THE_LADIES, LADIES_IN_FLIGHTS, LADIES_AGAIN)
    fixed = {SATURDAY[1]: [9], SUNDAY[1]: [9], SUNDAY[2]: [14, 15], **fixed}
    barred = {SATURDAY[0]: [12], SATURDAY[1]: [12], **barred}
    for flight in [*SATURDAY, *SUNDAY]:
        ladies.want(flight, 4, 16, fixed.get(flight, ()), barred.get(flight, ()))
    for own in LADIES_IN_FLIGHTS[:4]:
        ladies.want(own, *on_saturday)
    ladies.want(ON_SUNDAY, 16, 16)
    ladies.lines.append((UNION, ON_SUNDAY, *SUNDAY))
    return ladies


def mixed_promise():
    """The ladies' first draft: the same, and 5 is promised as a partner in Sunday's last flight."""
    return mixed_ladies(fixed={SUNDAY[3]: [5]})


def mixed_early():
    """The ladies have a dinner on Saturday, and none is in the last flight; up to three are in each of the others. By itself that can be done: four men are left to the last one."""
    return mixed_ladies(barred={SATURDAY[3]: range(9, 17)}, on_saturday=(0, 3))


def mixed(*committees):
    """The mixed weekend as the committees want it together: sixteen golfers, four flights on each day."""
    sheet = Sheet(16)
    for number in range(1, 61):
        wanted = [(0, 16, set(), set())] + [committee.groups[number] for committee in committees if number in committee.groups]
        lows, highs, fixed, barred = zip(*wanted)
        sheet.group(max(lows), min(highs), fixed=set().union(*fixed), barred=set().union(*barred))
    for committee in committees:
        for line in committee.lines:
            sheet.line(*line)
    return sheet


SHEETS = {
    "four": (four(), "draw"),
    "golf-3-3-4": (golfers(3, 3, 4), "draw"),
    "golf-3-3-5": (golfers(3, 3, 5), "no draw"),
    "golf-3-2-5": (golfers(3, 2, 5), "draw"),
    "golf-3-2-6": (golfers(3, 2, 6), "no draw"),
    "golf-day": (golf_day(), "draw"),
    "bridge-16": (golfers(4, 4, 5), "draw"),
    "bridge-season": (bridge_season(), "draw"),
    "bridge-next-season": (bridge_season(away=((13, 14), (6,), (2, 9))), "last season's draw"),
    "bridge-next-season-5-away": (bridge_season(away=((5, 14), (), (2,))), "another draw"),
    "bridge-long-season": (bridge_long_season(), "draw"),
    "bridge-clash": (bridge_clash(), "no draw"),
    "bridge-five-at-a-table": (bridge_five_at_a_table(), "no draw, settled out"),
    "bridge-pairs-within-tables": (bridge_pairs_within_tables(), "draw"),
    "bridge-too-few-places": (bridge_too_few_places(), "no draw, settled out"),
    "bridge-teams-differ": (bridge_teams_differ(), "draw"),
    "bridge-one-team-twice": (bridge_one_team_twice(), "no draw"),
    "bridge-teams-alike": (bridge_teams_alike(), "no draw, settled out"),
    "conference": (conference(), "draw"),
    "conference-a-room-too-few": (conference(rooms=(8, 8, 7)), "no draw"),
    "golf-mixed-men": (mixed(mixed_men()), "draw"),
    "golf-mixed-ladies": (mixed(mixed_ladies()), "draw"),
    "golf-mixed": (mixed(mixed_men(), mixed_ladies()), "draw"),
    "golf-mixed-ladies-promise": (mixed(mixed_promise()), "draw"),
    "golf-mixed-ladies-early": (mixed(mixed_early()), "draw"),
    "golf-mixed-early": (mixed(mixed_men(), mixed_early()), "no draw"),
}
# draws to start from
GROUPS = {name: bridge_last_season() for name in ("bridge-next-season", "bridge-next-season-5-away")}

if __name__ == "__main__":
    folder = pathlib.Path(sys.argv[1] if len(sys.argv) > 1 else pathlib.Path(__file__).parent)
    for name, (sheet, answer) in SHEETS.items():
        (folder / f"{name}.sheet").write_text(sheet.text())
        (folder / f"{name}.expected").write_text(answer + "\n")
    for name, groups in GROUPS.items():
        (folder / f"{name}.groups").write_text(groups)
