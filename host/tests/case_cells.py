"""Eight cells on one converter (document 02, request 12): shares beside the definition and its laws, and whole runs of passes."""
import itertools

from case_steps import small
from common import Run, expect, test
from steps import LIST, MOST, Call, Eight, Live, Mixed, alone, bases_of, lengths_of, library, mixed, shares_of, steps_of


def shared(u, jobs, count=None, past=0):
    """The library's answer for jobs (cap, left): number and eight shares. `past` stands behind the jobs."""
    eight = [Eight(*([job[k] for job in jobs[:8]] + [past] * (8 - len(jobs)))) for k in (0, 1)]
    answer = library().sitaungo_share(u, len(jobs) if count is None else count, *eight)
    return answer.number, [getattr(answer.shares, name) for name in "abcdefgh"]


def check_laws(u, jobs, shares):
    """What the document says of a pass."""
    most, bases = [min(job) for job in jobs], bases_of(u, jobs)
    unfinished = sum(left > 0 for _, left in jobs)
    expect(all(s >= min(cap, left, u // unfinished) for s, (cap, left) in zip(shares, jobs) if left), "a job gets too few")
    expect(all(s <= m for s, m in zip(shares, most)), "a job gets more than its cap or than it has left")
    expect(sum(shares) <= u and sum(shares) == min(u, sum(most)), "the pass gives", sum(shares))
    short = [s < m for s, m in zip(shares, most)]
    first = short.index(True) if True in short else len(jobs)
    expect(shares[first + 1 :] == bases[first + 1 :], "what is left over doesn't go in order")


def check_share(u, jobs, past=0):
    number, shares = shares_of(u, jobs)
    due = (number, (shares + [0] * 8)[:8])
    got = shared(u, jobs, past=past)
    expect(got == due, u, jobs, "gives", got, "and not", due)
    if number == 0:
        check_laws(u, jobs, shares)


@test
@alone
def shares_of_a_pass():
    """Every pass of up to three jobs with small numbers, passes of up to eight by chance; --long sets how many. Numbers behind the jobs don't matter."""
    told = 0
    for count in (1, 2, 3):
        for jobs in itertools.product(itertools.product(range(4), range(4)), repeat=count):
            for u in range(9) if count < 3 else (0, 1, 2, 4, 7):
                check_share(u, list(jobs), past=told % 2)
                told += 1
    for _ in range(Run.loops(20000)):
        r = Run.random
        top = r.choice((3, 8, 30, 1000, 1 << 62, MOST))
        jobs = [(r.randint(r.random() < 0.95, top), r.choice((0, r.randint(0, top), top))) for _ in range(r.randint(1, 8))]
        check_share(r.choice((r.randint(0, 20), r.randint(1, top), sum(map(min, jobs)) % (MOST + 1), MOST)), jobs, past=r.choice((0, 1, MOST)))
        told += 1
    return "%d passes" % told


@test
@alone
def shares_worked_out():
    """By hand, the document's sentences in numbers; the largest numbers; refusals with their order."""
    for u, jobs, due in (
        (10, [(100, 3), (100, 100), (100, 100)], [3, 4, 3]), (12, [(1, 100), (4, 100), (20, 100)], [1, 4, 7]), (10, [(9, 0), (9, 7), (9, 9)], [0, 5, 5]),
        (2, [(5, 5)] * 3, [2, 0, 0]), (5, [(1, 0)] * 8, [0] * 8), (100, [(5, 7), (7, 5), (1, 1)], [5, 5, 1]), (1, [(1, 1)], [1]),
        (MOST, [(MOST, MOST)] * 8, [MOST // 8 + 7] + [MOST // 8] * 7), (MOST, [(MOST, MOST), (1, 0)], [MOST, 0]), (8, [(1, 9)] * 8, [1] * 8),
    ):
        expect(shared(u, jobs) == (0, (due + [0] * 8)[:8]), u, jobs, shared(u, jobs))
    one = [(1, 1)] * 8
    for count in (0, 9, 10, 1 << 32, (1 << 32) + 1, MOST):
        for u, jobs in ((5, one), (0, one), (5, [(0, 1)] * 8)):
            expect(shared(u, jobs, count) == (31, [0] * 8), "31 comes first", count, u)
    for u, jobs in ((0, one), (0, [(0, 0)]), (5, [(0, 1)]), (5, [(1, 1)] * 7 + [(0, 1)]), (5, [(1, 1), (0, 0)])):
        expect(shared(u, jobs) == (32, [0] * 8), "32 of", u, jobs)
    expect(shared(5, [(1, 1)] + [(0, 0)] * 7, 1) == (0, [1] + [0] * 7), "caps behind the jobs")


def eight_jobs():
    """Conversions of different sizes, of eight steps at least, with their files and lists as made alone."""
    calls = [call for call in small() if steps_of(call.size()) >= 8]
    calls += [Call(mixed(Mixed((30, 1 + k), 1500 + 700 * k)), 2000) for k in range(8)]
    made = [(call, *call.made()[1:]) for call in Run.random.sample(calls, 8)]
    expect(len({steps_of(len(whole)) for _, whole, _ in made}) >= 4, "jobs of one size")
    return made


def begun(jobs):
    words = ((4096, 5000), (0, 0), (4096, 0), (0, 3000))
    return [Live(call, bytearray(b"\xa5") * len(whole), lengths_of(*words[k % 4])) for k, (call, whole, _) in enumerate(jobs)]


def make_pass(u, caps, cells):
    """One pass: shares from what each has left, then so many steps of each."""
    before = [c.left() for c in cells]
    number, shares = shared(u, list(zip(caps, before)))
    expect(number == 0, "refused", number)
    check_laws(u, list(zip(caps, before)), shares[: len(cells)])
    for cell, share in zip(cells, shares):
        cell.advance(share)
    expect([b - c.left() for b, c in zip(before, cells)] == shares[: len(cells)], "another number of stores")


def check_cells(cells, jobs):
    """Finished ones have the file and the list they would have had alone; the others are refused, or not begun."""
    for cell, (_, whole, words) in zip(cells, jobs):
        if cell.left() == 0:
            expect(bytes(cell.file) == whole and list(cell.list) == words + [MOST] * (LIST - len(words)) and cell.zero(), "another file than alone")
        else:
            expect(cell.state.next == 0 or bytes(cell.file[:8]) == bytes(8), "a file that isn't cleared")


@test
@alone
def one_job_finishes_in_each_pass():
    """Eight jobs, eight passes, in several orders."""
    jobs = eight_jobs()
    for _ in range(Run.loops(6)):
        order, cells = Run.random.sample(range(8), 8), begun(jobs)
        for number, ending in enumerate(order):
            caps = [1] * 8
            for later, k in enumerate(order[number:]):
                caps[k] = Run.random.randint(1, cells[k].left() // (later + 1)) if later else cells[k].left()
            make_pass(sum(caps) + Run.random.randrange(30), caps, cells)
            check_cells(cells, jobs)
            expect([k for k, c in enumerate(cells) if c.left() == 0] == sorted(order[: number + 1]), "pass", number, "of", order)


@test
@alone
def passes_by_chance():
    """Any stores and caps in each pass, jobs that begin between passes, positions named and recalled between them; --long sets how many runs."""
    jobs, told = eight_jobs(), 0
    for _ in range(Run.loops(20)):
        r, cells, waiting = Run.random, [], begun(jobs)
        while waiting or any(c.left() for c in cells):
            if waiting and (not cells or r.random() < 0.4):
                cells.append(waiting.pop(0))
            make_pass(r.choice((1, 2, 3, 10, 100, 1000, MOST)), [r.choice((1, 2, 5, 40, MOST)) for _ in cells], cells)
            check_cells(cells, jobs)
            cell = r.choice(cells)
            if cell.left() and r.random() < 0.3:
                expect(cell.name(r.randrange(4)) == 0, "no name")
            if r.random() < 0.2:
                expect(cell.recall(r.randrange(4)) in (0, 29, 30), "recalled")
            told += 1
        check_cells(cells, jobs)
        expect(len(cells) == 8 and not any(c.left() for c in cells), "unfinished")
    return "%d passes" % told
