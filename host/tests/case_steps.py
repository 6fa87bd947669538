"""Conversions in steps (document 02, request 11): the library's calls beside the definition, and beside the conversion in one go."""
import ctypes
import os
import re
import struct
import subprocess
import time

from case_conversions import expected_refusals
from case_damaged import damaged
from case_photos import EVERY_FORM, Group, Recording
from case_share import Group as Clock, Rack
from common import EXAMPLE, LIBRARY, MEDIUM, ROOT, SAMPLE, Run, cc, expect, place, read, test, write
from mdf import blocks_of
from steps import (
    LIST, MOST, OFFSETS, PAGE, STRETCHES, WORK, Call, Live, Mixed, Running, State, Writer, agrees, alone, lengths_of, library, long_blocks, mixed, naming,
    recalling, slices, steps_of, stepping, store_of, words_of,
)

DATA = os.path.join(ROOT, "crates", "columns", "data")
UNSORTED = (Mixed((1, 40, 7), 2000), Mixed((12, 3), 600, regular=True), Mixed((30, 2, 2, 9), 700))


def small():
    """Recordings of some pages, each by some choices."""
    long_, order = long_blocks(), mixed(*UNSORTED)
    calls = [Call(read(os.path.join(DATA, name)), block_size=64) for name in ("metadata", "reasons", "remote-master", "signal-fragments", "unsorted")]
    return [
        *calls, Call(read(EXAMPLE)), Call(read(EXAMPLE), 64, text=b"x" * 4096), Call(read(EXAMPLE), 1, types=bytes((1, 0, 1))),
        Call(long_, photos=True), Call(long_, 100, unit=4096, photos=True), Call(long_, 1, text=b"", types=bytes((2, 1, 0, 2, 0))),
        Call(order), Call(order, 8), Call(order, 1000, unit=512, share=True), Call(bytes(Recording(Group(EVERY_FORM)).image), photos=True),
        Call(bytes(Rack(Clock(times=(1,) * 3000), Clock(times=(1,) * 3000, front=3), Clock(remote=1, times=(1,) * 3000)).image), 700, share=True),
    ]


def store_between(black, white):
    """Where two files that were 0x00 and 0xFF all over agree: place and bytes of the one run."""
    n = len(black)
    apart = (int.from_bytes(black, "little") ^ int.from_bytes(white, "little")).to_bytes(n, "little")
    first, last = apart.find(0), apart.rfind(0)
    expect(apart.count(0) == last - first + 1 and apart.count(0) + apart.count(255) == n, "more than one run")
    return first, bytes(black[first : last + 1])


@test
@alone
def stores_by_two_backgrounds():
    """The same step over a file of 0x00 and of 0xFF: bytes that agree are those it stored, one run of 1 to 4,096, the definition's."""
    told = 0
    for call in small():
        outcome, whole, words = call.made()
        runs = [Live(call, bytearray([value]) * (len(whole) + 99)) for value in (0, 255)]
        expect(all(r.outcome == outcome and r.state.steps == r.left() == steps_of(len(whole)) and r.state.next == 0 for r in runs), "the beginning")
        expect(all(r.file == bytes([value]) * len(r.file) for r, value in zip(runs, (0, 255))), "beginning stores")
        whole_of_them = bytearray(len(whole))
        for k in range(steps_of(len(whole))):
            for r, value in zip(runs, (0, 255)):
                expect(list(r.list) == [MOST] * LIST, "the list before the last step")
                r.file[:] = bytes([value]) * len(r.file)
                r.step()
                expect(r.state.next == k + 1 and r.left() == steps_of(len(whole)) - k - 1, "the position")
            at, data = store_between(runs[0].file, runs[1].file)
            expect(1 <= len(data) <= PAGE and (at, data) == store_of(whole, k), "store", k, "at", at, "of", len(data), "bytes")
            whole_of_them[at : at + len(data)] = data
            told += 1
        expect(whole_of_them == whole, "another file than in one go")
        expect(all(list(r.list) == words + [MOST] * (LIST - len(words)) and r.zero() for r in runs), "the list, or words that aren't zero")
    return "%d stores" % told


def number_over(image):
    """The refusal of a conversion over these bytes that has no room: 20 where nothing else is wrong."""
    return Call(image).into(bytearray(), words_of([LIST])[0]).number


def check_cut(image):
    """Conversion, listing and beginning over a file that was cut off, by several choices: 5."""
    for call in (Call(image), Call(image, 1, unit=4096, share=True, photos=True, types=bytes((1, 0, 1)), text=b"")):
        answers = [call.into(bytearray(room), words_of([LIST])[0]) for room in (0, 1 << 16)]
        answers.append(call.begin(1 << 40, LIST, words_of(lengths_of())).outcome)
        expect(all(not a.accepted and (a.number, a.place) == (5, 0) for a in answers), "not refused with 5", answers)
        expect(call.listing() == "refused 5 place 0\n", call.listing())
    for wrong in (Call(image, 0), Call(image, unit=3), Call(image, types=b"\0")):
        expect(wrong.into(bytearray(), words_of([LIST])[0]).number in (2, 26, 27), "their own arguments come first")


@test
@alone
def cut_after_every_store():
    """In a file that holds an older result, which is whole before the first store."""
    told, older = 0, Call(long_blocks(), 999, photos=True, text=b"older").made()[1]
    for call in small():
        whole = call.made()[1]
        live = Live(call, bytearray(older.ljust(len(whole), b"\xa5")))
        expect(bytes(live.file).startswith(older) and number_over(bytes(live.file)) == 20, "beginning changes the file")
        for _ in range(live.state.steps - 1):
            live.step()
            check_cut(bytes(live.file))
            told += 1
        live.step()
        expect(bytes(live.file) == whole + older[len(whole) :], "another file than in one go")
        expect(number_over(bytes(live.file)) in (19, 20), "the result is refused")
    return "%d cuts" % told


@test
@alone
def cut_after_every_store_of_the_sample():
    call = Call(read(SAMPLE))
    whole, words = call.made()[1:]
    live = Live(call, bytearray(whole))
    for _ in range(live.state.steps - 1):
        live.step()
        expect(bytes(live.file[:8]) == bytes(8) and number_over(bytes(live.file)) == 5, "not refused with 5")
    live.step()
    expect(bytes(live.file) == whole and list(live.list[: len(words)]) == words and live.zero(), "another file than in one go")
    return "%d steps" % live.state.steps


@test
@alone
def blocks_over_pages():
    """The recording with long blocks has what it should: a cell, a name, a DL, an SD, an AT and copied links over a page, data blocks across pages."""
    f = Call(long_blocks(), 1, photos=True).made()[1]
    found = list(blocks_of(f))
    for kind in (b"TX", b"MD", b"CC", b"SD", b"AT", b"DT"):
        expect(any(k == kind and size > PAGE for _, k, size in found), "no long", kind)
    order = list(blocks_of(Call(mixed(*UNSORTED), 8).made()[1]))
    expect(any(k == b"DL" and size > PAGE for _, k, size in order), "no long DL")
    expect(any(k == b"DV" and at // PAGE < (at + size - 1) // PAGE for at, k, size in order), "no block across pages")


# ---- other lengths


LENGTHS = ((0, 0), (0, OFFSETS), (STRETCHES, 0), (1, 1), (STRETCHES - 1, OFFSETS - 1), (64, 3000), (STRETCHES + 1, 10000), (STRETCHES, 1 << 16))


@test
@alone
def steps_without_words_for_places():
    """Whatever room there is to keep places of records, and in files and lists that are longer or just long enough."""
    for call in small():
        whole, words = call.made()[1:]
        for stretches, offsets in LENGTHS:
            more = Run.random.choice((0, 0, 1, 5000))
            live = Live(call, bytearray(b"\x5a") * (len(whole) + more), lengths_of(stretches, offsets), len(words) + more)
            while live.left():
                live.step()
            expect(bytes(live.file) == whole + b"\x5a" * more, "another file with", stretches, "and", offsets, "words")
            expect(list(live.list) == words + [MOST] * more and live.zero(), "the list with", stretches, "and", offsets, "words")


@test
@alone
def steps_many_at_a_time():
    """So many steps in one call are as many calls; those past the last change nothing."""
    for call in small():
        whole, words = call.made()[1:]
        one, many, r = Live(call, bytearray(len(whole))), Live(call, bytearray(len(whole))), Run.random
        while many.left():
            stores = r.choice((0, 1, 2, 3, 10, many.left() - 1, many.left(), many.left() + 1, MOST))
            many.advance(stores)
            for _ in range(min(stores, one.left())):
                one.step()
            expect(one.state == many.state and one.file == many.file and list(one.list) == list(many.list), "after", many.state.next, "stores")
        expect(bytes(one.file) == whole and list(one.list[: len(words)]) == words, "another file than in one go")
        for live in (one, many):
            check_finished(live)


def check_finished(live):
    """A further step changes nothing: not the state, the file, the list, and words that are zero stay so."""
    expect(live.left() == 0 and live.zero(), "words that aren't zero after the last step")
    before = live.state.copy(), bytes(live.file), list(live.list)
    for further in (live.step, lambda: live.advance(1), lambda: live.advance(MOST)):
        further()
        expect((live.state, bytes(live.file), list(live.list)) == before and live.zero() and live.left() == 0, "a further step changes something")
    for word in (0, 7, MOST):
        expect(live.name(word) == live.recall(word) == 30, "a position is named or recalled after the last store")


# ---- positions


@test
@alone
def names_of_positions():
    """29 and 30 with their order; 0 and 2^64 - 1 are names; one given again moves, with four held too; a refusal changes nothing."""
    call = Call(read(EXAMPLE), 64, unit=4096)
    live = Live(call, bytearray(call.size()))
    expect(live.recall(0) == live.recall(MOST) == live.recall(5) == 29, "recalled before any name")
    expect(live.name(0) == 0 and live.recall(MOST) == 29 and live.recall(0) == 0, "the name 0")
    live.step()
    expect(live.name(MOST) == live.name(MOST - 1) == live.name(1) == 0, "four names")
    expect(live.state.held() == [(0, 0), (MOST, 1), (MOST - 1, 1), (1, 1)], "where they are", live.state.held())
    live.step()
    expect(live.name(2) == 30 and live.recall(2) == 29 and live.state.held()[3] == (1, 1), "a fifth name")
    expect(live.name(MOST) == 0 and live.state.held() == [(0, 0), (MOST, 2), (MOST - 1, 1), (1, 1)], "a name moves")
    live.advance(live.left() - 1)
    expect(live.name(2) == 30 and live.name(1) == 0 and live.left() == 1, "before the last store")
    expect(live.recall(0) == 0 and live.state.next == 0 and live.left() == live.state.steps, "back to the front")
    expect(live.recall(1) == 0 and live.left() == 1, "ahead again")
    live.step()
    for name in (0, 1, 2, MOST):
        expect(live.name(name) == 30 and live.recall(name) == 30, "after the last store")
    expect(bytes(live.file) == call.made()[1], "another file than in one go")
    check_finished(live)


def one_call(live, r, whole, words):
    """One call chosen at random, of the library and of the definition."""
    what, name = Run.random.choice("sssssnnrrraa"), Run.random.choice((0, 1, 2, 3, 4, MOST))
    if what == "s":
        live.step()
        stepping(whole, words, r)
    elif what == "a":
        stores = Run.random.randrange(4)
        live.advance(stores)
        for _ in range(stores):
            stepping(whole, words, r)
    elif what == "n":
        got, due = live.name(name), naming(steps_of(len(whole)), name, r)
        expect(got == due, "naming", name, "gives", got, "and not", due)
    else:
        got, due = live.recall(name), recalling(steps_of(len(whole)), name, r)
        expect(got == due, "recalling", name, "gives", got, "and not", due)


@test
@alone
def random_calls():
    """Steps, names and recalls in any order leave what the definition says, after each call; --long sets how many sequences."""
    calls, told = [c for c in small() if c.size() < 100000], 0
    made = [c.made()[1:] for c in calls]
    for _ in range(Run.loops(60)):
        k = Run.random.randrange(len(calls))
        (whole, words), old = made[k], Run.random.randbytes(len(made[k][0]) + Run.random.randrange(20))
        live = Live(calls[k], bytearray(old), lengths_of(*Run.random.choice(((STRETCHES, 5000), (0, 0), (STRETCHES, 0), (0, 5000)))))
        r = Running(old, [MOST] * LIST)
        for _ in range(Run.random.choice((20, 100, 300))):
            one_call(live, r, whole, words)
            agrees(live, r)
            expect(r.high == 0 or r.next == steps_of(len(whole)) or bytes(live.file[:8]) == bytes(8), "a file that isn't cleared")
            told += 1
        live.advance(MOST)
        expect(bytes(live.file) == whole + old[len(whole) :] and list(live.list[: len(words)]) == words, "another file than in one go")
        check_finished(live)
    return "%d calls" % told


@test
@alone
def recalls_in_an_unsorted_recording():
    """From one group back into an earlier one and ahead again, of DG in random order, with and without words for places; --long sets how often."""
    call, told, r = Call(mixed(*UNSORTED), 500), 0, Run.random
    whole = call.made()[1]
    for stretches, offsets in ((STRETCHES, OFFSETS + 4000), (STRETCHES, 0), (0, OFFSETS + 4000), (0, 0), (STRETCHES, OFFSETS + 100)):
        live = Live(call, bytearray(b"\xff") * len(whole), lengths_of(stretches, offsets))
        for name in range(4):
            expect(live.name(name) == 0, "no name")
        for _ in range(Run.loops(60)):
            expect(live.recall(r.randrange(4)) == 0, "not recalled")
            live.file[8:] = b"\xff" * (len(whole) - 8)  # what stands there already doesn't matter
            before = live.state.next
            live.advance(r.choice((1, 3, r.randrange(live.left()))) if live.left() > 4 else 0)
            at, end = (max(8, PAGE * (k - 1)) for k in (before, live.state.next))
            expect(live.file[at:end] == whole[at:end], "other bytes with", stretches, "and", offsets, "words")
            expect(live.name(r.randrange(1, 4)) == 0, "no name")
            told += live.state.next - before
        expect(live.recall(0) == 0 and live.state.next == 0, "back to the front")
        live.advance(MOST)
        expect(bytes(live.file) == whole, "another file than in one go with", stretches, "and", offsets, "words")
    return "%d stores" % told


# ---- refusals


def begins_as_converted(call, room, words):
    """The refusal of beginning is that of converting; so is the answer."""
    a = call.into(bytearray(room), (words_of([words])[0]))
    lent = words_of(lengths_of(70, 80), 3)
    b = call.begin(room, words, lent)
    expect(a == b.outcome, a, b.outcome)
    if not a.accepted:
        expect(b.conversion == State(), "the state of a refusal", b.conversion)
        expect(all(set(w) == {3 if a.number == 1 else 0} for w in lent[:4]), "work words after refusal", a.number)
    expect(not any(any(w) for w in lent[4:]), "words for places after beginning")
    return a.number


@test
@alone
def beginning_is_refused_as_converting():
    """Sound and damaged recordings, bad arguments, short files and lists; --long sets how many are damaged."""
    example, met = read(EXAMPLE), set()
    images = [read(os.path.join(ROOT, "crates", name)) for name, _, _ in expected_refusals()]
    for image in images:
        met.add(begins_as_converted(Call(image), 1 << 16, LIST))
    for _ in range(Run.loops(200)):
        base = Run.random.choice((example, read(os.path.join(DATA, "unsorted")), read(os.path.join(DATA, "metadata"))))
        met.add(begins_as_converted(Call(damaged(base), Run.random.choice((0, 1, 64)), photos=Run.random.random() < 0.5), 1 << 16, LIST))
    for room, words in ((0, LIST), (1, LIST), (1287, 0), (1 << 16, 0), (0, 0)):
        met.add(begins_as_converted(Call(example, 64), room, words))
    for call in (Call(example, text=b"x" * 4097), Call(example, unit=12), Call(example, types=b"\0"), Call(example, 0, unit=12), Call(b"")):
        met.add(begins_as_converted(call, 1 << 16, LIST))
    lent = words_of([WORK, WORK, WORK - 1, WORK, 3, 3], 5)
    b = Call(example).begin(1 << 16, LIST, lent)
    expect(b.outcome.number == 1 and all(set(w) == {5} for w in lent[:4]) and not any(any(w) for w in lent[4:]), "a short slice")
    expect({1, 2, 4, 5, 20, 21, 26, 27} <= met, met)
    return "refusals " + ", ".join(map(str, sorted(met - {0})))


@test
@alone
def files_of_the_length_begun_with():
    """Beginning is told lengths alone: a file that is as long as it said is lent later."""
    call = Call(read(EXAMPLE), 64)
    whole, words = call.made()[1:]
    live = Live(call, bytearray(len(whole)), list_words=len(words), begin_with=len(whole))
    live.advance(MOST)
    expect(bytes(live.file) == whole and list(live.list) == words, "just long enough")
    for out, list_words, number in ((len(whole) - 1, 1, 20), (len(whole), 0, 21)):
        answer = call.begin(out, list_words, words_of(lengths_of())).outcome
        expect((answer.number, answer.place) == (number, {20: len(whole), 21: len(words)}[number]), answer)


# ---- whatever stands in state and words


def changed_run(before, after):
    """First and last byte that differ."""
    n = len(before)
    apart = (int.from_bytes(before, "little") ^ int.from_bytes(after, "little")).to_bytes(n, "little")
    return n - len(apart.lstrip(b"\0")), len(apart.rstrip(b"\0"))


def any_number():
    r = Run.random
    borders = (0, 1, 2, 7, 8, 63, 64, 511, 512, 2047, 2048, 4095, 4096, 8191, 1 << 32, 1 << 62, MOST - 1, MOST)
    return r.choice((*borders, r.randrange(20), r.randrange(1 << 14), r.getrandbits(64)))


def spoiled(state):
    """Some of its numbers are others."""
    state = state.copy()
    for name, _ in Run.random.sample(State._fields_, Run.random.choice((1, 1, 2, 5, len(State._fields_)))):
        setattr(state, name, any_number() if name not in ("share", "photos") else Run.random.random() < 0.5)
    return state


def spoil_words(words):
    for w in words:
        for _ in range(Run.random.choice((0, 0, 1, 3, 50)) if len(w) else 0):
            w[Run.random.randrange(min(len(w), Run.random.choice((10, 100, 5000, len(w)))))] = any_number()
        if Run.random.random() < 0.05:
            w[:] = [any_number()] * len(w)


@test
@alone
def any_state_and_any_words():
    """The step returns, at most one run of 4,096 bytes changed, the list only by a last step, nothing beside the slices; --long sets how many."""
    calls, told = [c for c in small() if c.size() < 40000], 0
    for _ in range(Run.loops(1500)):
        call, r = Run.random.choice(calls), Run.random
        size, guard = call.size(), 64
        file = bytearray(r.randbytes(r.choice((size, size, size + 9, r.randrange(size), 8, 0)) + 2 * guard))
        live = Live(call, bytearray(size), lengths_of(r.choice((0, 7, STRETCHES)), r.choice((0, 9, OFFSETS, 5000))), list_words=LIST)
        live.advance(r.randrange(live.left()))
        if r.random() < 0.7:
            live.state = spoiled(live.state)
        if r.random() < 0.5:
            spoil_words(live.words)
        if r.random() < 0.2:
            live.words = [w if r.random() < 0.7 else words_of([r.choice((0, 1, 100, 8191))])[0] for w in live.words]
        if r.random() < 0.2:
            live.call = Call(damaged(call.image), call.block_size, types=call.types, text=b"other" * r.randrange(3))
        list_ = words_of([r.choice((LIST, 1, 0))])[0]
        before, words = bytes(file), list(list_)
        inner = (ctypes.c_char * (len(file) - 2 * guard)).from_buffer(file, guard)
        state = library().sitaungo_step(live.state, *live.call.same(), *slices(live.words), inner, len(inner), *slices([list_]))
        del inner
        first, last = changed_run(before, file)
        expect(last <= first or (last - first <= PAGE and guard <= first and last <= len(file) - guard), "changed from", first, "to", last)
        due = live.state.copy()
        due.next += live.state.next < live.state.steps
        expect(state == due, "the state", state, "and not", due)
        expect(list(list_) == words or live.state.next + 1 == live.state.steps, "the list before the last step")
        if state.next == state.steps != live.state.next:
            expect(live.zero(), "words after a last step")
        library().sitaungo_name(live.state, any_number()), library().sitaungo_recall(live.state, any_number())
        expect(library().sitaungo_left(live.state) == max(live.state.steps - live.state.next, 0), "what is left")
        told += last > first
    return "%d of them stored" % told


# ---- stack and time


def deep_metadata():
    """A channel's conversion and an attachment's comment, each the first of 65 blocks that link to one another."""
    w, last = Writer(Run.random), []
    for kind in (b"CC", b"SI"):
        at = 0
        for _ in range(65):
            at = w.add(kind, [at], bytes(24))
        last.append(at)
    cg = w.add(b"CG", [0, w.named(0, (0, 8, None), [(4, last[0])]), 0, 0, 0, 0], struct.pack("<QQHHIII", 0, 5, 0, 0, 0, 8, 0))
    attachment = w.add(b"AT", [0, 0, 0, last[1]], bytes(40))
    return w.finish(w.add(b"DG", [0, cg, w.add(b"DT", [], bytes(40)), 0], bytes(8)), attachments=attachment)


@test
def stack_of_every_call():
    """The header has what was measured, and asks for 256 KiB; copying goes deepest with 65 blocks of which each links to the next."""
    program = place("stack")
    cc(os.path.join(ROOT, "host", "tests", "stack.c"), LIBRARY, "-pthread", "-o", program)
    images = ("long", long_blocks()), ("deep", deep_metadata()), ("unsorted", mixed(*UNSORTED)), ("regular", mixed(Mixed((9,) * 100, 3000)))
    made = [place(write(name, image)) for name, image in images]
    data = [os.path.join(DATA, name) for name in ("metadata", "reasons", "signal-fragments")]
    told = subprocess.run([program, SAMPLE, EXAMPLE, *data, *made], check=True, stdout=subprocess.PIPE).stdout.decode().strip()
    with open(os.path.join(ROOT, "include", "sitaungo.h")) as f:
        named = [int(n.replace(",", "")) for n in re.findall(r"[0-9]+,[0-9]+", next(line for line in f if "stack left" in line))]
    taken = [int(n) for n in re.findall("[0-9]+", told)]
    expect(len(named) == len(taken) and all(t <= n <= 200 << 10 for t, n in zip(taken, named)), told, "and not", named)
    return told


@test
@alone
def time_of_all_steps():
    """Beside one go; the benchmark has bounds, this one finds steps that begin at the front each time."""
    call = Call(read(MEDIUM.path))
    best = [None, None]
    whole = call.made()[1]
    for _ in range(3):
        out, list_ = bytearray(len(whole)), words_of([LIST])[0]
        begun = time.thread_time()
        expect(call.into(out, list_).accepted, "refused")
        middle = time.thread_time()
        live = Live(call, bytearray(len(whole)))
        live.advance(MOST)
        ended = time.thread_time()
        expect(bytes(live.file) == whole, "another file")
        best = [min(b or 1e9, s) for b, s in zip(best, (middle - begun, ended - middle))]
    expect(best[1] < 5 * best[0] + 0.05, best)
    return "%.0f ms, in one go %.0f ms" % (1000 * best[1], 1000 * best[0])
