#!/usr/bin/env python3
"""model.py [--station] [--bytes|--fates] <CALL_FILE: the definitions of crates/definition/specs in Python, function by function and under the same names,
with a mark for each branch. Prints what a run of the file prints, with --bytes also the bytes held after each call, with --fates instead what `blockfates`
prints. With --station it is a station's call file, and the definitions of crates/definition_station/specs are there too; --bytes is of all
destinations then, and --fates prints the report on a station (docs/BLOCKS.md). No proof covers it: it shows which branches a call file reaches (see
`reach`), and it can be the reference of `run` where there is no other."""
import struct
import sys
from dataclasses import dataclass, field, replace

WORD = 1 << 64
DONE = set()  # the branches reached so far


def hit(definition, branch):
    DONE.add((definition, branch))


def pick(definition, test, yes, no):
    """`if test then .. else ..`: marks the branch, answers the test."""
    hit(definition, yes if test else no)
    return test


def each(definition, items):
    """The items of a list, with marks for its two clauses."""
    for x in items:
        hit(definition, "∷")
        yield x
    hit(definition, "[]")


# ---- Types


@dataclass(frozen=True)
class Entry:
    seq: int
    expiration: int
    persistent: bool
    producer: int
    match_word: int
    redelivery: int
    size: int


@dataclass(frozen=True)
class Inflight:
    dseq: int
    entry: Entry
    freed: bool = False
    tx: bool = False


@dataclass(frozen=True)
class Sub:
    id: tuple
    prefetch: int
    selector: int
    no_local: bool
    browser: object  # None, or the snapshot
    finished: bool = False
    inflight: tuple = ()
    freed: int = 0
    next_dseq: int = 1
    cursor: int = 0
    pull: object = None
    generation: int = 0
    tpending: tuple = ()


@dataclass
class Dest:
    kind: str = "queue"
    topic_limit: int = 0
    call_limit: int = 0
    calls_used: int = 0
    allowance: int = 0
    share: int = 0
    pending: tuple = ()
    subs: tuple = ()
    rr: int = 0
    producers: tuple = ()
    audits: tuple = ()  # (producer, order)
    stats: dict = field(default_factory=lambda: dict.fromkeys(("enqueued", "dequeued", "expired", "discarded", "dispatched"), 0))
    idle: object = None
    reserved: tuple = ()  # (holder, entry)

    def count(self, name, k):
        self.stats[name] += k


@dataclass(frozen=True)
class Ack:
    type: int
    transacted: bool
    first: object
    last: object
    cause: bool


ACK_TYPES = ("Delivered", "Poison", "Standard", "Redelivered", "Individual", "Unmatched", "Expired")


# ---- Consumer


def expired(now, e):
    return 0 < e.expiration <= now


def one_more(r):
    return r + 1 if pick("one_more", r < 2147483647, "rises", "stays") else r


def redelivered(e):
    return replace(e, redelivery=one_more(e.redelivery))


def selects(word, s):
    return bool(word >> s & 1) if pick("selects", s < 64, "a selector", "none") else True


def ack_type(k):
    name = ACK_TYPES[k] if k < len(ACK_TYPES) else "Other"
    hit("ack_type", name)
    return name


def window(s):
    return len(s.inflight) - s.freed


def shown(browser):
    return browser if pick("shown", browser is not None, "some", "none") else ()


def is_browser(s):
    return s.browser is not None


def has_credit(s):
    if pick("has_credit", s.prefetch == 0, "prefetch 0", "prefetch above 0"):
        return s.pull is not None
    return window(s) < s.prefetch


def accepts(s, e):
    if pick("accepts", s.no_local and e.producer != 0 and e.producer == s.id[0], "stopped by no local", "by the selector"):
        return False
    return selects(e.match_word, s.selector)


def send(e, s):
    return replace(s, next_dseq=s.next_dseq + 1, inflight=s.inflight + (Inflight(s.next_dseq, e),), pull=None)


def sent(s, e):
    return ("d",) + s.id + (e.seq, e.redelivery)


def by_seq(s, q):
    if pick("by_seq", q is None, "none", "some"):
        return None
    found = next((i.dseq for i in s.inflight if i.entry.seq == q), None)
    pick("dseq_of", found is None, "none", "some")
    return found


def or0(first):
    return 0 if pick("or0", first is None, "none", "some") else first


def ack_range(s, a, cumulative):
    first = None if pick("ack_range", cumulative, "cumulative", "from the first number") else by_seq(s, a.first)
    last = by_seq(s, a.last)
    if pick("ranged", last is None, "none", "some"):
        return lambda i: False
    start = min(or0(first), last)
    return lambda i: start <= i.dseq <= last


def ack_last(s, a):
    k = by_seq(s, a.last)
    pick("is_dseq", k is None, "none", "some")
    return lambda i: i.dseq == k


def free(test, tx, s):
    def freed_as(i):
        return replace(i, freed=True, tx=tx or i.tx) if pick("freed_as", test(i), "passes", "as it was") else i

    more = sum(test(i) and not i.freed for i in s.inflight)
    return replace(s, inflight=tuple(map(freed_as, s.inflight)), freed=s.freed + more)


def remove_inflight(test, s):
    fewer = sum(test(i) and i.freed for i in s.inflight)
    return replace(s, inflight=tuple(i for i in s.inflight if not test(i)), freed=s.freed - fewer)


def redeliver(test, s):
    def bumped(i):
        return replace(i, entry=redelivered(i.entry)) if pick("bumped", test(i), "passes", "as it was") else i

    return replace(s, inflight=tuple(map(bumped, s.inflight)))


def dead_letters(cause, flights):
    return [
        ("x", i.entry.seq, i.entry.redelivery, int(cause))
        for i in flights
        if pick("dead_letters", i.entry.persistent, "persistent", "not persistent")
    ]


def unless_browser(s, k):
    return 0 if pick("unless_browser", is_browser(s), "browser", "counted") else k


def ack_transacted(a, s, kind):
    hit("ack_transacted", kind)
    test = ack_last(s, a) if kind == "Individual" else ack_range(s, a, kind in ("Standard", "Unmatched"))
    return free(test, kind != "Delivered", s)


def took(test, name, s, t):
    t.count(name, unless_browser(s, sum(map(test, s.inflight))))
    return remove_inflight(test, s), []


def ack_plain(a, s, kind, t):
    hit("ack_plain", kind)
    if kind == "Delivered":
        return free(ack_range(s, a, False), False, s), []
    if kind in ("Standard", "Unmatched"):
        return took(ack_range(s, a, True), "dequeued", s, t)
    if kind == "Individual":
        return took(ack_last(s, a), "dequeued", s, t)
    if kind == "Poison":
        test = ack_range(s, a, False)
        t.count("discarded", unless_browser(s, sum(test(i) and not i.entry.persistent for i in s.inflight)))
        if pick("ack_plain Poison", is_browser(s), "browser", "letters"):
            return remove_inflight(test, s), []
        return remove_inflight(test, s), dead_letters(a.cause, [i for i in s.inflight if test(i)])
    if kind == "Redelivered":
        return redeliver(ack_range(s, a, False), s), []
    if kind == "Expired":
        return took(ack_range(s, a, False), "expired", s, t)
    return s, []


def ack_sub(a, s, t):
    if pick("ack_sub", a.transacted, "transacted", "untransacted"):
        return ack_transacted(a, s, ack_type(a.type)), []
    return ack_plain(a, s, ack_type(a.type), t)


def serve_topic(now, s, t, events):
    while True:
        if not pick("drain_topic", bool(s.tpending), "an entry", "empty"):
            return s
        if not pick("drain_topic", has_credit(s), "credit", "no credit"):
            return s
        e, s = s.tpending[0], replace(s, tpending=s.tpending[1:])
        if pick("meet_topic", expired(now, e), "expired", "sent"):
            t.count("expired", 1)
        else:
            t.count("dispatched", 1)
            events.append(sent(s, e))
            s = send(e, s)


def meet_browser(now, e, s, t, events):
    s = replace(s, browser=s.browser[1:])
    if pick("meet_browser", expired(now, e), "expired", "sent"):
        kept = tuple(f for f in t.pending if f.seq != e.seq)
        t.count("expired", len(t.pending) - len(kept))
        pick("meet_browser expired", len(kept) < len(t.pending), "it still waits", "it is gone")
        t.pending = kept
        return s
    events.append(sent(s, e))
    return send(e, s)


def close_browser(s, events):
    if pick("close_browser", s.finished, "finished", "closing null"):
        return s
    events.append(("n",) + s.id)
    return replace(s, finished=True, pull=None)


def dispatch_browser(now, s, t, events):
    while pick("drain_browser", bool(s.browser), "an entry", "empty"):
        if not pick("drain_browser an entry", has_credit(s), "credit", "no credit"):
            return s
        s = meet_browser(now, s.browser[0], s, t, events)
    return close_browser(s, events) if pick("drain_browser empty", has_credit(s), "credit", "no credit") else s


# ---- Destination


def sub_of(i, t):
    return next((s for s in t.subs if s.id == i), None)


def put_sub(i, s, t):
    t.subs = tuple(s if r.id == i else r for r in t.subs)


def insert(e, entries):
    for k, f in enumerate(entries):
        if pick("insert", e.seq < f.seq, "before", "not before"):
            return entries[:k] + (e,) + entries[k:]
        if pick("insert", e.seq == f.seq, "in its place", "further on"):
            return entries[:k] + (e,) + entries[k + 1 :]
    hit("insert", "last")
    return entries + (e,)


def look(now, s, entries):
    """What still waits, what is chosen, the cursor, how many have expired."""
    cursor, gone, kept = s.cursor, 0, []
    for k, e in enumerate(entries):
        if pick("look", e.seq <= s.cursor, "before the cursor", "after the cursor"):
            kept.append(e)
        elif pick("look", expired(now, e), "expired", "live"):
            gone += 1
        elif pick("look", accepts(s, e), "accepted", "refused"):
            return tuple(kept) + entries[k + 1 :], e, e.seq, gone
        else:
            kept.append(e)
            cursor = e.seq
    hit("look", "the end")
    return tuple(kept), None, cursor, gone


def visit(now, i, t, events):
    """Whether the consumer at i took an entry."""
    if not pick("visit_at", i < len(t.subs), "some", "none"):
        return False
    s = t.subs[i]
    if pick("visit_at some", is_browser(s) or not has_credit(s), "browser or no credit", "looks"):
        return False
    t.pending, e, cursor, gone = look(now, s, t.pending)
    t.count("expired", gone)
    s = replace(s, cursor=cursor)
    if pick("given", e is None, "none", "some"):
        t.subs = t.subs[:i] + (s,) + t.subs[i + 1 :]
        return False
    t.subs = t.subs[:i] + (send(e, s),) + t.subs[i + 1 :]
    t.count("dispatched", 1)
    t.rr = (i + 1) % len(t.subs)
    events.append(sent(s, e))
    return True


def scan(now, t, events):
    n = len(t.subs)
    for k in range(t.rr, t.rr + n):
        if pick("scan", visit(now, k % n, t, events), "took", "later"):
            return True
    hit("scan", "the end")
    return False


def rounds(now, t, events):
    for _ in range(len(t.pending) + 1):
        took_one = scan(now, t, events)
        if pick("rounds", not took_one or not t.pending, "ends", "again"):
            return
    hit("rounds", "no fuel")


def dispatch_queue(now, t):
    events = []
    if pick("dispatch_queue", not t.subs, "no consumers", "consumers"):
        return events
    for k in range(len(t.subs)):
        if pick("browsers", is_browser(t.subs[k]), "browser", "no browser"):
            t.subs = t.subs[:k] + (dispatch_browser(now, t.subs[k], t, events),) + t.subs[k + 1 :]
    rounds(now, t, events)
    return events


def dispatch_topic(now, t):
    events = []
    t.subs = tuple([serve_topic(now, s, t, events) for s in each("serve_all", t.subs)])
    return events


def due(now, t):
    """The clock that entries expire by."""
    return max(0, now - t.allowance)


def dispatch(now, t):
    by = due(now, t)
    return dispatch_queue(by, t) if pick("dispatch_by", t.kind == "queue", "queue", "topic") else dispatch_topic(by, t)


def touch_idle(now, t):
    if pick("touch_idle", not t.pending and not t.subs and not t.producers, "unused", "in use"):
        t.idle = now if pick("idle_mark", t.idle is None, "none", "some") else t.idle
    else:
        t.idle = None


def hold_back(seq, s):
    return replace(s, cursor=min(s.cursor, seq - 1))


def trim(now, limit, entries, t):
    if pick("trim limit", limit == 0, "off", "set"):
        return entries
    if pick("trim", len(entries) <= limit, "within", "over"):
        return entries
    live = tuple(e for e in entries if not expired(now, e))
    pick("trim over", len(live) < len(entries), "some have expired", "all live")
    t.count("expired", len(entries) - len(live))
    over = max(0, len(live) - limit)
    pick("trim live", over > 0, "discards", "none")
    t.count("discarded", over)
    return live[over:]


def fan_out(now, limit, e, s, t):
    if not pick("fan_out", accepts(s, e), "accepted", "refused"):
        return s
    return replace(s, tpending=trim(now, limit, insert(e, s.tpending), t))


def enqueue(now, e, t):
    t.count("enqueued", 1)
    if pick("enqueue_by", t.kind == "queue", "queue", "topic"):
        t.subs = tuple(hold_back(e.seq, s) for s in t.subs)
        t.pending = insert(e, t.pending)
        t.idle = None
        return dispatch_queue(due(now, t), t)
    t.subs = tuple([fan_out(due(now, t), t.topic_limit, e, s, t) for s in each("fan_out_all", t.subs)])
    return dispatch_topic(due(now, t), t)


def room(prefetch):
    return prefetch if pick("room", prefetch >= 0, "from 0", "below 0") else 0


def add_sub(now, p, t):
    s = Sub(p["id"], room(p["prefetch"]), p["selector"], p["no_local"], None)
    if pick("joined", p["browser"], "browser", "no browser"):
        live = tuple(e for e in t.pending if not expired(due(now, t), e))
        t.count("expired", len(t.pending) - len(live))
        t.pending = live
        s = replace(s, browser=tuple(e for e in live if selects(e.match_word, s.selector)))
    t.subs += (s,)
    t.idle = None
    return dispatch(now, t)


def set_prefetch(now, i, p, t):
    s = sub_of(i, t)
    if pick("prefetch_at", s is not None, "some", "none"):
        put_sub(i, replace(s, prefetch=room(p)), t)
    return dispatch(now, t)


def hold_back_all(entries, s):
    for e in each("hold_back_all", entries):
        s = hold_back(e.seq, s)
    return s


def reinsert(now, entries, t):
    live = [e for e in entries if not expired(due(now, t), e)]
    pick("reinsert", len(live) < len(entries), "some have expired", "all live")
    t.count("expired", len(entries) - len(live))
    for e in each("insert_all", live):
        t.pending = insert(e, t.pending)
    t.subs = tuple(hold_back_all(live, s) for s in t.subs)


def reserved_of(i, t):
    return [e for holder, e in t.reserved if holder == i]


def reserved_hit(first, last, e, kind):
    hit("reserved_hit", kind)
    if kind in ("Standard", "Unmatched"):
        return e.seq <= last
    if kind == "Individual":
        return e.seq == last
    if kind in ("Poison", "Expired"):
        return e.seq <= last and (True if pick("at_least", first is None, "none", "some") else first <= e.seq)
    return False


def reserved_counts(taken, kind, t):
    hit("reserved_counts", kind)
    if kind == "Poison":
        t.count("discarded", sum(not e.persistent for e in taken))
    else:
        t.count("expired" if kind == "Expired" else "dequeued", len(taken))


def letters(taken):
    return [("x", e.seq, e.redelivery, 0) for e in taken if pick("letters", e.persistent, "persistent", "not persistent")]


def ack_reserved(i, a, t):
    if pick("ack_reserved", a.last is None, "none", "some"):
        return []
    kind = ack_type(a.type)
    taken = [e for e in reserved_of(i, t) if reserved_hit(a.first, a.last, e, kind)]
    t.reserved = tuple((h, e) for h, e in t.reserved if not (h == i and e in taken))
    reserved_counts(taken, kind, t)
    hit("reserved_events", kind)
    return letters(taken) if kind == "Poison" else []


def ack(now, i, a, t):
    s = sub_of(i, t)
    if pick("ack_at", s is None, "none", "some"):
        if pick("ack_at none", a.transacted or not reserved_of(i, t), "ignored", "reserved"):
            return []
        first = ack_reserved(i, a, t)
    else:
        s, first = ack_sub(a, s, t)
        put_sub(i, s, t)
    touch_idle(now, t)
    return first + dispatch(now, t)


def pull(now, i, timeout, t):
    s = sub_of(i, t)
    if pick("pull_at", s is None, "none", "some"):
        return 0, []
    if pick("pull_at some", s.prefetch > 0, "prefetch above 0", "prefetch 0"):
        return 0, []
    put_sub(i, replace(s, pull=s.generation + 1, generation=s.generation + 1), t)
    events = dispatch(now, t)
    s = sub_of(i, t)
    if pick("resumed", s is None, "none", "some"):
        return 0, events
    if pick("pulled", s.pull is None, "none", "some"):
        return 0, events
    if pick("pulled", timeout < 0, "below 0", "not below 0"):
        put_sub(i, replace(s, pull=None), t)
        return 0, events + [("n",) + s.id]
    return (s.pull if pick("pulled", timeout > 0, "above 0", "0") else 0), events


def pull_timeout(i, generation, t):
    s = sub_of(i, t)
    if pick("timeout_at", s is None, "none", "some"):
        return []
    if pick("fired", s.pull is None, "none", "some"):
        return []
    if not pick("fired some", s.pull == generation, "this pull", "another"):
        return []
    put_sub(i, replace(s, pull=None), t)
    return [("n",) + s.id]


def was_delivered(last, e):
    return True if pick("was_delivered", last < 0, "below 0", "from 0") else e.seq <= last


def returned_from(last, flights):
    found = []
    for i in flights:
        if not pick("returned_from", i.tx, "marked", "returns"):
            found.append(redelivered(i.entry) if pick("returned_from returns", was_delivered(last, i.entry), "delivered", "not delivered") else i.entry)
    return found


def reserved_from(holder, flights):
    return tuple((holder, i.entry) for i in flights if pick("reserved_from", i.tx, "marked", "returns"))


def returning(now, s, last, t):
    if pick("returning", t.kind == "topic", "topic", "queue"):
        return
    if pick("returning queue", is_browser(s), "browser", "no browser"):
        return
    t.reserved += reserved_from(s.id, s.inflight)
    reinsert(now, returned_from(last, s.inflight), t)


def without(i, subs):
    for k, s in enumerate(subs):
        if pick("without", s.id == i, "this one", "another"):
            return subs[:k] + subs[k + 1 :]
    hit("without", "[]")
    return subs


def remove_sub(now, i, last, t):
    s = sub_of(i, t)
    if pick("remove_at", s is None, "none", "some"):
        return 0, []
    t.subs = without(i, t.subs)
    t.rr = 0 if pick("drop_sub", len(t.subs) <= t.rr, "turn 0", "turn stays") else t.rr
    returning(now, s, last, t)
    touch_idle(now, t)
    return 1, dispatch(now, t)


def unmarked(i, t):
    s = sub_of(i, t)
    if pick("unmarked", s is not None, "present", "absent"):
        put_sub(i, replace(s, inflight=tuple(replace(f, tx=False) for f in s.inflight)), t)
    return 0, []


def return_reserved(now, i, t):
    held = reserved_of(i, t)
    if pick("return_reserved", not held, "none reserved", "returned"):
        return []
    t.reserved = tuple((h, e) for h, e in t.reserved if h != i)
    reinsert(now, [redelivered(e) for e in held], t)
    return dispatch(now, t)


def sooner(e, f):
    if pick("sooner", f is None, "none", "some"):
        return e
    return e if pick("sooner some", (e.expiration, e.seq) < (f.expiration, f.seq), "this one", "the other") else f


def soonest(now, entries):
    found = None
    for e in reversed(entries):
        if pick("soonest", expired(now, e), "expired", "live"):
            found = sooner(e, found)
    return found


def sweep_list(budget, now, entries):
    gone = 0
    while pick("sweep_list", gone < budget, "budget", "no budget"):
        e = soonest(now, entries)
        if pick("sweep_at", e is None, "none", "some"):
            break
        entries = tuple(f for f in entries if f.seq != e.seq)
        gone += 1
    return entries, gone


def sweep_expired(now, most, t):
    t.pending, gone = sweep_list(most, due(now, t), t.pending)
    swept = []
    for s in each("sweep_subs", t.subs):
        left, more = sweep_list(most - gone, due(now, t), s.tpending)
        gone += more
        swept.append(replace(s, tpending=left))
    t.subs = tuple(swept)
    t.count("expired", gone)
    if pick("sweep_expired", gone > 0, "some", "none"):
        touch_idle(now, t)
    return gone, []


def clear(t):
    total = len(t.pending) + len(t.reserved) + sum(len(s.inflight) + len(s.tpending) for s in each("held_rows", t.subs))
    t.pending = t.reserved = ()
    for s in t.subs:
        pick("emptied", s.browser is None, "none", "some")
    t.subs = tuple(replace(s, inflight=(), freed=0, tpending=(), browser=s.browser and ()) for s in t.subs)
    return total, []


def is_producer(i, producers):
    return any(i == j for j in each("is_producer", producers))


def add_producer(i, t):
    if not pick("add_producer", is_producer(i, t.producers), "registered", "new"):
        t.producers += (i,)
    t.idle = None
    return 0, []


def remove_producer(now, i, t):
    t.audits = tuple(a for a in t.audits if a[0] != i)
    t.producers = tuple(j for j in t.producers if j != i)
    touch_idle(now, t)
    return 0, []


def is_duplicate(i, q, t):
    order = dict(t.audits).get(i)
    if pick("test_at", order is None, "none", "some"):
        t.audits += ((i, (q,)),)
        return 0, []
    if pick("test_at some", q in order, "seen", "new"):
        return 1, []
    order += (q,)
    order = order[1:] if pick("recorded", len(order) > 1024, "evicts", "has room") else order
    t.audits = tuple((j, order if j == i else o) for j, o in t.audits)
    return 0, []


def release_audits(conn, t):
    t.audits = tuple(a for a in t.audits if a[0][0] != conn)
    return 0, []


# ---- Calls


def signed_within(half, n):
    return n < half if pick("signed_within", n >= 0, "pos", "negsuc") else -n <= half


def clock_ok(now):
    return now <= 1 << 62


def optional(test, k):
    return True if pick("optional", k is None, "none", "some") else test(k)


def entry_ok(e):
    return 1 <= e.seq < 1 << 63 and signed_within(1 << 31, e.redelivery) and e.size < 1 << 32


def spec_ok(p):
    return signed_within(1 << 31, p["prefetch"]) and p["selector"] <= 64


def rows_of(s):
    return [i.entry for i in s.inflight] + list(s.tpending) + list(shown(s.browser))


def distinct(numbers):
    return len(set(numbers)) == len(numbers)


def ascending(numbers):
    return all(a < b for a, b in zip(numbers, numbers[1:]))


def seqs(entries):
    return [e.seq for e in entries]


def sub_placed(s, kind):
    return not s.tpending if pick("sub_placed", kind == "queue", "queue", "topic") else not shown(s.browser)


def sub_sound(kind, used, s):
    most = 65536 * used + 1
    return (
        s.prefetch < 1 << 31
        and s.selector <= 64
        and all(map(entry_ok, rows_of(s)))
        and s.cursor < 1 << 63
        and distinct(seqs(rows_of(s)))
        and s.freed == sum(i.freed for i in s.inflight)
        and ascending([i.dseq for i in s.inflight] + [s.next_dseq])
        and ascending(seqs(s.tpending))
        and s.next_dseq <= most
        and s.generation <= most
        and optional(lambda g: g <= most, s.pull)
        and sub_placed(s, kind)
    )


def taken(subs):
    return [i.entry for s in each("taken", subs) if not pick("taken", is_browser(s), "browser", "no browser") for i in s.inflight]


def placed(t):
    if pick("placed", t.kind == "queue", "queue", "topic"):
        return distinct(seqs(list(t.pending) + [e for _, e in t.reserved] + taken(t.subs)))
    return not t.pending and not t.reserved


def all_rows(t):
    return list(t.pending) + [e for _, e in t.reserved] + [e for s in each("consumer_rows", t.subs) for e in rows_of(s)]


def own_rows(t):
    if pick("own_rows", t.kind == "queue", "queue", "topic"):
        return list(t.pending) + [e for _, e in t.reserved] + taken(t.subs)
    return all_rows(t)


def rows_from(c, rows):
    return sum(e.producer == c for e in rows)


def within_share(share, rows):
    return all(rows_from(c, rows) <= share for c in {e.producer for e in rows})


def over_share(e, t):
    return t.share < 512 and t.share < rows_from(e.producer, own_rows(t)) + rows_for(e, t)


def sizes_agree(rows):
    sizes = {}
    return all(sizes.setdefault(e.seq, e.size) == e.size for e in each("sizes_agree", rows))


def sound(t):
    most = 65536 * t.calls_used + 1
    return (
        1 <= t.call_limit <= 1 << 40
        and t.calls_used <= t.call_limit
        and t.topic_limit <= 512
        and len(t.subs) <= 32
        and len(t.producers) <= 32
        and len(all_rows(t)) <= 512
        and all(map(entry_ok, list(t.pending) + [e for _, e in t.reserved]))
        and ascending(seqs(t.pending))
        and all(sub_sound(t.kind, t.calls_used, s) for s in t.subs)
        and distinct([s.id for s in each("distinct_ids", t.subs)])
        and placed(t)
        and (t.rr < len(t.subs) or t.rr == 0)
        and max(t.stats.values()) <= most
        and optional(clock_ok, t.idle)
        and t.allowance <= 86400000
        and len(t.audits) <= 8
        and all(len(order) <= 1024 for _, order in t.audits)
        and sizes_agree(all_rows(t))
        and 1 <= t.share <= 512
        and within_share(t.share, own_rows(t))
    )


def rows_for(e, t):
    return 1 if pick("rows_for", t.kind == "queue", "queue", "topic") else sum(accepts(s, e) for s in t.subs)


def snapshot_rows(now, p, t):
    if not pick("snapshot_rows", p["browser"], "browser", "no browser"):
        return 0
    return sum(not expired(due(now, t), e) and selects(e.match_word, p["selector"]) for e in t.pending)


def own_refusal(code, ws, t):
    where, rows = "own_refusal " + ("asking" if CALLS[code].asks else CALLS[code].name), all_rows(t)
    if code == 1:
        if pick(where, ws[0] in seqs(rows), "4", "not 4"):
            return 4
        if pick(where, over_share(entry_of(ws), t), "14", "not 14"):
            return 14
        return 5 if pick(where, 512 - len(rows) < rows_for(entry_of(ws), t), "5", "0") else 0
    if code == 2:
        if pick(where, sub_of(ident(ws), t) is not None, "6", "not 6"):
            return 6
        if pick(where, len(t.subs) >= 32, "7", "not 7"):
            return 7
        return 5 if pick(where, 512 - len(rows) < snapshot_rows(ws[6], spec_of(ws), t), "5", "0") else 0
    if code == 11:
        return 8 if pick(where, not is_producer(ident(ws), t.producers) and len(t.producers) >= 32, "8", "0") else 0
    if code == 13:
        return 8 if pick(where, ws[0] != 0 and ident(ws) not in dict(t.audits) and len(t.audits) >= 8, "8", "0") else 0
    hit(where, "0")
    return 0


def testing(w, t):
    if pick("perform testing", w[0] == 0, "connection 0", "a producer"):
        return 0, []
    return is_duplicate(ident(w), w[3], t)


# ---- Words


def signed(w):
    return w - WORD if w >= WORD // 2 else w


def ident(ws):
    return ws[0], signed(ws[1]), signed(ws[2])


def unused_from(k, ws):
    return not any(ws[k:])


def present(flag, word):
    return word if pick("present", flag, "some", "none") else None


def ack_of(ws):
    flags = ws[3]
    return Ack(flags % 256, bool(flags >> 8 & 1), present(flags >> 9 & 1, ws[4]), present(flags >> 10 & 1, ws[5]), bool(flags >> 11 & 1))


def ack_words(ws):
    return ws[3] < 4096 and bool(ws[3] >> 9 & 1 or ws[4] == 0) and bool(ws[3] >> 10 & 1 or ws[5] == 0) and unused_from(7, ws)


def entry_of(ws):
    return Entry(ws[0], signed(ws[1]), ws[2] == 1, ws[3], ws[4], signed(ws[5]), ws[7])


def spec_of(ws):
    return dict(id=ident(ws), prefetch=signed(ws[3]), selector=ws[4], no_local=bool(ws[5] & 1), browser=bool(ws[5] >> 1 & 1))


@dataclass(frozen=True)
class Call:
    name: str  # its name in the definitions
    asks: bool  # whether it is a request
    right: object  # whether the words are right
    in_range: object
    perform: object


CALLS = {
    1: Call("enqueuing", False, lambda w: w[2] <= 1 and unused_from(8, w), lambda w: entry_ok(entry_of(w)) and clock_ok(w[6]),
            lambda w, t: (0, enqueue(w[6], entry_of(w), t))),
    2: Call("joining", False, lambda w: w[5] <= 3 and unused_from(7, w), lambda w: spec_ok(spec_of(w)) and clock_ok(w[6]),
            lambda w, t: (0, add_sub(w[6], spec_of(w), t))),
    3: Call("leaving", False, lambda w: unused_from(5, w), lambda w: clock_ok(w[4]),
            lambda w, t: remove_sub(w[4], ident(w), signed(w[3]), t)),
    4: Call("acknowledge", True, ack_words, lambda w: clock_ok(w[6]), lambda w, t: (0, ack(w[6], ident(w), ack_of(w), t))),
    5: Call("pulling", True, lambda w: unused_from(5, w), lambda w: clock_ok(w[4]), lambda w, t: pull(w[4], ident(w), signed(w[3]), t)),
    6: Call("timed_out", True, lambda w: unused_from(4, w), lambda w: True, lambda w, t: (0, pull_timeout(ident(w), w[3], t))),
    7: Call("prefetching", True, lambda w: unused_from(5, w), lambda w: signed_within(1 << 31, signed(w[3])) and clock_ok(w[4]),
            lambda w, t: (0, set_prefetch(w[4], ident(w), signed(w[3]), t))),
    8: Call("unmarking", False, lambda w: unused_from(3, w), lambda w: True, lambda w, t: unmarked(ident(w), t)),
    9: Call("sweeping", False, lambda w: unused_from(2, w), lambda w: clock_ok(w[0]) and w[1] <= 512, lambda w, t: sweep_expired(w[0], w[1], t)),
    10: Call("clearing", False, lambda w: unused_from(0, w), lambda w: True, lambda w, t: clear(t)),
    11: Call("adding", False, lambda w: unused_from(3, w), lambda w: True, lambda w, t: add_producer(ident(w), t)),
    12: Call("removing", False, lambda w: unused_from(4, w), lambda w: clock_ok(w[3]), lambda w, t: remove_producer(w[3], ident(w), t)),
    13: Call("testing", False, lambda w: unused_from(4, w), lambda w: True, testing),
    14: Call("forgetting", False, lambda w: unused_from(1, w), lambda w: True, lambda w, t: release_audits(w[0], t)),
    15: Call("releasing", False, lambda w: unused_from(4, w), lambda w: clock_ok(w[3]), lambda w, t: (0, return_reserved(w[3], ident(w), t))),
}


def decode(code, ws):
    """The call, or None where these are no arguments."""
    call = CALLS.get(code)
    if call is None:
        hit("read", "none")
        hit("ranged_call", "none")
        return None
    hit("read", f"code {code}")
    if not pick(f"provided (code {code})", call.right(ws), "some", "none"):
        hit("ranged_call", "none")
        return None
    hit("ranged_call", "some")
    hit("arguments_ok", "asking" if call.asks else call.name)
    return call if pick(("request_ok " if call.asks else "arguments_ok ") + call.name, call.in_range(ws), "in range", "out of range") else None


def share_of(w):
    return 512 if pick("share_of", w == 0, "0", "above 0") else w


def open_words(ws):
    return ws[0] <= 1 and ws[1] <= 512 and 1 <= ws[2] <= 1 << 40 and clock_ok(ws[3]) and ws[4] <= 86400000 and 1 <= share_of(ws[5]) <= 512 and unused_from(6, ws)


def open_step(ws, t):
    if not pick("open_step", open_words(ws), "opened", "3"):
        return 3, 0, [], t
    kind = "queue" if pick("kind_by", ws[0] == 0, "true", "false") else "topic"
    return 0, 0, [], Dest(kind=kind, topic_limit=ws[1], call_limit=ws[2], idle=ws[3], allowance=ws[4], share=share_of(ws[5]))


def refusal(code, ws, t):
    if not pick("refusal", sound(t), "sound", "2"):
        return 2
    if pick("refusal", t.calls_used == t.call_limit, "9", "a call left"):
        return 9
    return own_refusal(code, ws, t)


def step(code, ws, t):
    """Refusal, answer, events and destination, on buffers that are long enough."""
    if pick("step", code == 0, "open", "a call"):
        return open_step(ws, t)
    call = decode(code, ws)
    if pick("call_step", call is None, "none", "some"):
        return (3 if pick("call_step none", sound(t), "3", "2") else 2), 0, [], t
    number = refusal(code, ws, t)
    if not pick("call", number == 0, "done", "refused"):
        return number, 0, [], t
    hit("perform", "asking" if call.asks else call.name)
    if call.asks:
        hit("ask", call.name)
    answer, events = call.perform(ws, t)
    t.calls_used += 1
    return 0, answer, events, t


# ---- Queries


def bytes_held(t):
    """Document 02 §3: each entry once, however many copies it has."""
    return sum({e.seq: e.size for e in all_rows(t)}.values())


# ---- the call file


def calls_of(block):
    """The calls of a block, or None where it cannot be read."""
    if len(block) < 512:
        return None
    count, check = struct.unpack_from("<II", block, 504)
    if not 1 <= count <= 7 or check != sum((k + 1) * block[k] for k in range(508)):
        return None
    return [struct.unpack_from("<9Q", block, 72 * k) for k in range(count)]


def steps(data):
    """Each call with its index and words, its refusal, answer and events, and the destination it leaves; for a bad block its number and nothing else."""
    t, index = Dest(), 0
    for k in range(0, len(data), 512):
        calls = calls_of(data[k : k + 512])
        if calls is None:
            yield k // 512, None, 0, 0, [], t
            return
        for words in calls:
            refusal, answer, events, t = step(words[0], words[1:], t)
            yield index, words, refusal, answer, events, t
            index += 1


def counters(t):
    return "= " + " ".join(str(t.stats[n]) for n in t.stats)


def run(data, held=False):
    """The lines that a run prints; with `held` also the bytes held after each call, once a destination is open."""
    lines, t = [], Dest()
    for index, words, refusal, answer, events, t in steps(data):
        if words is None:
            lines.append(f"b {index}")
            continue
        lines.append(f"{index} {refusal} {answer}")
        lines += [" ".join(map(str, e)) for e in events]
        lines += [f"h {bytes_held(t)}"] if held and sound(t) else []
    return lines + [counters(t)]


# ---- where each block ended (document 02 §7)

PLACES = ("waiting", "in-flight", "reserved", "dequeued", "expired", "discarded", "dead-lettered", "cleared")


def places(t):
    """The blocks that a queue holds: by its number, each one's place and whether it is persistent. A topic has no account."""
    lists = ([], [], []) if t.kind == "topic" else (t.pending, taken(t.subs), [e for _, e in t.reserved])
    return {e.seq: (place, e.persistent) for place, entries in enumerate(lists) for e in entries}


def left_as(code, words, waited):
    """How a block left in a call that was accepted: one that did not wait is removed by an acknowledgement alone, or returned expired."""
    if code == 10:
        return 7
    if code == 4 and not waited:
        return {1: 6, 6: 4}.get(words[3] % 256, 3)
    return 4


def arrived(words, t, blocks):
    """The line of what an accepted enqueue or join brought."""
    if words[0] == 2:
        return ["j %d %d %d %d" % (ident(words[1:]) + (words[6],))]
    if words[0] == 1 and t.kind == "queue":
        blocks[words[1]] = (0, words[3] == 1)
        return ["e %d %d" % (words[1], words[3])]
    return []


def told(number, block):
    return "f %d %s %d" % (number, PLACES[block[0]], block[1])


def account(words, t, blocks, totals):
    """The lines of what left in an accepted call. Those blocks go into the totals; the others stay in the order of their enqueues."""
    now, lines = places(t), []
    for number, (place, persistent) in list(blocks.items()):
        if number in now:
            blocks[number] = now[number]
        else:
            gone = left_as(words[0], words[1:], place == 0)
            totals[gone] += 1
            lines.append(told(number, (gone, persistent)))
            del blocks[number]
    return lines


def fates(data):
    """The lines that `blockfates` prints."""
    lines, blocks, totals, t = [], {}, [0] * 8, Dest()
    for index, words, refusal, _, events, t in steps(data):
        if words is None:
            lines.append(f"b {index}")
            continue
        first, left = [], []
        if refusal == 0 and words[0] == 0:
            blocks, totals = {}, [0] * 8
        elif refusal == 0:
            first, left = arrived(words, t, blocks), account(words, t, blocks, totals)
        held = [sum(b[0] == place for b in blocks.values()) for place in range(3)]
        lines.append("c %d %d %d %d %d %d" % (index, words[0], refusal, *held))
        lines += first + [" ".join(map(str, e)) for e in events] + left
    for block in blocks.values():
        totals[block[0]] += 1
    return lines + [told(*b) for b in blocks.items()] + ["t " + " ".join(map(str, totals)), counters(t)]


# ---- a station (document 02 §1): the definitions of definition_station, without marks

HOPS_MAX = 8
NUMBERS_END = 1 << 63  # no sequence number is this or above


@dataclass
class Slot:
    dest: Dest
    name: int  # its dead-letter destination, or 8 for none


@dataclass
class Station:
    slots: list  # eight places: an open destination, or None
    next: int
    lost: int


def zeros():
    """As it is before a start: nothing is open, and the next number is out of range."""
    return Station([None] * 8, 0, 0)


def started():
    return Station([None] * 8, 1, 0)


def place(k, s):
    return s.slots[k] if k < 8 else None


def losing(s):
    s.lost = min(s.lost + 1, NUMBERS_END - 1)


def lasting(entries):
    return [e for e in entries if e.persistent]


def rejected_of(i, a, t):
    """What a POISON outside a transaction rejects, read from the state before it."""
    s = sub_of(i, t)
    if s is None:
        return [] if a.last is None else lasting([e for e in reserved_of(i, t) if reserved_hit(a.first, a.last, e, "Poison")])
    if is_browser(s):
        return []
    test = ack_range(s, a, False)
    return lasting([f.entry for f in s.inflight if test(f)])


def rejected(code, ws, t):
    """The dead letters that a call makes where it is accepted."""
    if code != 4 or decode(code, ws) is None:
        return []
    a = ack_of(ws)
    return rejected_of(ident(ws), a, t) if not a.transacted and ack_type(a.type) == "Poison" else []


def number(letters, s):
    """Each letter takes its number before any of them is stored; with none left it is lost."""
    numbered = []
    for e in letters:
        if s.next < NUMBERS_END:
            numbered.append(replace(e, seq=s.next))
            s.next += 1
        else:
            losing(s)
    return numbered


def enqueuing(e, now):
    return e.seq, e.expiration % WORD, int(e.persistent), e.producer, e.match_word, e.redelivery % WORD, now, e.size


def sent_at(k, events):
    return [(e[0], k) + e[1:] for e in events]


def storing(hops, now, k, e, s):
    """At the destination that is named, if it is open; where it refuses, on to its own name. Answers the events."""
    x = place(k, s)
    if hops == 0 or x is None:
        losing(s)
        return []
    refused, _, events, x.dest = step(1, enqueuing(e, now), x.dest)
    return storing(hops - 1, now, x.name, e, s) if refused else sent_at(k, events)


def running(now, k, letters, s):
    return [event for e in letters for event in storing(HOPS_MAX, now, k, e, s)]


def station_sound(s):
    return all(x is None or sound(x.dest) and x.name <= 8 for x in s.slots) and 1 <= s.next <= NUMBERS_END and s.lost < NUMBERS_END


def opens_right(ws):
    return open_words(ws[:6] + (0,) + ws[7:]) and ws[6] <= 8


def open_at(k, ws, s):
    if not opens_right(ws):
        return 3, 0, []
    s.slots[k] = Slot(open_step(ws[:6] + (0,) + ws[7:], None)[3], ws[6])
    return 0, 0, []


def call_on(k, code, ws, s):
    """A call other than open on an open destination: its own call, then its dead letters."""
    x = s.slots[k]
    if code == 1 and ws[0] != 0:
        return 3, 0, []
    carried = (s.next,) + ws[1:] if code == 1 else ws
    letters = rejected(code, carried, x.dest)
    refused, answer, events, x.dest = step(code, carried, x.dest)
    if refused:
        return refused, 0, []
    if code == 1:
        s.next += 1
    return 0, answer, sent_at(k, events) + running(carried[6], x.name, number(letters, s), s)


def station_step(k, code, ws, s):
    if k > 7 or code != 0 and place(k, s) is None:
        return 10, 0, []
    if code != 0 and not station_sound(s):
        return 2, 0, []
    return open_at(k, ws, s) if code == 0 else call_on(k, code, ws, s)


def station_call(words, s):
    """A call of the file: word 0 is the code and 256 times the destination's number, and 16 is a start, of destination 0."""
    (k, code), ws = divmod(words[0], 256), words[1:]
    if code != 16 or k > 7:
        return station_step(k, code, ws, s) + (s,)
    if k != 0 or any(ws):
        return 3, 0, [], s
    return 0, 0, [], started()


def station_bytes(s):
    return sum(bytes_held(x.dest) for x in s.slots if x)


def calls_in(data):
    """Each call's index and words; for a bad block its number and None."""
    index = 0
    for k in range(0, len(data), 512):
        calls = calls_of(data[k : k + 512])
        if calls is None:
            yield k // 512, None
            return
        for words in calls:
            yield index, words
            index += 1


def counters_at(k, x):
    return counters(x.dest).replace("=", f"= {k}")


def station_line(s):
    return f"s {s.next} {s.lost} 0 {station_bytes(s)}"


def run_station(data, held=False):
    """The lines that a run of a station's call file prints."""
    lines, s = [], zeros()
    for index, words in calls_in(data):
        if words is None:
            lines.append(f"b {index}")
            break
        refused, answer, events, s = station_call(words, s)
        lines.append(f"{index} {refused} {answer}")
        lines += [" ".join(map(str, e)) for e in events]
        lines += [f"h {station_bytes(s)}"] if held else []
    return lines + [counters_at(k, x) for k, x in enumerate(s.slots) if x] + [station_line(s)]


# ---- where each block of a station ended (document 02 §7 with §1): the definitions of definition_stationfates


@dataclass
class Gets:
    """An accepted call that a destination gets, and the blocks that it holds after it."""
    place: int
    code: int
    words: tuple
    queue: bool
    blocks: dict


@dataclass
class Book:
    """The blocks that a destination holds, and of those that left since its latest accepted open how many went to each place."""
    blocks: dict = field(default_factory=dict)
    gone: list = field(default_factory=lambda: [0] * 8)


def held_blocks(t):
    """As `places`, in the order of an account: what waits, what is reserved, what is in flight."""
    held = places(t)
    return {n: held[n] for place in (0, 2, 1) for n in held if held[n][0] == place}


def gets(k, code, ws, u):
    t = u.slots[k].dest
    return Gets(k, code, ws, t.kind == "queue", held_blocks(t))


def copied(s):
    return Station([x and Slot(replace(x.dest, stats=dict(x.dest.stats)), x.name) for x in s.slots], s.next, s.lost)


def letter_gets(now, k, e, u):
    """Where a letter is stored, as `storing` goes, or 8; and the call that stores it."""
    for _ in range(HOPS_MAX):
        x = place(k, u)
        if x is None:
            break
        if step(1, enqueuing(e, now), x.dest)[0] == 0:
            return k, [gets(k, 1, enqueuing(e, now), u)]
        k = x.name
    return 8, []


def call_gets(k, code, ws, u):
    """The calls that destinations get in an accepted call, open and start apart, and its letters: the number each had, the one it got, its destination. Changes u."""
    x = u.slots[k]
    carried = (u.next,) + ws[1:] if code == 1 else ws
    letters = rejected(code, carried, x.dest)
    step(code, carried, x.dest)
    all_gets, told = [gets(k, code, carried, u)], []
    u.next += code == 1
    numbered = number(letters, u)
    for e in numbered:
        at, more = letter_gets(carried[6], x.name, e, u)
        all_gets += more
        told.append(at)
    without = len(letters) - len(numbered)
    return all_gets, list(zip(seqs(letters), seqs(numbered) + [0] * without, told + [8] * without))


def comes(g):
    """The block that a call brings."""
    return {g.words[0]: (0, g.words[2] == 1)} if g.code == 1 and g.queue else {}


def note_one(g, b):
    """A call in the book of its destination: what left in it, and how."""
    left = {n: (left_as(g.code, g.words, x[0] == 0), x[1]) for n, x in {**b.blocks, **comes(g)}.items() if n not in g.blocks}
    b.blocks = g.blocks
    for place, _ in left.values():
        b.gone[place] += 1
    return left


def notes(j, all_gets, b):
    """Those that the destination j gets: the lines of what left, in the order what it held before them, what came."""
    order, left = list(b.blocks), {}
    for g in all_gets:
        if g.place == j:
            order += comes(g)
            left.update(note_one(g, b))
    return ["f %d %d %s %d" % (j, n, PLACES[left[n][0]], left[n][1]) for n in order if n in left]


def ways(b):
    return tuple(sum(place == p for p, _ in b.blocks.values()) for place in range(3))


def brought_lines(g):
    """The line of what the call itself brought."""
    if g.code == 2:
        return ["j %d %d %d %d %d" % ((g.place,) + ident(g.words) + (g.words[5],))]
    return ["e %d %d %d" % (g.place, n, persistent) for n, (_, persistent) in comes(g).items()]


def noted_lines(k, code, ws, u, events, books):
    """The lines of an accepted call below its first."""
    all_gets, told = call_gets(k, code, ws, u)
    left = [line for j in range(8) if books[j] for line in notes(j, all_gets, books[j])]
    others = sorted({g.place for g in all_gets if g.place != k and g.queue})
    return (["w %d %d %d %d" % ((e,) + ways(books[e])) for e in others] + brought_lines(all_gets[0]) + [" ".join(map(str, e)) for e in events]
            + ["l %d %d %d %d" % ((k,) + row) for row in told] + left)


def last_lines(k, x, b):
    """An open destination's at the end: what it holds, totals, counters."""
    totals = map(sum, zip(b.gone, ways(b) + (0,) * 5))
    return ["f %d %d %s %d" % (k, n, PLACES[p], persistent) for n, (p, persistent) in b.blocks.items()] + ["t %d " % k + " ".join(map(str, totals)), counters_at(k, x)]


def station_fates(data):
    """The lines of the report on a station's call file."""
    lines, s, books = [], zeros(), [None] * 8
    for index, words in calls_in(data):
        if words is None:
            lines.append(f"b {index}")
            break
        before, (k, code), more = copied(s), divmod(words[0], 256), []
        refused, _, events, s = station_call(words, s)
        if refused == 0 and code == 16:
            books = [None] * 8
        elif refused == 0 and code == 0:
            books[k] = Book()
        elif refused == 0:
            more = noted_lines(k, code, words[1:], before, events, books)
        held = ways(books[k]) if k < 8 and books[k] else (0, 0, 0)
        lines += ["c %d %d %d %d %d %d %d" % ((index, k, code, refused) + held)] + more
    return lines + [line for k, x in enumerate(s.slots) if x for line in last_lines(k, x, books[k])] + [station_line(s)]


def main(options, data):
    if "--station" in options:
        return station_fates(data) if "--fates" in options else run_station(data, "--bytes" in options)
    return fates(data) if "--fates" in options else run(data, "--bytes" in options)


if __name__ == "__main__":
    sys.stdout.write("\n".join(main(sys.argv[1:], sys.stdin.buffer.read())) + "\n")
