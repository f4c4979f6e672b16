"""What outlier detection answers to the marks of the rows `ten_thousand_marks*`, reckoned by the rules in plain words.

It knows nothing of the crates. Each row is a list of runs (seed, marks, moment); `go_on` between two runs changes
nothing here, since a state that is handed on goes on as it would have.
"""

RULES = dict(base_ms=3000, max_ms=20000, max_percent=20, consecutive=4, success_hosts=5, request_volume=5,
             factor=1000, panic_percent=90)
ROWS = {
    "ten_thousand_marks": (10, RULES, [(1, 10000, 0)]),
    "ten_thousand_marks_handed_on": (10, RULES, [(2, 5000, 0), (3, 5000, 1754000)]),
}


class Numbers:
    def __init__(self, seed):
        self.x = seed

    def below(self, n):
        x = self.x
        x ^= (x << 13) % 2**64
        x ^= x >> 7
        x ^= (x << 17) % 2**64
        self.x = x
        return (x >> 11) % n


class Host:
    def __init__(self):
        self.out = False
        self.start = 0
        self.bad_in_a_row = 0
        self.multiplier = 0
        self.good = 0
        self.all = 0


class Detection:
    def __init__(self, n, rules):
        self.rules = rules
        self.hosts = [Host() for _ in range(n)]
        self.clock = 0

    def limit_allows_one_more(self):
        e = sum(h.out for h in self.hosts)
        return e == 0 or 100 * e < self.rules["max_percent"] * len(self.hosts)

    def trip(self, host):
        allowed = self.limit_allows_one_more()
        host.bad_in_a_row = 0
        if allowed:
            host.out = True
            host.start = self.clock
            r = self.rules
            host.multiplier = min(host.multiplier + 1, -(-r["max_ms"] // r["base_ms"]))
        return "ejected" if allowed else "kept"

    def result(self, number, good, moment):
        self.clock = max(self.clock, moment)
        host = self.hosts[number]
        host.all += 1
        host.good += good
        if good:
            host.bad_in_a_row = 0
            return "none"
        if host.out or self.rules["consecutive"] == 0:
            return "none"
        host.bad_in_a_row += 1
        if host.bad_in_a_row < self.rules["consecutive"]:
            return "none"
        return self.trip(host)

    def sweep(self, moment):
        self.clock = max(self.clock, moment)
        r = self.rules
        returned = 0
        for host in self.hosts:
            if host.out:
                if self.clock - host.start >= min(r["base_ms"] * host.multiplier, r["max_ms"]):
                    host.out = False
                    host.bad_in_a_row = 0
                    returned += 1
            else:
                host.multiplier = max(host.multiplier - 1, 0)
        rates = [1000000 * h.good // h.all if not h.out and h.all >= r["request_volume"] else None for h in self.hosts]
        known = [x for x in rates if x is not None]
        trips = []
        if len(known) >= r["success_hosts"]:
            s, q, n = sum(known), sum(x * x for x in known), len(known)
            for host, x in zip(self.hosts, rates):
                if x is not None and s > n * x and (s - n * x)**2 * 1000000 > r["factor"]**2 * (n * q - s * s):
                    trips.append(self.trip(host))
        for host in self.hosts:
            host.good = host.all = 0
        return returned, trips.count("ejected"), trips.count("kept")

    def panic(self):
        n = len(self.hosts)
        return 100 * sum(not h.out for h in self.hosts) < self.rules["panic_percent"] * n


def play(detection, seed, marks, first):
    numbers = Numbers(seed)
    moment = first
    trips = dict(none=0, ejected=0, kept=0)
    sweeps = [0, 0, 0, 0]
    check = 0

    def add(code):
        nonlocal check
        check = (check * 31 + code) % 2**32

    for _ in range(marks):
        moment += numbers.below(700)
        if numbers.below(20) == 0:
            swept = detection.sweep(moment)
            sweeps = [sweeps[0] + 1] + [a + b for a, b in zip(sweeps[1:], swept)]
            for code in swept:
                add(code)
        else:
            number = numbers.below(len(detection.hosts))
            trip = detection.result(number, numbers.below(12) >= number, moment)
            trips[trip] += 1
            add(["none", "ejected", "kept"].index(trip))
        add(int(detection.panic()))
        for host in detection.hosts:
            add(2 * host.multiplier + host.out)
    print(f"marks {seed} {marks} {first} => results: {trips['none']} None, {trips['ejected']} Ejected, "
          f"{trips['kept']} Kept; {sweeps[0]} sweeps: returned {sweeps[1]}, ejected {sweeps[2]}, kept {sweeps[3]}; "
          f"check {check}")


for name, (n, rules, runs) in ROWS.items():
    print(name)
    detection = Detection(n, rules)
    for seed, marks, moment in runs:
        play(detection, seed, marks, moment)
