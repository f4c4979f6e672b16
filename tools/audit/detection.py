"""Outlier detection, reckoned anew from the results and sweeps of a journal."""
from dataclasses import dataclass, field, replace

# Of a host's results in an interval the first so many count.
MOST_RESULTS = 2 ** 32 - 1
MILLION = 1_000_000


@dataclass
class HostState:
    """What is known of a host."""
    out: bool = False
    start: int = 0
    streak: int = 0
    good: int = 0
    results: int = 0
    multiplier: int = 0


@dataclass(frozen=True)
class Rules:
    """The settings of outlier detection."""
    interval_ms: int
    base_ms: int
    max_ms: int
    max_percent: int
    consecutive: int
    success_hosts: int
    request_volume: int
    factor: int
    panic_percent: int

    def most_multiplier(self) -> int:
        """No ejection lasts longer than `max_ms`, so no multiplier is above this."""
        return -(-self.max_ms // self.base_ms)

    def most_out(self, hosts: int) -> int:
        """So many of the hosts may be out."""
        return max(1, -(-self.max_percent * hosts // 100))


@dataclass
class Sweep:
    """What a sweep did, by hosts' numbers."""
    returned: list[int] = field(default_factory=list)
    ejected: list[int] = field(default_factory=list)
    kept: list[int] = field(default_factory=list)


def outliers(rates: dict[int, int], factor: int) -> list[int]:
    """The hosts whose rate is below the mean by more than the factor, in thousandths, times the standard deviation."""
    count, total = len(rates), sum(rates.values())
    spread = count * sum(rate * rate for rate in rates.values()) - total * total
    return [
        host for host, rate in sorted(rates.items())
        if total > count * rate and (total - count * rate) ** 2 * MILLION > factor * factor * spread
    ]


class Detector:
    """The state of outlier detection after some steps of a journal."""

    def __init__(self, rules: Rules, clock: int, hosts: list[HostState]) -> None:
        self.rules = rules
        self.clock = clock
        self.hosts = hosts
        self.usable = self.usable_now()

    def snapshot(self) -> tuple[int, list[HostState]]:
        """The clock, and a copy of what is known of each host."""
        return self.clock, [replace(host) for host in self.hosts]

    def out_count(self) -> int:
        """How many hosts are out."""
        return sum(host.out for host in self.hosts)

    def usable_now(self) -> tuple[bool, ...]:
        """Whether each host may get parts: all may where too few are available, else those that aren't out."""
        count = len(self.hosts)
        panic = 100 * (count - self.out_count()) < self.rules.panic_percent * count
        return tuple(panic or not host.out for host in self.hosts)

    def result(self, host: int, good: bool, moment: int) -> str:
        """A host's good or bad result. The answer is what it did: None, Ejected or Kept."""
        self.clock = max(self.clock, moment)
        state = self.hosts[host]
        if state.results < MOST_RESULTS:
            state.results += 1
            state.good += good
        if good:
            state.streak = 0
            return "None"
        if state.out or self.rules.consecutive == 0:
            return "None"
        state.streak += 1
        return self.trip(state) if state.streak == self.rules.consecutive else "None"

    def trip(self, state: HostState) -> str:
        """A host trips: it goes out where the limit has room for it."""
        out, count = self.out_count(), len(self.hosts)
        state.streak = 0
        if out > 0 and 100 * out >= self.rules.max_percent * count:
            return "Kept"
        state.out = True
        state.start = self.clock
        state.multiplier = min(state.multiplier + 1, self.rules.most_multiplier())
        self.usable = self.usable_now()
        return "Ejected"

    def is_time_over(self, state: HostState) -> bool:
        """Whether a host that is out has been out for its time."""
        return self.clock - state.start >= min(self.rules.base_ms * state.multiplier, self.rules.max_ms)

    def sweep(self, moment: int) -> Sweep:
        """A sweep: hosts return, outliers trip, and a new interval begins."""
        self.clock = max(self.clock, moment)
        done = Sweep(returned=self.make_returns())
        rates = self.rates()
        if len(rates) >= self.rules.success_hosts:
            for host in outliers(rates, self.rules.factor):
                tripped = self.trip(self.hosts[host])
                (done.ejected if tripped == "Ejected" else done.kept).append(host)
        for state in self.hosts:
            state.good = state.results = 0
        self.usable = self.usable_now()
        return done

    def make_returns(self) -> list[int]:
        """Hosts whose time is over return. The multiplier of each host that wasn't out falls."""
        returned = []
        for number, state in enumerate(self.hosts):
            if not state.out:
                state.multiplier = max(0, state.multiplier - 1)
            elif self.is_time_over(state):
                state.out = False
                state.streak = 0
                returned.append(number)
        return returned

    def rates(self) -> dict[int, int]:
        """The success rates, in millionths, of hosts that aren't out and have results enough."""
        return {
            number: MILLION * state.good // state.results
            for number, state in enumerate(self.hosts)
            if not state.out and state.results and state.results >= self.rules.request_volume
        }
