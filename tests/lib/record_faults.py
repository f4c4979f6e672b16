"""Faults that are planted into good records of two generations: what tests/audit has the auditor find.

Each function `plant_..` changes the records, lists of lines, in one place and returns whether it found a place. FAULTS has with each
the sentence that has to be found first.
"""
import json

FAILURE = ["-", b"upstream failure".hex()]


def steps(record, event):
    """The steps of a kind with their places."""
    return [(at, line) for at, line in enumerate(record) if line.get("event") == event]


def numbered(record):
    """Numbers the steps anew, and counts them."""
    count = 0
    for line in record:
        if "event" in line:
            line["n"] = count
            count += 1
    record[-1]["end"]["steps"] = count


def copy(line):
    return json.loads(json.dumps(line))


def first(places):
    return next(iter(places), None)


class View:
    """What is known before each step of a good record: counts, kept apart from the auditor."""

    def __init__(self, record):
        self.left, self.epoch, self.taken, self.came = {}, {}, {}, {}
        self.before = {}
        for at, line in enumerate(record):
            self.before[at] = (dict(self.left), dict(self.epoch), {host: list(it) for host, it in self.taken.items()}, dict(self.came))
            event, conn, host = line.get("event"), line.get("conn"), line.get("host")
            if event == "Arrived":
                self.left[conn] = self.left.get(conn, 0) + 1
            elif event == "Handed":
                self.left[conn] -= 1
            elif event == "Taken":
                self.taken.setdefault(host, []).append(line)
            elif event == "Answered":
                self.came[host] = self.came.get(host, 0) + 1
            elif event == "Failed":
                self.epoch[host] = self.epoch.get(host, 0) + 1
                self.taken[host], self.came[host] = [], 0


def owners(record):
    """The connection of each reply, by the words that were asked; only words that were asked once count."""
    asked = {}
    for _, line in steps(record, "Arrived"):
        asked.setdefault(str(line.get("words")), []).append(line["conn"])
    return {words: conns[0] for words, conns in asked.items() if len(conns) == 1}


# REPLIES

def plant_swapped_replies(records):
    record = records[-1]
    view, owner = View(record), owners(record)
    handed = [str(line["answer"]["value"]) for _, line in steps(record, "Handed")]
    known = []
    for at, line in steps(record, "Answered"):
        _, epoch, taken, came = view.before[at]
        host = line["host"]
        words = str(taken[host][came.get(host, 0)]["answer"]["words"])
        if words in owner and line["value"][0] == "$" and handed.count(str(line["value"])) == 1:
            for old, conn, place in known:
                is_other = conn != owner[words] and old["value"] != line["value"] and len(old["value"]) == 2
                if is_other and place == (host, epoch.get(host, 0)):
                    old["value"], line["value"] = line["value"], old["value"]
                    return True
            known.append((line, owner[words], (host, epoch.get(host, 0))))
    return False


def plant_reply_of_another_epoch(records):
    _, line = steps(records[-1], "Answered")[-1]
    line["epoch"] += 1
    return True


def plant_repeated_reply(records):
    record = records[-1]
    view = View(record)
    for at, line in steps(record, "Answered"):
        _, _, taken, came = view.before[at]
        if len(taken[line["host"]]) == came.get(line["host"], 0) + 1:
            record.insert(at + 1, copy(line))
            numbered(record)
            return True
    return False


def plant_changed_reply(records):
    for _, line in steps(records[-1], "Handed"):
        if line["answer"]["value"][0] == "$" and len(line["answer"]["value"]) == 2:
            line["answer"]["value"] = ["$"]
            return is_of_host(records[-1], line)
    return False


def is_of_host(record, handed):
    """Whether an answer is one of a host and not an echo."""
    count = [line for _, line in steps(record, "Handed") if line["conn"] == handed["conn"]].index(handed)
    asked = [line for _, line in steps(record, "Arrived") if line["conn"] == handed["conn"]][count]
    return asked["answer"]["local"] is None


def plant_failure_without_fault(records):
    for _, line in steps(records[-1], "Handed"):
        if line["answer"]["value"][0] == "$" and is_of_host(records[-1], line):
            line["answer"]["value"] = FAILURE
            return True
    return False


def plant_line_break_in_a_reply(records):
    for _, line in steps(records[-1], "Answered"):
        if line["value"] == ["+", b"OK".hex()]:
            line["value"] = ["+", b"O\rK".hex()]
            return True
    return False


# SENDING

def plant_lost_step(records):
    del records[-1][len(records[-1]) // 2]
    return "event" in records[-1][len(records[-1]) // 2]


def plant_lost_sending(records):
    """A Taken step is gone, and what is left is numbered anew."""
    record = records[-1]
    every = steps(record, "Taken")
    for at, line in every:
        place = line["host"], line["answer"]["epoch"]
        if any(later > at and (other["host"], other["answer"]["epoch"]) == place for later, other in every):
            del record[at]
            numbered(record)
            return True
    return False


def plant_part_sent_twice(records):
    record = records[-1]
    every = [str(line["answer"]["words"]) for _, line in steps(record, "Taken")]
    for at, line in steps(record, "Taken"):
        if every.count(str(line["answer"]["words"])) == 1:
            again = copy(line)
            again["answer"]["place"] += 1
            record.insert(at + 1, again)
            numbered(record)
            return True
    return False


def plant_wrong_owner(records):
    record, count, workers = records[-1], len(records[-1][0]["hosts"]), records[-1][0]["workers"]
    view = View(record)
    every = [str(line["answer"]["words"]) for _, line in steps(record, "Taken")]
    for at, line in steps(record, "Taken"):
        host = (line["host"] + 1) % count
        passes = {other["pass"] for _, other in steps(record, "Taken") if other["host"] % workers == host % workers}
        if host != line["host"] and every.count(str(line["answer"]["words"])) == 1 and passes:
            _, epoch, taken, _ = view.before[at]
            line["host"], line["pass"] = host, passes.pop()
            line["answer"].update(epoch=epoch.get(host, 0), place=len(taken.get(host, [])))
            return True
    return False


def plant_parts_sent_out_of_order(records):
    record = records[-1]
    asked = {str(line.get("words")): at for at, line in steps(record, "Arrived")}
    last = {}
    for at, line in steps(record, "Taken"):
        words, before = str(line["answer"]["words"]), last.get(line["host"])
        if before and before[1]["answer"]["epoch"] == line["answer"]["epoch"] and asked.get(words, at) < before[0]:
            if before[1]["answer"]["words"] != line["answer"]["words"]:
                before[1]["answer"]["words"], line["answer"]["words"] = line["answer"]["words"], before[1]["answer"]["words"]
                return True
        last[line["host"]] = at, line
    return False


def plant_changed_part(records):
    for _, line in steps(records[-1], "Taken"):
        if len(line["answer"]["words"]) == 3:
            line["answer"]["words"][2] = b"another".hex() if records[-1][0]["values"] else "7:" + "0" * 32
            return True
    return False


def plant_wrong_place(records):
    steps(records[-1], "Taken")[-1][1]["answer"]["place"] += 1
    return True


def plant_wrong_epoch_of_a_part(records):
    steps(records[-1], "Taken")[-1][1]["answer"]["epoch"] += 1
    return True


# ANSWERS

def plant_joined_in_another_order(records):
    for _, line in steps(records[-1], "Handed"):
        value = line["answer"]["value"]
        if value[0] == "*" and len(value) == 2 and len(value[1]) > 1 and value[1][0] != value[1][-1] and joined(records[-1], line):
            value[1].reverse()
            return True
    return False


def joined(record, handed):
    """Whether an answer is a join of several parts."""
    count = [line for _, line in steps(record, "Handed") if line["conn"] == handed["conn"]].index(handed)
    asked = [line for _, line in steps(record, "Arrived") if line["conn"] == handed["conn"]][count]
    return asked["answer"]["parts"] > 1


def plant_wrong_sum(records):
    for _, line in steps(records[-1], "Handed"):
        if line["answer"]["value"][0] == ":" and joined(records[-1], line) and len(line["answer"]["value"][1]) < 9:
            line["answer"]["value"][1] = str(int(line["answer"]["value"][1]) + 1)
            return True
    return False


def plant_wrong_count_of_errors(records):
    for _, line in steps(records[-1], "Handed"):
        if line["answer"]["value"] == ["-", b"finished with 1 error(s)".hex()]:
            line["answer"]["value"] = ["-", b"finished with 2 error(s)".hex()]
            return True
    return False


def plant_answer_handed_out_twice(records):
    record = records[-1]
    view = View(record)
    for at, line in steps(record, "Handed"):
        if view.before[at][0][line["conn"]] == 1:
            record.insert(at + 1, copy(line))
            numbered(record)
            return True
    return False


def plant_answer_before_an_earlier_one(records):
    last = {}
    for at, line in steps(records[-1], "Handed"):
        old_at, old = last.get(line["conn"], (None, None))
        if old_at == at - 1 and old["answer"]["value"] != line["answer"]["value"]:
            old["answer"], line["answer"] = line["answer"], old["answer"]
            return True
        last[line["conn"]] = at, line
    return False


def plant_answer_before_its_reply(records):
    """An answer of a host leaves at once, before the steps that bring its reply."""
    record = records[-1]
    view = View(record)
    for at, line in steps(record, "Handed"):
        arrivals = [(place, it) for place, it in steps(record, "Arrived") if it["conn"] == line["conn"] and place < at]
        if arrivals and view.before[at][0][line["conn"]] == 1 and arrivals[-1][1]["answer"]["parts"] > 0:
            if not arrivals[-1][1]["answer"]["no_host"] and view.before[arrivals[-1][0]][0].get(line["conn"], 0) == 0:
                record.insert(arrivals[-1][0] + 1, record.pop(at))
                record[arrivals[-1][0] + 1]["at"] = record[arrivals[-1][0]]["at"]
                numbered(record)
                return True
    return False


def plant_wrong_own_answer(records):
    for _, line in steps(records[-1], "Handed"):
        if line["answer"]["value"] == ["+", b"PONG".hex()]:
            line["answer"]["value"] = ["-", b"proxy busy".hex()]
            return True
    return False


def plant_wrong_name_of_own_answer(records):
    for _, line in steps(records[-1], "Arrived"):
        if line["answer"]["local"] == "WrongNumber":
            line["answer"]["local"] = "Invalid"
            return True
    return False


def plant_text_that_is_no_value(records):
    _, line = steps(records[-1], "Handed")[-1]
    line["answer"] = {"raw": b":+7".hex()}
    return True


# CONNECTIONS

def plant_closed_connection_goes_on(records):
    record = records[-1]
    at, line = steps(record, "Handed")[len(steps(record, "Handed")) // 2]
    record.insert(at, {"n": 0, "at": line["at"], "pass": line["pass"], "event": "Closed", "conn": line["conn"], "answer": {}})
    numbered(record)
    return True


def plant_finished_connection_goes_on(records):
    record = records[-1]
    at, line = steps(record, "Arrived")[-1]
    record.insert(at, {"n": 0, "at": line["at"], "pass": line["pass"], "event": "Finished", "conn": line["conn"], "answer": {}})
    numbered(record)
    return True


def plant_unknown_connection(records):
    _, line = steps(records[-1], "Arrived")[-1]
    line["conn"] += 100_000
    return True


def plant_wrong_number_of_connection(records):
    steps(records[-1], "Opened")[-1][1]["answer"]["conn"] += 1
    return True


def plant_wrong_index(records):
    steps(records[-1], "Arrived")[-1][1]["answer"]["index"] += 1
    return True


def plant_wrong_count_of_parts(records):
    steps(records[-1], "Arrived")[-1][1]["answer"]["parts"] += 1
    return True


def plant_part_without_host(records):
    _, line = steps(records[-1], "Arrived")[-1]
    line["answer"]["no_host"] += 1
    return True


def plant_busy_part(records):
    steps(records[-1], "Arrived")[-1][1]["answer"]["busy"] += 1
    return True


def plant_new_socket_with_commands(records):
    for _, line in steps(records[0], "Opened"):
        line["socket"]["commands"] = 3
        return True
    return False


# OUTLIER DETECTION

def plant_ejection_past_the_limit(records):
    for event in ("Failed",):
        for _, line in steps(records[-1], event):
            if line["answer"]["trip"] == "Kept":
                line["answer"]["trip"] = "Ejected"
                return True
    return False


def plant_ejection_past_the_limit_in_a_sweep(records):
    for _, line in steps(records[-1], "Swept"):
        if line["answer"]["kept"]:
            line["answer"]["kept"] -= 1
            line["answer"]["ejected"] += 1
            return True
    return False


def plant_ejection_without_cause(records):
    for _, line in steps(records[-1], "Failed"):
        if line["answer"]["trip"] == "None":
            line["answer"]["trip"] = "Kept"
            return True
    return False


def plant_forgotten_ejection(records):
    for _, line in steps(records[-1], "Failed"):
        if line["answer"]["trip"] == "Ejected":
            line["answer"]["trip"] = "None"
            return True
    return False


def plant_early_return(records):
    out = sum(host["out"] for host in records[-1][0]["opening"]["hosts"])
    for line in records[-1]:
        answer = line.get("answer", {})
        if line.get("event") == "Swept" and out > answer["returned"]:
            answer["returned"] += 1
            return True
        out += (answer.get("trip") == "Ejected") + answer.get("ejected", 0) - answer.get("returned", 0)
    return False


def plant_forgotten_outlier(records):
    for _, line in steps(records[-1], "Swept"):
        if line["answer"]["ejected"]:
            line["answer"]["ejected"] -= 1
            return True
    return False


def plant_wrong_count_of_lost_parts(records):
    steps(records[-1], "Failed")[-1][1]["answer"]["parts"] += 1
    return True


def plant_fault_told_twice(records):
    record = records[-1]
    at, line = steps(record, "Failed")[-1]
    record.insert(at + 1, copy(line))
    numbered(record)
    return True


def plant_early_lateness(records):
    record = records[-1]
    view = View(record)
    for at, line in steps(record, "Failed"):
        _, _, taken, came = view.before[at]
        flying = taken.get(line["host"], [])[came.get(line["host"], 0):]
        if flying and line["kind"] != "Late" and line["t"] - flying[0]["at"] < record[0]["reply_ms"]:
            line["kind"] = "Late"
            return True
    return False


def plant_streak_in_a_first_opening(records):
    records[0][0]["opening"]["hosts"][0]["results"] = 1
    return True


# THE JOURNAL

def plant_step_of_another_worker(records):
    _, line = steps(records[-1], "Answered")[-1]
    line["pass"] += 50
    return True


def plant_clock_that_falls(records):
    _, line = steps(records[-1], "Arrived")[-1]
    line["at"] = 0
    return True


def plant_wrong_count_of_steps(records):
    records[-1][-1]["end"]["steps"] -= 1
    return True


def plant_wrong_count_of_bytes(records):
    records[-1][-1]["end"]["bytes"] += 1
    return True


def plant_second_link_in_an_epoch(records):
    record = records[-1]
    at, line = first((at, line) for at, line in enumerate(record) if "link" in line)
    record.insert(at + 1, copy(line))
    return True


def plant_command_as_a_value(records):
    for _, line in steps(records[-1], "Arrived"):
        if "words" in line and len(line["words"]) == 1 and line["answer"]["local"] == "Pong":
            name = line.pop("words")[0]
            line["value"] = ["*", [["$", name if records[-1][0]["values"] else "4:" + "0" * 32]]]
            return True
    return False


def plant_value_in_the_clear(records):
    for _, line in steps(records[-1], "Answered"):
        if line["value"][0] == "$" and len(line["value"]) == 2:
            line["value"] = ["$", b"secret".hex()]
            return True
    return False


def plant_other_point_of_a_key(records):
    known = set()
    for _, line in steps(records[-1], "Arrived"):
        if line["answer"]["parts"] == 1 and len(line["words"]) == 2 and line.get("points"):
            if line["words"][1] in known:
                line["points"] = [(line["points"][0] + 1) % 2 ** 32]
                return True
            known.add(line["words"][1])
    return False


def plant_missing_points(records):
    for _, line in steps(records[-1], "Arrived"):
        if line.get("points"):
            line["points"].pop()
            return True
    return False


# SEAMS

def carried_opening(records):
    """A connection of the second generation whose socket came from the first."""
    return first(line for _, line in steps(records[1], "Opened") if line["socket"]["from"])


def plant_socket_lost_at_the_seam(records):
    line = carried_opening(records)
    if line:
        nothing = "" if records[0][0]["values"] else "0:" + "0" * 32
        line["socket"].update({"from": None, "commands": 0, "rest": nothing})
    return line is not None


def change_socket(records, line, name, by):
    """Changes what a second generation says of a socket that came over, at its opening and where it goes over once more."""
    line["socket"][name] += by
    for gone in records[1]:
        if "carried" in gone and gone["carried"]["conn"] == line["answer"]["conn"]:
            gone["carried"]["socket" if name == "number" else name] += by


def plant_command_asked_twice_at_the_seam(records):
    line = first(it for _, it in steps(records[1], "Opened") if it["socket"]["commands"])
    if line:
        change_socket(records, line, "commands", -1)
    return line is not None


def plant_command_lost_at_the_seam(records):
    line = carried_opening(records)
    if line:
        change_socket(records, line, "commands", 1)
    return line is not None


def plant_socket_opened_twice(records):
    lines = [line for _, line in steps(records[1], "Opened") if line["socket"]["from"]]
    if len(lines) > 1:
        lines[1]["socket"] = copy(lines[0]["socket"])
    return len(lines) > 1


def plant_socket_that_did_not_go_over(records):
    line = carried_opening(records)
    if line:
        line["socket"]["from"]["conn"] += 100_000
    return line is not None


def plant_other_socket_at_the_seam(records):
    line = carried_opening(records)
    if line:
        change_socket(records, line, "number", 100_000)
    return line is not None


def plant_other_rest_at_the_seam(records):
    line = carried_opening(records)
    if line:
        length, _, digest = line["socket"]["rest"].partition(":")
        line["socket"]["rest"] = b"other".hex() if records[0][0]["values"] else f"{int(length) + 1}:{digest}"
    return line is not None


def plant_other_detection_at_the_seam(records):
    records[1][0]["opening"]["clock"] += 1
    return True


def plant_other_start_at_the_seam(records):
    """A host that isn't out was ejected at another moment: nothing else shows it."""
    host = first(host for host in records[1][0]["opening"]["hosts"] if not host["out"])
    if host:
        host["start"] += 1
    return host is not None


def plant_handover_past_the_end(records):
    records[1][0]["from"]["steps"] += 1_000_000
    return True


def plant_other_settings_at_the_seam(records):
    records[1][0]["reply_ms"] -= 1
    return True


def plant_unanswered_command_goes_over(records):
    """The last answer of a connection isn't handed out, and its socket goes over."""
    record = records[0]
    for _, line in ((at, line) for at, line in enumerate(record) if "carried" in line):
        handed = [at for at, it in steps(record, "Handed") if it["conn"] == line["carried"]["conn"]]
        if handed and record[handed[-1]]["n"] >= records[1][0]["from"]["steps"]:
            del record[handed[-1]]
            numbered(record)
            return True
    return False


def plant_finished_socket_goes_over(records):
    record = records[0]
    for line in [line for line in record if "carried" in line]:
        at = first(at for at, it in steps(record, "Closed") if it["conn"] == line["carried"]["conn"])
        closing = record[at]
        record.insert(at, {**closing, "event": "Finished"})
        numbered(record)
        return True
    return False


def plant_dropped_socket_goes_on(records):
    line = first(line for line in records[0] if "carried" in line)
    if line:
        line["carried"]["to"] = None
    return line is not None


def plant_socket_goes_back(records):
    line = first(line for line in records[1] if "carried" in line)
    if line:
        line["carried"]["to"] = 0
    return line is not None


def plant_generation_told_twice(records):
    records[1][0]["generation"] = 0
    records[1][0]["from"] = None
    return True


BOTH, CLEAR, HASHED = (True, False), (True,), (False,)
# The fault, the sentences of which one has to be found first, and in which modes of values.
FAULTS = [
    (plant_swapped_replies, {"own_reply"}, BOTH),
    (plant_reply_of_another_epoch, {"epoch"}, BOTH),
    (plant_repeated_reply, {"unasked"}, BOTH),
    (plant_changed_reply, {"own_reply"}, BOTH),
    (plant_failure_without_fault, {"own_reply"}, BOTH),
    (plant_line_break_in_a_reply, {"plain"}, CLEAR),
    (plant_lost_step, {"numbering"}, BOTH),
    (plant_lost_sending, {"place", "sending_order", "unasked"}, BOTH),
    (plant_part_sent_twice, {"sent_twice"}, BOTH),
    (plant_wrong_owner, {"owner"}, BOTH),
    (plant_parts_sent_out_of_order, {"sending_order"}, BOTH),
    (plant_changed_part, {"part_text"}, BOTH),
    (plant_wrong_place, {"place"}, BOTH),
    (plant_wrong_epoch_of_a_part, {"epoch"}, BOTH),
    (plant_joined_in_another_order, {"join"}, BOTH),
    (plant_wrong_sum, {"join"}, BOTH),
    (plant_wrong_count_of_errors, {"join"}, BOTH),
    (plant_answer_handed_out_twice, {"handed_twice"}, BOTH),
    (plant_answer_before_an_earlier_one, {"command_order"}, BOTH),
    (plant_answer_before_its_reply, {"command_order"}, BOTH),
    (plant_wrong_own_answer, {"own_answer"}, BOTH),
    (plant_wrong_name_of_own_answer, {"own_answer"}, BOTH),
    (plant_text_that_is_no_value, {"spelling"}, BOTH),
    (plant_closed_connection_goes_on, {"after_close"}, BOTH),
    (plant_finished_connection_goes_on, {"finishing"}, BOTH),
    (plant_unknown_connection, {"not_open"}, BOTH),
    (plant_wrong_number_of_connection, {"connection_number"}, BOTH),
    (plant_wrong_index, {"index"}, BOTH),
    (plant_wrong_count_of_parts, {"parts"}, BOTH),
    (plant_part_without_host, {"no_host"}, BOTH),
    (plant_busy_part, {"busy"}, BOTH),
    (plant_new_socket_with_commands, {"socket"}, BOTH),
    (plant_ejection_past_the_limit, {"ejection_limit"}, BOTH),
    (plant_ejection_past_the_limit_in_a_sweep, {"ejection_limit"}, BOTH),
    (plant_ejection_without_cause, {"trip"}, BOTH),
    (plant_forgotten_ejection, {"trip"}, BOTH),
    (plant_early_return, {"returns"}, BOTH),
    (plant_forgotten_outlier, {"outliers"}, BOTH),
    (plant_wrong_count_of_lost_parts, {"lost_count"}, BOTH),
    (plant_fault_told_twice, {"epoch"}, BOTH),
    (plant_early_lateness, {"late"}, BOTH),
    (plant_streak_in_a_first_opening, {"opening"}, BOTH),
    (plant_step_of_another_worker, {"one_worker"}, BOTH),
    (plant_clock_that_falls, {"moments"}, BOTH),
    (plant_wrong_count_of_steps, {"numbering"}, BOTH),
    (plant_wrong_count_of_bytes, {"payload"}, BOTH),
    (plant_second_link_in_an_epoch, {"links"}, BOTH),
    (plant_command_as_a_value, {"form"}, BOTH),
    (plant_value_in_the_clear, {"in_the_clear"}, HASHED),
    (plant_other_point_of_a_key, {"points"}, HASHED),
    (plant_missing_points, {"points"}, HASHED),
    (plant_socket_lost_at_the_seam, {"seam_lost"}, BOTH),
    (plant_command_asked_twice_at_the_seam, {"seam_twice"}, BOTH),
    (plant_command_lost_at_the_seam, {"seam_lost"}, BOTH),
    (plant_socket_opened_twice, {"seam_lost", "seam_twice"}, BOTH),
    (plant_socket_that_did_not_go_over, {"seam_lost", "seam_twice"}, BOTH),
    (plant_other_socket_at_the_seam, {"seam_socket"}, BOTH),
    (plant_other_rest_at_the_seam, {"seam_rest"}, BOTH),
    (plant_other_detection_at_the_seam, {"seam_detection"}, BOTH),
    (plant_other_start_at_the_seam, {"seam_detection"}, BOTH),
    (plant_handover_past_the_end, {"seam_steps"}, BOTH),
    (plant_other_settings_at_the_seam, {"seam_settings"}, BOTH),
    (plant_unanswered_command_goes_over, {"carried"}, BOTH),
    (plant_finished_socket_goes_over, {"carried"}, BOTH),
    (plant_dropped_socket_goes_on, {"seam_twice"}, BOTH),
    (plant_socket_goes_back, {"carried"}, BOTH),
    (plant_generation_told_twice, {"opening", "seam_twice"}, BOTH),
]
