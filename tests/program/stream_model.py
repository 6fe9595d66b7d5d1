"""A map, and which answers to calls of it fit: for the scripts beside this file that judge streams by themselves."""

# Answers that tell less than the map answers.
LESS = ("done", "found", "other")
READS = ("get", "scan")


def answer_of(held, name, key, *others):
    """Does a call on the pairs held, and gives its answer."""
    if name == "scan":
        return [[at, held[at]] for at in sorted(held) if key <= at <= others[0]]
    answer = held.get(key)
    if name == "insert":
        held[key] = others[0]
    elif name == "remove":
        held.pop(key, None)
    elif name == "replace" and answer == others[0]:
        held[key] = others[1]
    return answer


def agrees(call, found, answer):
    """Whether a call that found this is answered so, or by less."""
    if answer == "found":
        return call[0] != "scan" and found is not None
    if answer == "other":
        return call[0] == "replace" and found != call[2]
    return answer == "done" or answer == found


def tell_less(chance, events):
    """Changes half of the answers to some that tell less."""
    opened = {}
    for event in events:
        if "invoke" in event:
            opened[event["process"]] = event["invoke"]
        elif event["answer"] != "refused" and chance.randrange(2):
            call = opened[event["process"]]
            event["answer"] = chance.choice([less for less in LESS if agrees(call, event["answer"], less)])


def calls_of(events):
    """Each call, by its process, at the event of its invocation: the call, whether it is answered, and its answer."""
    calls, opened = {}, {}
    for place, event in enumerate(events):
        if "invoke" in event:
            opened[event["process"]] = place
            calls[place] = event["invoke"], False, None
        else:
            begun = opened.pop(event["process"])
            calls[begun] = calls[begun][0], True, event["answer"]
    return calls


def after_step(pairs, call, is_answered, answer):
    """What the map holds behind a call, and what is kept of its answer; or None where it is a read that is not answered so. That of a call
    that is not answered tells nothing, and a read that is not answered need not be done."""
    held = dict(pairs)
    found = answer_of(held, *call)
    if call[0] in READS:
        return (pairs, True) if is_answered and agrees(call, found, answer) else None
    return tuple(sorted(held.items())), found if is_answered else None


def after_answer(states, opened, process, answer):
    """The states behind an answer: the pairs, and the open calls that are done by then, with their answers. Each call is done as late as may
    be: before an answer are done those that its own call needs."""
    call = opened[process][0]
    todo, seen, reached = list(states), set(states), set()
    while todo:
        pairs, done = todo.pop()
        answers = dict(done)
        if process in answers:
            if call[0] in READS or agrees(call, answers[process], answer):
                reached.add((pairs, done - {(process, answers[process])}))
            continue
        for other in opened.keys() - answers.keys():
            step = after_step(pairs, *opened[other])
            if step is not None:
                state = step[0], done | {(other, step[1])}
                if state not in seen:
                    seen.add(state)
                    todo.append(state)
    return reached


def states_behind(history):
    """Each answer of a history without refused calls, by its event, and the states behind it: all that some order leads to. Long histories of
    few calls at once have few."""
    events = history["events"]
    calls, opened = calls_of(events), {}
    states = {(tuple(sorted(map(tuple, history.get("start", [])))), frozenset())}
    for place, event in enumerate(events):
        process = event["process"]
        if "invoke" in event:
            opened[process] = calls[place]
            continue
        states = after_answer(states, opened, process, event["answer"])
        del opened[process]
        yield place, states


def lost_by_states(history):
    """The first event with which such a history has no order, or None."""
    return next((place for place, states in states_behind(history) if not states), None)
