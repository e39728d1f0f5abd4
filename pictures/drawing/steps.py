"""A script step by step: each offer, and each visit of each pull, with the line of the script that it belongs to."""
from collections import defaultdict, deque

from drawing.model import Answer, Offer, Visit, Wrong

Step = tuple[int, Offer | Visit]


def pulls_of(visits: list[Visit]) -> dict[int, deque[list[Visit]]]:
    """The visits of each pull, by device."""
    found: dict[int, deque[list[Visit]]] = defaultdict(deque)
    latest = None
    for it in visits:
        if latest != (it.device, it.pull):
            found[it.device].append([])
            latest = (it.device, it.pull)
        found[it.device][-1].append(it)
    return found


def steps(script: str, answer: Answer, visits: list[Visit]) -> list[Step]:
    """All steps of a script that the program carried out, in order. Lines are counted from 1."""
    offers = deque(answer.offers)
    pulls = pulls_of(visits)
    found: list[Step] = []
    try:
        for line, text in enumerate(script.split("\n"), 1):
            words = text.split()
            if words[:1] == ["send"]:
                found.append((line, offers.popleft()))
            elif words[:1] == ["pull"]:
                found += [(line, it) for it in pulls[int(words[2]) if len(words) > 2 else 0].popleft()]
            elif words[:1] == ["drain"]:
                found += [(line, it) for device in sorted(pulls) for pull in pulls[device] for it in pull]
    except IndexError:
        raise Wrong(f"line {line} of the script has no answer") from None
    return found
