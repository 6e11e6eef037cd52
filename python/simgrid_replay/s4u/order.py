"""The order of what completes at one date, as SimGrid has it.

Programs may depend on it, and published outputs do. SimGrid keeps activities in heaps by date, in which the first that was
entered comes first. Each time the solver ran, it enters those whose rate may have changed: sleeps, the latest first; then executions,
host by host in the order in which something changed there, and on a host the latest first; and messages link by link, on a link the
latest first. Timers come before all, and what hosts do before messages.
"""

from itertools import groupby

from .messages import Message
from .platform import network


def in_order(owners: list) -> list:
    """What completes at one date, in order."""
    owners.sort(key=lambda owner: owner.rank)
    found = []
    for began, group in groupby(owners, key=lambda owner: owner.began if isinstance(owner, Message) else None):
        found += group if began is None else by_links(list(group))
    return found


def by_links(messages: list[Message]) -> list[Message]:
    """Messages that began at one date, in the order in which they began, as SimGrid orders them."""
    if len(messages) == 1:
        return messages
    users: dict = {}
    for message in messages:
        for link in network.links_between(message.source, message.target):
            users.setdefault(link, []).append(message)
    found = dict.fromkeys(message for some in users.values() for message in reversed(some))
    return list(found | dict.fromkeys(messages))
