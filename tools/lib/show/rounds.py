"""The rounds of a plan: that of each action is one after the latest of those before it."""


def rounds(actions):
    """For each action by its number its round, from 1. What must come before it and isn't among the actions makes it
    wait for nothing."""
    found = {}
    for action in actions:
        found[action["number"]] = 1 + max((found.get(number, 0) for number in action.get("after", [])), default=0)
    return found
