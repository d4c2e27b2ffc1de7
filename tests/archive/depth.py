"""How deep the stack of each exported call goes, by what each instruction of its functions does to it, on whatever machine."""
from functools import cache
from typing import NamedTuple, Optional


class Step(NamedTuple):
    """What an instruction does to the stack, and where it leads."""
    moved: int = 0                  # how many bytes it adds
    target: Optional[str] = None    # a place of the same function that it may jump to
    callee: Optional[str] = None    # another function that it calls or jumps to
    pushed: int = 0                 # what a call itself leaves on the stack
    goes_on: bool = True            # whether the next instruction may follow


def walked(steps):
    """Each instruction of a function that can be reached, with the depth of the stack before it; its depth is one and the same on every path."""
    places = list(steps)
    behind = dict(zip(places, places[1:]))
    depths, ahead = {}, [(places[0], 0)]
    while ahead:
        at, depth = ahead.pop()
        if at in depths:
            if depths[at] != depth:
                raise ValueError(f'the stack has two depths at {at}')
            continue
        if depth < 0:
            raise ValueError(f'the stack is above its start at {at}')
        depths[at] = depth
        step = steps[at]
        yield step, depth
        if step.target:
            ahead.append((step.target, depth + step.moved))
        if step.goes_on:
            ahead.append((behind[at], depth + step.moved))


def deepest(functions, outside=()):
    """The deepest stack of each exported call, below the place where it stands when the call begins. What is outside counts 0."""
    open_ = []

    def called(step):
        return 0 if step.callee in outside else step.pushed + depth(step.callee)

    @cache
    def depth(name):
        if name in open_:
            raise ValueError(f'{name} calls itself')
        open_.append(name)
        most = max(used + max(0, step.moved, called(step) if step.callee else 0) for step, used in walked(functions[name]))
        open_.pop()
        return most

    return {name: depth(name) for name in sorted(functions) if name.startswith('tfk_')}
