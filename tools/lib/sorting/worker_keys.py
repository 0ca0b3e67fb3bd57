"""What a worker is asked of keys: numbers of colourings and linking numbers, and searches between two of them."""
from knot_workbench.faults import Fault, NoProgram
from lib.sorting.keys import grid_of_form
from lib.sorting.searches import as_due


def count_numbers(worker, asked):
    """The row of numbers of a form by a list, and where there are turns that of its mirror image."""
    form, place = asked
    grid = grid_of_form(form)
    return form, tuple(numbers_of(worker, one, worker.lists[place]) for one in (grid, grid.mirror())[:len(worker.reducer.turns)])


def numbers_of(worker, grid, listed):
    """The row of numbers of a grid."""
    _, said = worker.answered(worker.knot, ["numbers"], grid.text + listed)
    found = []
    with as_due("knot numbers"):
        for line in said.splitlines():
            word, _, rest = line.partition(" ")
            if word == "numbers":
                found.append(tuple(map(int, rest.split())))
            elif word == "wide":
                found.append(None)
        if len(found) != listed.count("quandle "):
            raise Fault(f"{len(found)} lines of numbers for {listed.count('quandle ')} blocks")
    return tuple(found)


def count_linking(worker, key):
    """The linking numbers of a key, ascending."""
    text = grid_of_form(key).text
    _, said = worker.answered(worker.knot, ["linking"], text + text)
    with as_due("knot linking"):
        return key, tuple(map(int, said.splitlines()[0].split()[1:]))


def try_pair(worker, asked):
    """What a search finds of a pair, by its two grids; or the fault, where there is no answer."""
    pair, first, second, search = asked
    try:
        return pair, search.find(worker, first, second)
    except NoProgram:
        raise
    except Fault as fault:
        return pair, Fault(str(fault))
