"""The steps of a census: what is asked of the keys that may still be one with another, and what the answers make of them."""
from lib.batch.stages import Stage, call_words
from lib.sorting.joins import Joins
from lib.sorting.searches import LINEAR, Decide, Seek
from lib.sorting.worker_keys import count_linking


def search_of(step, programs):
    """The search by which pairs are tried in a step; that of seek with its default cocycles, if it counts by them."""
    if step.kind == "linear":
        return LINEAR
    words = tuple(call_words(programs.completed(Stage(step.name, step.kind, step.words))))
    return Decide(words) if step.kind == "decide" else Seek(words)


class Steps:
    """The keys of a sorting, as far as a plan decides. `names` has for searches what is said of them."""

    def __init__(self, sorting, programs, list_of):
        self.sorting, self.programs, self.list_of = sorting, programs, list_of
        self.names = {}
        self.joins = Joins(sorting.no_numbers({key for key, _, _ in sorting.keys.values()}), sorting.store("tries.tsv"))

    def run(self, step):
        """Runs a step of the plan."""
        if step.kind == "linking":
            self.link(key for key in self.joins.not_alone())
        elif step.kind == "numbers":
            self.sorting.learn(self.joins.numbers, self.joins.not_alone(), self.list_of[step.name])
            self.joins.renew_buckets()
        else:
            search = search_of(step, self.programs)
            self.names[search] = f"{step.name}: {' '.join([step.kind, *step.words])}"
            self.sorting.begin(f"step {step.name}")
            self.joins.try_all(self.sorting.search_answers, (search,), with_symmetries=False)

    def link(self, keys):
        """Asks for linking numbers of keys of links; a knot has none."""
        self.sorting.begin("linking numbers")
        linked, store = self.joins.numbers.linked, self.sorting.store("linking.tsv")
        due = [key for key in keys if linked[key][1] is None]
        waiting = [key for key in due if linked[key][0] > 1 and key.hex() not in store.answers]
        for key, numbers in self.sorting.answers(count_linking, waiting, len(due) - len(waiting)):
            store.put(key.hex(), " ".join(map(str, numbers)))
        for key in due:
            self.joins.numbers.link(key, map(int, store.answers[key.hex()][0].split()) if linked[key][0] > 1 else ())

    def vain(self, pairs):
        """What was asked of some pairs in vain, in words."""
        tried = {search for pair in pairs for search in self.joins.vain.get(pair, ())}
        return [f"{said}: nothing found" for search, said in self.names.items() if search in tried]
