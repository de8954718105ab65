"""An assignment that satisfies clauses, found by trying, without a solver outside.

Literals are decided in a given order, and what follows from clauses with one literal left is
settled at once. A decision that fails is turned, the last one first. A clause is indexed by two of
its literals, and is looked at only when one of these fails.
"""


class Search:
    """Literals that hold so far, in the order in which they were fixed, and the indexed clauses."""

    def __init__(self, clauses, variables):
        self.held = [None] * (2 * variables)
        self.fixed = []
        self.index = [[] for _ in range(2 * variables)]
        distinct = [list(dict.fromkeys(clause)) for clause in clauses]
        self.empty = [] in distinct
        self.units = [clause[0] for clause in distinct if len(clause) == 1]
        for clause in [clause for clause in distinct if len(clause) > 1]:
            self.index[clause[0]].append(clause)
            self.index[clause[1]].append(clause)

    def hold(self, lits):
        """Makes literals hold, and all that follows; whether no clause fails."""
        waiting = list(lits)
        while waiting:
            lit = waiting.pop()
            if self.held[lit] is False:
                return False
            if self.held[lit] is None:
                self.held[lit], self.held[lit ^ 1] = True, False
                self.fixed.append(lit)
                if not self.follow(lit ^ 1, waiting):
                    return False
        return True

    def follow(self, failing, waiting):
        """Goes through the clauses indexed by a literal that fails; adds what must hold now."""
        clauses, self.index[failing] = self.index[failing], []
        for at, clause in enumerate(clauses):
            if clause[0] == failing:
                clause[0], clause[1] = clause[1], failing
            if not self.held[clause[0]] and self.moved(clause):
                continue
            self.index[failing].append(clause)
            if self.held[clause[0]] is False:
                self.index[failing] += clauses[at + 1 :]
                return False
            waiting.append(clause[0])
        return True

    def moved(self, clause):
        """Whether a clause has a further literal that does not fail; it is indexed by this then."""
        for at in range(2, len(clause)):
            if self.held[clause[at]] is not False:
                clause[1], clause[at] = clause[at], clause[1]
                self.index[clause[1]].append(clause)
                return True
        return False

    def undo(self, size):
        """Frees all but the first literals fixed."""
        for lit in self.fixed[size:]:
            self.held[lit] = self.held[lit ^ 1] = None
        del self.fixed[size:]


def found(clauses, variables, order, limit):
    """An assignment, by decisions in an order of literals; None if there is none.

    None too where more decisions than the limit had to be turned."""
    search, decided, at = Search(clauses, variables), [], 0
    if search.empty or not search.hold(search.units):
        return None
    while at < len(order):
        if search.held[order[at]] is None:
            decided.append((len(search.fixed), at))
            right = search.hold([order[at]])
            while not right:
                limit -= 1
                if limit < 0 or not decided:
                    return None
                size, at = decided.pop()
                search.undo(size)
                right = search.hold([order[at] ^ 1])
        at += 1
    return [int(value) for value in search.held[0::2]]
