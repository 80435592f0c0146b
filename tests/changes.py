"""Changes of a program in one place at a time, on its syntax tree: what mutants.py tries on the second readers."""
import ast
from typing import Any, Dict, Iterator, List, NamedTuple, Sequence, Tuple

# What a comparison becomes: the opposite, and where it is one of order, a stricter or a laxer one.
TURNED = {ast.Lt: ast.GtE, ast.GtE: ast.Lt, ast.Gt: ast.LtE, ast.LtE: ast.Gt, ast.Eq: ast.NotEq, ast.NotEq: ast.Eq, ast.In: ast.NotIn, ast.NotIn: ast.In,
          ast.Is: ast.IsNot, ast.IsNot: ast.Is}
STRICT = {ast.Lt: ast.LtE, ast.LtE: ast.Lt, ast.Gt: ast.GtE, ast.GtE: ast.Gt}
# The functions that are a test by themselves, and what ends a test that is a condition.
TESTS, ENDS = ("need", "within"), (ast.Raise, ast.Return, ast.Continue, ast.Break)
# The shortest text that says where a change is, and the longest that is shown of it.
LEAST_TEXT, MOST_TEXT = 10, 160
NOTHING = "nothing"


class Set(NamedTuple):
    """One value in a tree, by the node or the list that has it, and its name or number there; and the value that it gets."""

    owner: Any
    key: Any
    value: Any

    def turn(self) -> "Set":
        """Sets the value, and gives the way back."""
        is_list = isinstance(self.owner, list)
        before = self.owner[self.key] if is_list else getattr(self.owner, self.key)
        if is_list:
            self.owner[self.key] = self.value
        else:
            setattr(self.owner, self.key, self.value)
        return self._replace(value=before)


class Change(NamedTuple):
    """A change: the function and the statement in which it is, the texts of the place before and after, and what is set."""

    function: str
    statement: int
    before: str
    after: str
    sets: Tuple[Set, ...]

    def key(self) -> str:
        return "`{}` -> `{}`".format(self.before, self.after)

    def apply(self) -> "Change":
        """Makes the change in the tree, and gives the one that takes it back."""
        return self._replace(sets=tuple(it.turn() for it in self.sets))


def cut(text: str) -> str:
    line = " ".join(text.split())
    return line if len(line) <= MOST_TEXT else line[:MOST_TEXT] + " .."


def lists_of(tree: ast.AST) -> Iterator[List[ast.stmt]]:
    """The lists of statements of a program, in order."""
    for node in ast.walk(tree):
        for field in ("body", "orelse", "finalbody"):
            found = getattr(node, field, None)
            if isinstance(found, list) and found:
                yield found


def statements_of(tree: ast.AST) -> Dict[int, int]:
    """The number of each statement."""
    return {id(it): number for number, it in enumerate(it for its in lists_of(tree) for it in its)}


def with_probes(tree: ast.AST) -> ast.AST:
    """The program with `__seen__.add(N)` before the statement of the number N."""
    numbers = statements_of(tree)
    for its in list(lists_of(tree)):
        probes = [ast.parse("__seen__.add({})".format(numbers[id(it)])).body[0] for it in its]
        its[:] = [it for pair in zip(probes, its) for it in pair]
    return ast.fix_missing_locations(tree)


class Finder:
    """Finds the changes of a program."""

    def __init__(self, tree: ast.Module) -> None:
        self.numbers = statements_of(tree)
        self.found: List[Change] = []
        # Where the walk is: the function, the statement, and what has a text around a place, from without inward.
        self.function, self.statement = "", 0
        self.around: List[ast.AST] = []
        self.in_list(tree.body)

    # The walk.

    def in_list(self, body: List[ast.stmt]) -> None:
        for number, it in enumerate(body):
            self.statement = self.numbers[id(it)]
            if is_test(it):
                self.add(ast.unparse(it), NOTHING, Set(body, number, ast.Pass()))
                if number + 1 < len(body) and is_test(body[number + 1]):
                    after = body[number + 1]
                    self.add(ast.unparse(it), "behind " + ast.unparse(after), Set(body, number, after), Set(body, number + 1, it))
            self.in_statement(it)

    def in_statement(self, it: ast.stmt) -> None:
        function, statement = self.function, self.statement
        if isinstance(it, (ast.FunctionDef, ast.ClassDef)):
            self.function = "{}.{}".format(function, it.name) if function else it.name
        if isinstance(it, ast.FunctionDef):
            # Values in its head are of the moment at which it is made.
            self.around = [it.args]
            self.each(it.args, "defaults")
        elif not isinstance(it, ast.ClassDef):
            self.around = [] if hasattr(it, "body") else [it]
            for field in it._fields:
                if field not in ("body", "orelse", "finalbody", "handlers", "annotation"):
                    self.each(it, field)
        for its in (getattr(it, "body", []), *(handler.body for handler in getattr(it, "handlers", [])), getattr(it, "orelse", []), getattr(it, "finalbody", [])):
            self.in_list(its)
        self.function, self.statement = function, statement

    def each(self, owner: Any, key: str) -> None:
        value = getattr(owner, key)
        places = [(value, at, it) for at, it in enumerate(value)] if isinstance(value, list) else [(owner, key, value)]
        for holder, name, it in places:
            if isinstance(it, ast.AST):
                self.node(holder, name, it, owner)

    def node(self, holder: Any, name: Any, it: ast.AST, parent: ast.AST) -> None:
        """What can be changed of a node, which stands at a name of its holder; and of those below it."""
        if isinstance(it, ast.expr):
            self.around.append(it)
        self.changes(holder, name, it, parent)
        for field in it._fields:
            if isinstance(getattr(it, field), (ast.AST, list)):
                self.each(it, field)
        if isinstance(it, ast.expr):
            self.around.pop()

    # The changes.

    def add(self, before: str, after: str, *sets: Set) -> None:
        self.found.append(Change(self.function, self.statement, cut(before), cut(after), sets))

    def set(self, owner: Any, key: Any, value: Any, is_whole: bool = False) -> None:
        """Adds a change of the innermost node or of a part of it, with the text of what is around it."""
        around = self.around[::-1]
        texts = [ast.unparse(it) for it in around]
        at = next((number for number, text in enumerate(texts) if len(text) >= LEAST_TEXT), len(texts) - 1)
        change = Set(owner, key, value)
        back = change.turn()
        after = ast.unparse(value if is_whole and at == 0 else around[at])
        back.turn()
        self.add(texts[at], after, change)

    def changes(self, holder: Any, name: Any, it: ast.AST, parent: ast.AST) -> None:
        if isinstance(it, ast.Constant):
            self.constant(it, parent)
        elif isinstance(it, ast.Compare):
            for at, op in enumerate(it.ops):
                for table in (TURNED, STRICT):
                    if type(op) in table:
                        self.set(it.ops, at, table[type(op)]())
        elif isinstance(it, ast.BoolOp):
            is_and = isinstance(it.op, ast.And)
            self.set(it, "op", ast.Or() if is_and else ast.And())
            for at in range(len(it.values)):
                self.set(it.values, at, ast.Constant(is_and))
        elif isinstance(it, ast.UnaryOp) and isinstance(it.op, ast.Not):
            if not isinstance(it.operand, (ast.Compare, ast.BoolOp)):
                self.set(holder, name, it.operand, True)
        elif is_condition(it, name, parent):
            self.set(holder, name, ast.UnaryOp(ast.Not(), it), True)
        self.rows(it, parent)

    def constant(self, it: ast.Constant, parent: ast.AST) -> None:
        """One more and one less; but the first of a list does not become the last."""
        if isinstance(it.value, bool):
            self.set(it, "value", not it.value)
        elif isinstance(it.value, int):
            self.set(it, "value", it.value + 1)
            if it.value or not isinstance(parent, ast.Subscript):
                self.set(it, "value", it.value - 1)

    def rows(self, it: ast.AST, parent: ast.AST) -> None:
        """Each row of a table left out; and each word of a table of words as another one."""
        if isinstance(it, ast.Dict):
            for at, key in enumerate(it.keys):
                row = ("{}: ".format(ast.unparse(key)) if key else "**") + ast.unparse(it.values[at])
                self.add(row, NOTHING, Set(it, "keys", without(it.keys, at)), Set(it, "values", without(it.values, at)))
        elif isinstance(it, (ast.Tuple, ast.List, ast.Set)) and is_table(it, parent, self.function, self.around):
            for at, row in enumerate(it.elts):
                self.add("{} of {}".format(ast.unparse(row), ast.unparse(it)), NOTHING, Set(it, "elts", without(it.elts, at)))
        elif isinstance(it, ast.Call) and isinstance(it.func, ast.Attribute) and it.func.attr == "split" and isinstance(it.func.value, ast.Constant):
            words = it.func.value.value.split() if isinstance(it.func.value.value, str) else []
            for at, word in enumerate(words):
                self.add(word, word + "_", Set(it.func.value, "value", " ".join([*words[:at], word + "_", *words[at + 1 :]])))


def without(its: Sequence[Any], at: int) -> List[Any]:
    return [*its[:at], *its[at + 1 :]]


def is_test(it: ast.stmt) -> bool:
    """Whether a statement is a test: by itself, or a condition with which something ends."""
    if isinstance(it, ast.Expr):
        return isinstance(it.value, ast.Call) and isinstance(it.value.func, ast.Name) and it.value.func.id in TESTS
    return isinstance(it, ast.If) and len(it.body) == 1 and isinstance(it.body[0], ENDS) and not it.orelse


def is_condition(it: ast.AST, name: Any, parent: ast.AST) -> bool:
    """Whether something is a condition, and none that is changed by itself."""
    is_one = name == "test" and isinstance(parent, (ast.If, ast.IfExp, ast.While)) or isinstance(parent, ast.comprehension) and it in parent.ifs
    return is_one and not isinstance(it, (ast.Compare, ast.BoolOp, ast.UnaryOp, ast.Constant))


def is_table(it: ast.expr, parent: ast.AST, function: str, around: List[ast.AST]) -> bool:
    """Whether something is a list of rows, and not values that belong together."""
    if isinstance(it, (ast.List, ast.Set)):
        return len(it.elts) > 1 and not isinstance(getattr(it, "ctx", None), ast.Store)
    if not isinstance(it.ctx, ast.Load) or isinstance(parent, ast.Subscript):
        return False
    if isinstance(parent, ast.Compare) or isinstance(parent, (ast.For, ast.comprehension)) and parent.iter is it:
        return True
    is_unpacked = isinstance(parent, ast.Assign) and isinstance(parent.targets[0], ast.Tuple)
    is_type = any(isinstance(it, ast.Subscript) for it in around)
    return not function and not is_unpacked and not is_type


def changes_of(tree: ast.Module) -> List[Change]:
    """The changes of a program, each with a text of its own."""
    found: List[Change] = []
    seen: Dict[Tuple[str, str], int] = {}
    for it in Finder(tree).found:
        place = it.function, it.key()
        seen[place] = number = seen.get(place, 0) + 1
        found.append(it if number == 1 else it._replace(after="{} ({})".format(it.after, number)))
    return found
