"""How many registers an expression needs (docs/LANGUAGE.md, "Registers")."""
from . import tree

MAX_NEED = 6
LAZY = ("&&", "||")


def need(expression):
    """The registers that an expression needs."""
    match expression:
        case tree.Place():
            return of_place(expression)
        case tree.Unary() | tree.Cast():
            return need(expression.operand)
        case tree.Binary():
            right = need(expression.right)
            return max(need(expression.left), right if expression.operator in LAZY else 1 + right)
        case tree.Choice():
            return max(need(expression.condition), need(expression.yes), need(expression.no))
        case tree.Assignment():
            more = 1 if expression.operator else 0
            return of_change(expression.target, more + need(expression.right))
        case tree.Step():
            return of_change(expression.target, 1)
        case tree.Call():
            return of_row(expression.arguments)
    return 1


def of_row(expressions):
    """What expressions need that are kept one after the other."""
    return max(
        (index + need(expression) for index, expression in enumerate(expressions)), default=1
    )


def of_place(place):
    return of_row(place.keys or [])


def of_change(target, rest):
    """What a change of a target needs whose right side needs `rest`: an element's keys are kept
    meanwhile."""
    return max(of_place(target), len(target.keys or []) + rest)
