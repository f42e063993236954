"""What a line of arithmetic comes to: numbers, + - * / // % ** and parentheses."""

import ast
import math
import operator
from typing import Any, Callable, Dict

# The characters that a line may have.
LIMIT = 1000
SIGNS: Dict[type, Callable[..., Any]] = {
    ast.Add: operator.add, ast.Sub: operator.sub, ast.UAdd: operator.pos, ast.USub: operator.neg,
    ast.Mult: operator.mul, ast.Div: operator.truediv, ast.FloorDiv: operator.floordiv, ast.Mod: operator.mod,
    ast.Pow: operator.pow,
}


def value_of(node: ast.AST) -> Any:
    """The value of an expression of numbers. Raises ValueError if there is anything else in it."""
    if isinstance(node, ast.Constant) and type(node.value) in (int, float):
        return node.value
    sign = SIGNS.get(type(getattr(node, "op", None)))
    if not sign:
        raise ValueError("only numbers, + - * / // % ** and parentheses are known")
    given = [value_of(it) for it in ast.iter_child_nodes(node) if isinstance(it, ast.expr)]
    if sign is operator.pow:
        # Refuses what is past 1e308, since a greater power of whole numbers may take for ever, and what is not real.
        math.pow(*given)
    return sign(*given)


def evaluate(line: str) -> str:
    """The value of a line, or in one line what is wrong with it. A line of blanks has none."""
    if not line.strip():
        return ""
    try:
        if len(line) > LIMIT:
            raise ValueError(f"more than {LIMIT} characters")
        return str(value_of(ast.parse(line.strip(), mode="eval").body))
    except (SyntaxError, ArithmeticError, ValueError, RecursionError, MemoryError) as fault:
        return f"error: {getattr(fault, 'msg', fault)}"
