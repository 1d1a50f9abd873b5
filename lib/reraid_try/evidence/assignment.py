"""The assignment problem: which column each row gets, so that the weights at them sum to the most. The Hungarian algorithm solves it in about the
cube of the rows, for 24 disks as for 4, and exactly."""

from collections.abc import Sequence


def best(weights: Sequence[Sequence[int]]) -> tuple[int, tuple[int, ...]]:
    """Return the greatest sum of weights, and the column of each row, no column twice. Each row has as many weights, at least as many as there are
    rows."""
    rows, columns = len(weights), len(weights[0]) if weights else 0
    if any(len(row) != columns for row in weights) or rows > columns:
        raise ValueError("an assignment needs as many columns as rows, or more")
    # Column 0 and row 0 stand for none, so that all others are counted from 1.
    by_row, by_column, holder = [0] * (rows + 1), [0] * (columns + 1), [0] * (columns + 1)
    for row in range(1, rows + 1):
        holder[0] = row
        path = augment(weights, by_row, by_column, holder)
        column = path[0]
        while column:
            before = path[1][column]
            holder[column], column = holder[before], before
    chosen = [0] * rows
    for column, row in enumerate(holder):
        if column and row:
            chosen[row - 1] = column - 1
    return sum(row[column] for row, column in zip(weights, chosen)), tuple(chosen)


def augment(weights: Sequence[Sequence[int]], by_row: list[int], by_column: list[int], holder: list[int]) -> tuple[int, list[int]]:
    """Find the cheapest way from the row that column 0 holds to a free column: return that column, and for each column the one before it. The prices
    of rows and columns are changed so that each way on it costs nothing."""
    columns = len(by_column)
    least: list[int | None] = [None] * columns
    done, before, column = [False] * columns, [0] * columns, 0
    while holder[column]:
        done[column] = True
        row, step, following = holder[column], None, 0
        costs, price = weights[row - 1], by_row[row]
        for other in range(1, columns):
            if done[other]:
                continue
            cost, known = -costs[other - 1] - price - by_column[other], least[other]
            if known is None or cost < known:
                least[other], before[other], known = cost, column, cost
            if step is None or known < step:
                step, following = known, other
        assert step is not None
        for other in range(columns):
            known = least[other]
            if done[other]:
                by_row[holder[other]] += step
                by_column[other] -= step
            elif known is not None:
                least[other] = known - step
        column = following
    return column, before
