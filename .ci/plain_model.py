#!/usr/bin/env python3
"""A plain model of the program with one worker, to compute what is due for an input that is well formed: blocks one after another over
dictionaries.

    plain_model.py < INPUT > REPORT

It knows nothing of limits and refusals, and trusts its input. It is written from the description of the language and of stamps alone:
with the clock that counts, the one seat 0 draws the stamps 256, 512 and so on, one for each index line, each row and each block. A
transaction block has its stamp, and a snapshot the one below its own. Each index line, each row and each transaction block commits. Behind
a block whose commit is a 1,024th one, one more is drawn, for the promotion of the first record that this block has read, unless it reads
none.
"""
import bisect
import sys

TOP = 2**64 - 1


def main():
    lines = sys.stdin.read().split("\n")
    second = lines[0] == "cicada 2"
    names, out = [], []
    drawn = commits = lane = number = 0
    block, snap, tables = None, False, {}
    # the values of a column with their keys, sorted, for each table and column that was searched
    sorted_by = {}

    def column_of(words):
        return int(words[3]) - 1 if second else 0

    def store(table, key, row):
        """Sets a row, or takes it out."""
        old = tables[table].pop(key, None)
        if row is not None:
            tables[table][key] = row
        for (name, column), pairs in sorted_by.items():
            if name == table:
                if old is not None:
                    pairs.pop(bisect.bisect_left(pairs, (old[column - 1], key)))
                if row is not None:
                    bisect.insort(pairs, (row[column - 1], key))

    def searched(table, column):
        if (table, column) not in sorted_by:
            sorted_by[table, column] = sorted((row[column - 1], key) for key, row in tables[table].items())
        return sorted_by[table, column]

    def run(commands):
        """The answers of a block and the tables that it leaves, or the refusal."""
        undo, answers = [], []

        def put(table, key, value):
            undo.append((table, key, tables[table].get(key)))
            store(table, key, value)

        def refuse(place, cause):
            for table, key, old in reversed(undo):
                store(table, key, old)
            return None, f"no {place} {cause}"

        for place, words in enumerate(commands, 1):
            verb, table = words[0], words[1]
            if verb == "get":
                row = tables[table].get(int(words[2]))
                answers.append("= none" if row is None else f"= {row[column_of(words)]}")
            elif verb in ("put", "ins"):
                key = int(words[2])
                if verb == "ins" and key in tables[table]:
                    return refuse(place, "exists")
                put(table, key, [int(word) for word in words[3:]])
            elif verb == "del":
                key = int(words[2])
                if key not in tables[table]:
                    return refuse(place, "missing")
                put(table, key, None)
            elif verb in ("add", "sub"):
                key, column, by = int(words[2]), column_of(words), int(words[-1])
                if key not in tables[table]:
                    return refuse(place, "missing")
                row = list(tables[table][key])
                row[column] += by if verb == "add" else -by
                if row[column] > TOP:
                    return refuse(place, "over")
                if row[column] < 0:
                    return refuse(place, "short")
                put(table, key, row)
            elif verb == "scan":
                low, high, most = map(int, words[2:5])
                keys = sorted(key for key in tables[table] if low <= key <= high)[:most]
                answers += [line(": ", key, tables[table][key]) for key in keys]
            elif verb == "find":
                column, low, high, most = map(int, words[2:6])
                pairs = searched(table, column)
                first, past = bisect.bisect_left(pairs, (low, -1)), bisect.bisect_left(pairs, (high + 1, -1))
                answers += [line(": ", key, tables[table][key]) for _, key in pairs[first:max(first, min(past, first + most))]]
        return answers, None

    def reads_nothing(words):
        """Whether a command reads no record: a scan that lists nothing by its arguments. A search reads which column has the index."""
        return words[0] == "scan" and (int(words[2]) > int(words[3]) or int(words[4]) == 0)

    def line(start, key, row):
        return start + " ".join(map(str, [key] + row))

    for text in lines[1:]:
        words = text.split(" ")
        if words[0] == "table":
            names.append(words[1])
            tables[words[1]] = {}
        elif words[0] == "index":
            drawn, commits = drawn + 1, commits + 1
        elif words[0] == "row":
            tables[words[1]][int(words[2])] = [int(word) for word in words[3:]]
            drawn, commits = drawn + 1, commits + 1
        elif words[0] == "lane":
            lane, number = lane + 1, 0
        elif words[0] in ("txn", "snap"):
            block, snap = [], words[0] == "snap"
        elif words[0] == "end":
            drawn, number = drawn + 1, number + 1
            answers, refusal = run(block)
            head = f"{256 * drawn - snap} {lane}.{number} "
            out.append(head + (refusal or ("snap" if snap else "ok")))
            out += answers or []
            commits += not snap
            if not snap and commits % 1024 == 0 and not all(map(reads_nothing, block)):
                drawn += 1
            block = None
        elif words[0] == "done":
            break
        elif block is not None:
            block.append(words)
    for name in names:
        out.append(f"table {name}")
        out += [line("", key, tables[name][key]) for key in sorted(tables[name])]
    out.append("done")
    sys.stdout.write("\n".join(out) + "\n")


main()
