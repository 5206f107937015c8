"""The page of `pbook why core.txt PART 5 1` by documents 01 and 03: records 0 and 1 of the text say PART 5 2 and PART 2 1, and rule a joins them."""

STORED = (("PART 5 2", 0), ("PART 2 1", 1))


def lines():
    yield "PART 5 1 FOLLOWS"
    for step, (fact, record) in enumerate(STORED):
        yield f"{step} {fact} RECORD {record}"
    yield f"{len(STORED)} PART 5 1 RULE a FROM 0 1"
