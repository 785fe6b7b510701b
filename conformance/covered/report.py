"""Tables, and what is missing in them."""

# What the vectors must cover and do not.
missing = []


def heading(title, text=""):
    print(f"\n## {title}" + (f"\n\n{text}" if text else ""))


def table(heads, rows):
    print("\n| " + " | ".join(heads) + " |\n|" + "---|" * len(heads))
    for row in rows:
        print("| " + " | ".join(str(field or "") for field in row) + " |")


def require(holds, what):
    if not holds:
        missing.append(what)


def require_each(counts, what):
    for name, count in counts.items():
        require(count, f"{what} {name}")
