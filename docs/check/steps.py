"""How many steps a call takes at most: the tables of docs/EMBEDDING.md and docs/EMBEDDING_C.md have the numbers of the clauses, and each call of which a clause has
one. A clause has one where it says `AtMost N`, or by a definition that says so of the answer Done, or in its field `few`; those of refusals don't count. A call
that borrows its mutator to read alone, or leaves it as it is, or finds none, takes no step."""
import glob
import re
import sys

sys.path.insert(0, "docs")
from pages import rows_of, text_of  # noqa: E402

TYPES = ["Mutator", "Stepper", "SharedMutator"]
OPERATIONS = "crates/mutator_ops/specs/Few.antt"
AT_MOST = re.compile(r"\bAtMost (\d+|\((?:[^()]|\([^()]*\))*\))")
SAME = re.compile(r"(?:^|\()y ≡ (?:x|None)(?:\)|$)")


def argument(words, start):
    """The next argument in these words, a word or what stands in brackets, and where it ends; None if there is none."""
    while words[start : start + 1] == " ":
        start += 1
    if words[start : start + 1] != "(":
        found = re.match(r"[\w.]+", words[start:])
        return (found[0], start + found.end()) if found else (None, start)
    end, depth = start, 0
    while end < len(words):
        depth += {"(": 1, ")": -1}.get(words[end], 0)
        end += 1
        if depth == 0:
            return words[start:end], end
    return None, start


def applied(words):
    """The names that stand in these words, outside of each other's arguments or in them, each with its arguments."""
    for found in re.finditer(r"\b[A-Z]\w+", words):
        given, end = [], found.end()
        while True:
            it, end = argument(words, end)
            if it is None:
                break
            given.append(it)
        yield found[0], given


def with_given(words, parameters, given):
    """The words with the numbers that are given for parameters in their places."""
    told = {name: it for name, it in zip(parameters, given) if re.fullmatch(r"\d+|\(\w+ - \w+\)", it)}
    return re.sub(r"\b[a-z]\w*\b", lambda it: told.get(it[0], it[0]), words)


def definition(name, page):
    """The lines that define a name, as this file sees it, and the file in which they stand."""
    text = text_of(page)
    found = re.search(rf"^(?:abbrev pub|pub record) {name}\b.*(?:\n.+)*", text, re.M)
    if found and page.endswith(".antt"):
        return found[0].split("\n"), page
    for crate, module, names in re.findall(r"use Rattle\.(\w+)\.specs\.([\w.]+)\.\{([^}]*)\}", text):
        file = f"crates/{crate}/specs/{module.replace('.', '/')}.antt"
        if name in re.findall(r"\w+", names) and glob.glob(file):
            return definition(name, file)
    return [], page


def of_operation(name):
    """How many steps an operation takes at most."""
    return re.search(rf"^most_steps fields \(?ops\.{name}\b[^=]*= (.*)$", text_of(OPERATIONS), re.M)[1]


def size(bound):
    """Bounds by size: numbers first, then those that are a definition's."""
    found = re.search(r"\d+$", bound)
    return "fields" in bound, not found, int(found[0]) if found else 0


def of_words(words, page, operation):
    """The least bound that these words say: those of a clause, or of a line of a definition."""
    if " ⊎ " in words:
        return of_cases(words.split(" ⊎ "), page, operation)
    operation = (re.findall(r"\bops\.(\w+)", words) or [operation])[0]
    bounds = [re.sub(r"[\w.]+\.shape\.fields", "fields", it.strip("()")) for it in AT_MOST.findall(words)]
    bounds = [of_operation(operation) if it.startswith("most_steps") else it for it in bounds] + ["0"] * bool(SAME.search(words))
    for name, given in applied(AT_MOST.sub("", words)):
        bounds.append(of_name(name, given, page, operation))
    return min((it for it in bounds if it), key=size, default=None)


def of_cases(cases, page, operation):
    """The largest bound of these cases, if each has one."""
    bounds = [of_words(it, page, operation) for it in cases]
    return max(bounds, key=size) if bounds and all(bounds) else None


def of_name(name, given, page, operation):
    """The bound that a definition says of the answer Done, or in the field `few`, for these arguments."""
    lines, page = definition(name, page)
    if not lines or lines[0].startswith("pub record"):
        few = [it for it in lines if it.lstrip().startswith("pub few :")]
        parameters = " ".join(re.findall(r"\(([^():]*) :", lines[0])).split() if lines else []
        return of_words(with_given(few[0].strip(), parameters, given), page, operation) if few else None
    sides = [it.partition(" = ") for it in re.sub(r"\n +", " ", "\n".join(lines[1:])).split("\n")]
    done = [it for it in sides if "cames.Done" in it[0]] or [it for it in sides if "cames." not in it[0]]
    cases = [re.sub(rf"\b{name}\b", "", with_given(it[2], it[0].split()[1:], given)) for it in done if it[2] != "⊥"]
    return of_cases(cases, page, operation)


def calls(page):
    """The public calls of a file: the type of each, its name, and its head."""
    owner = ""
    for head in re.split(r"\n(?=impl |\s*pub (?:extern \"C\" )?fn )", text_of(page)):
        owner = (re.findall(r"^impl (\w+) ", head) or [owner])[0]
        found = re.match(r"\s*pub (?:extern \"C\" )?fn (\w+)", head)
        if found:
            yield "C" if found[1].startswith("mhl_") else owner, found[1], re.split(r"\n *\{", head)[0]


def bounds_of(types):
    """The bound of each call of these types of which a clause has one."""
    found = {}
    for page in sorted(glob.glob("crates/*/src/*.rt")):
        for owner, name, head in calls(page):
            if owner in types:
                clauses = re.findall(r"^\s*ensures \w+ \{(?! IfErr)(.*)\}$", head, re.M)
                bounds = [of_words(it, page, "") for it in clauses] + ["0"] * ("(&self" in head)
                found[owner, name] = min((it for it in bounds if it), key=size, default=None)
    return {key: bound for key, bound in found.items() if bound}


def told_in(page, columns):
    """What a page's table tells of each call, in the words of the clauses."""
    found, asked = {}, bounds_of(["Stepper"])
    for names, *cells in rows_of(page, "Call", *columns):
        for owner, cell in zip(columns.values(), cells):
            cell = re.sub(r"^(\d+), and 1 for each reference of an object$", r"fields + \1", cell)
            cell = re.sub(r"^(\d+), and (?:in a shared world )?1 for each root that lags(?:, 32 at most)?$", r"flush_steps (VIEW) + \1", cell)
            cell = re.sub(r"^1 for each slot$", "to - from", cell)
            cell = re.sub(r"^2 for each field$", "2 * count", cell)
            # mhl_deaths forgets a variable and then asks for each death, so no clause of its own has a number.
            cell = re.sub(f'^{asked["Stepper", "forget"]}, and {asked["Stepper", "death"]} for each weak reference$', "", cell)
            cell = re.sub(r"^`(refill|help)_steps`, below$", r"\1_steps most x", cell)
            cell = re.sub(r"^`make_steps`, below, 1 for each root that lags, and 4 for each reference that it is given$",
                          "make_steps (view_of x.seat).shape + flush_steps (VIEW) + 4 * length ns", cell)
            cell = re.sub(r"^`tried_steps`, below$", "tried_steps tried v.shape", cell)
            cell = re.sub(r"^`tracer_help_steps`, below$", "tracer_help_steps most v.shape", cell)
            found.update({(owner, name): cell for name in re.findall(r"`([a-z]\w*)`", names) if cell})
    return found


def compare(page, columns):
    told, bounds = told_in(page, columns), bounds_of(columns.values())
    for key in sorted({*told, *bounds}):
        bound = re.sub(r"flush_steps \(view_of \w+\.seat\)", "flush_steps (VIEW)", bounds[key]) if key in bounds else None
        if told.get(key) != bound:
            print(f"{page}: steps of {key[1]} ({key[0]}): {told.get(key)}, where the clauses have {bounds.get(key)}")


def main():
    compare("docs/EMBEDDING.md", {f"`{it}`": it for it in TYPES})
    compare("docs/EMBEDDING_C.md", {"Steps at most": "C"})


if __name__ == "__main__":
    main()
