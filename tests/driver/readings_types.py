"""Plain slow readings of the types of variables and of spreads: sections 5.8.5 and 5.5.2.3 of the GraphQL specification, over the texts of
types and over lists of object types."""

from collections.abc import Iterator


def are_compatible(variable: str, location: str) -> bool:
    """`AreTypesCompatible`."""
    if location.endswith("!"):
        return variable.endswith("!") and are_compatible(variable[:-1], location[:-1])
    if variable.endswith("!"):
        return are_compatible(variable[:-1], location)
    if location.startswith("[") and variable.startswith("["):
        return are_compatible(variable[1:-1], location[1:-1])
    return variable == location


def is_usage_allowed(variable: str, default: str, location: str, location_default: str) -> bool:
    """`IsVariableUsageAllowed`, with the texts of defaults, which are empty where there are none."""
    if location.endswith("!") and not variable.endswith("!"):
        has_value = default not in ("", "=null")
        return (has_value or location_default != "") and are_compatible(variable, location[:-1])
    return are_compatible(variable, location)


def default_of(of_type: str) -> str:
    return "=[]" if of_type.startswith("[") else "=X"


def defaults_of(variable: str) -> list[str]:
    """The defaults that a variable may have: none, a value, or null if its type has no `!`."""
    return ["", default_of(variable)] + ([] if variable.endswith("!") else ["=null"])


def usages(types: list[str]) -> Iterator[tuple[str, str, bool]]:
    """For each variable and each location of such types, with each default that they may have: the type and the default of an argument of
    the field f, a document that uses the variable there, and whether it may."""
    for location in types:
        for location_default in ("", default_of(location)):
            for variable in types:
                for default in defaults_of(variable):
                    document = f"query($v:{variable}{default}){{f(a:$v){{k}}}}"
                    allowed = is_usage_allowed(variable, default, location, location_default)
                    yield location + location_default, document, allowed


def spreads(lines: list[str]) -> Iterator[tuple[str, bool]]:
    """For each two types of some lines, each of which has a field of the type, the type and its object types, as `named Named: User Bot`: a
    document that spreads the one in the other, and whether it may."""
    told = [(*head.split(" "), set(objects.split())) for head, objects in (line.split(": ") for line in lines)]
    for field, _, objects in told:
        for _, name, others in told:
            yield f"{{{field}{{...on {name}{{__typename}}}}}}", bool(objects & others)
