#!/usr/bin/env python3
"""definitions.py CRATE.FILE.NAME..: the definitions that a reader of these has to read, file by file from the bottom, with their
sizes in lines: no imports, comments or blank lines. What std and the kit's crates define isn't counted."""
import os, re, sys

TOP = os.path.join(os.path.dirname(os.path.abspath(__file__)), "..", "..", "crates")
WORD = re.compile(r"[^\s(){}\[\],;.λ]+")


def blocks_of(lines):
    """The blocks of a file: the lines of each definition, by name."""
    found, current = [], None
    for line in lines:
        if line.lstrip().startswith("--"):
            continue
        text = line.rstrip()
        if not text.strip():
            current = None
            continue
        if re.match(r"^(pub )?(use|mod)\b", text) or re.match(r"^\s*module _", text) or re.match(r"^\s*(abbrev |data )?(pub )?mutual$", text):
            current = None
            continue
        words = text.split()
        heads = {"abbrev", "unfoldable", "pub", "record", "data"}
        is_field = words[0] == "pub" and current is not None and current["kind"] == "record" and len(line) - len(line.lstrip()) > current["indent"]
        is_value = words[:2] == ["record", "{"]
        if words[0] in heads and not is_field and not is_value:
            rest = [w for w in words if w not in heads]
            name = rest[0]
            current = {"name": name, "kind": "record" if "record" in words else "data" if "data" in words else "value", "indent": len(line) - len(line.lstrip()), "lines": []}
            found.append(current)
        elif current is None:
            name = words[0]
            last = found[-1] if found else None
            if last and last["name"] == name or last and last["kind"] == "data":
                current = last
            else:
                current = {"name": name, "kind": "value", "indent": len(line) - len(line.lstrip()), "lines": []}
                found.append(current)
        current["lines"].append(text)
    return found


def read():
    files = {}
    for crate in sorted(os.listdir(TOP)):
        specs = os.path.join(TOP, crate, "specs")
        if not os.path.isdir(specs):
            continue
        for name in sorted(os.listdir(specs)):
            if not name.endswith(".antt") or name == "Lib.antt":
                continue
            lines = open(os.path.join(specs, name)).read().split("\n")
            imports, modules = {}, {}
            for line in lines:
                m = re.match(r"^(?:pub )?use Rattle\.(\w+)\.specs\.([\w.]+?)\.\{(.*)\}", line)
                if m:
                    for item in m.group(3).split(","):
                        parts = item.split(" as ")
                        imports[parts[-1].strip()] = (m.group(1), m.group(2), parts[0].strip())
                m = re.match(r"^(?:pub )?use Rattle\.(\w+)\.specs\.([\w.]+) as ([\w-]+)$", line)
                if m:
                    modules[m.group(3)] = (m.group(1), m.group(2))
            own = {}
            for block in blocks_of(lines):
                for word in [block["name"]] + ([l.split()[0] for l in block["lines"][1:]] if block["kind"] == "data" else []):
                    own.setdefault(word, block)
            files[(crate, name[:-5])] = (imports, modules, own)
    return files


def closure(files, roots):
    seen, order = set(), []

    def visit(crate, file, name):
        if (crate, file) not in files:
            return
        imports, modules, own = files[(crate, file)]
        if name not in own:
            if name in imports:
                visit(*imports[name])
            return
        block = own[name]
        if id(block) in seen:
            return
        seen.add(id(block))
        text = "\n".join(block["lines"])
        for alias, (c, f) in modules.items():
            for m in re.finditer(re.escape(alias) + r"\.([^\s(){}\[\],;]+)", text):
                visit(c, f, m.group(1))
        for word in WORD.findall(text):
            if word == name:
                continue
            if word in own:
                visit(crate, file, word)
            elif word in imports:
                visit(*imports[word])
        order.append((crate, file, block))

    for root in roots:
        crate, file, name = root.split(".")
        visit(crate, file, name)
    return order


def main():
    files = read()
    sizes = {}
    for crate, file, block in closure(files, sys.argv[1:]):
        lines, names = sizes.setdefault((crate, file), [0, []])
        sizes[(crate, file)][0] += len(block["lines"])
        names.append(block["name"])
    total = 0
    for (crate, file), (lines, names) in sizes.items():
        total += lines
        print(f"{lines:5} {crate}/{file}: {' '.join(names)}")
    print(f"{total:5} lines")


if __name__ == "__main__":
    main()
