"""The hints of the sources, as `#[inline(always)]`, by the names that functions have in the lowered module."""

import os
import re

ATTRIBUTE = re.compile(r"( *)#\[(inline\(always\)|inline\(never\)|inline|cold)\]")
FN = re.compile(r"( *)(?:pub(?:\([^)]*\))? )?(?:default )?(?:const )?(?:unsafe )?(?:extern \"\w+\" )?fn (\w+)")
HEAD = re.compile(r" *(?:pub(?:\([^)]*\))? )?(?:unsafe )?(impl|trait|mod|macro_rules!|macro)\b(.*)")
WORDS = {"inline(always)": "alwaysinline", "inline(never)": "noinline", "inline": "inlinehint", "cold": "cold"}


def without_generics(text):
    """Text without what stands in angle brackets."""
    out, depth, at = [], 0, 0
    while at < len(text):
        if text.startswith("->", at) or text.startswith("=>", at):
            if not depth:
                out.append(text[at : at + 2])
            at += 2
            continue
        if text[at] == "<":
            depth += 1
        elif text[at] == ">":
            depth -= 1
        elif not depth:
            out.append(text[at])
        at += 1
    return "".join(out)


def last(name):
    """The last name of a path, or None."""
    found = re.search(r"(\w+)\s*$", name)
    return found[1] if found else None


def impl_of(text):
    """The trait and type of an impl's head: their last names, None where there is none."""
    bare = without_generics(text).split("{")[0].split(" where")[0].strip()
    trait, found, kind = bare.rpartition(" for ")
    if not found:
        return None, last(bare) or bare
    return last(trait), kind.strip()


def camel(kind):
    """How a type begins the name of an impl of a trait."""
    kind = kind.strip()
    if kind.startswith("&"):
        kind = re.sub(r"^&\s*('\w+\s*)?(mut\s+)?", "", kind)
        return "Ref" + ("" if re.fullmatch(r"[A-Z]", kind) else camel(kind))
    if kind.startswith("["):
        return "Array" if ";" in kind else "Slice"
    if kind.startswith("("):
        return f"Tuple{len([it for it in kind.strip('()').split(',') if it.strip()])}" if kind != "()" else "Unit"
    name = last(kind) or ""
    return name[:1].upper() + name[1:]


def hinted(name, source):
    """The hinted functions of a crate: module, head, fn and LLVM's words."""
    root = os.path.dirname(source)
    for folder, _, files in sorted(os.walk(root)):
        for file in sorted(files):
            if not file.endswith(".rt"):
                continue
            path = f"{folder}/{file}"
            parts = os.path.relpath(path, root)[:-3].split("/")
            parts = [] if parts in (["lib"], ["main"]) else parts[:-1] if parts[-1] == "mod" else parts
            with open(path, encoding="utf-8") as it:
                lines = it.read().split("\n")
            waiting, indent = [], -1
            for number, line in enumerate(lines):
                found = ATTRIBUTE.match(line)
                if found:
                    waiting = waiting + [WORDS[found[2]]]
                    indent = len(found[1])
                    continue
                if not waiting:
                    continue
                found = FN.match(line)
                if not found:
                    if line.strip() and not re.match(r" *(#\[|//)", line) and len(line) - len(line.lstrip()) <= indent:
                        waiting = []
                    continue
                head, deep = None, len(found[1])
                for back in range(number - 1, -1, -1):
                    above = lines[back]
                    level = len(above) - len(above.lstrip())
                    if above.strip() and level < deep:
                        told = HEAD.match(above)
                        if told:
                            # (a head may go on over further lines, up to its brace)
                            text, more = told[2], back + 1
                            while "{" not in text and more < number:
                                text += " " + lines[more].strip()
                                more += 1
                            head = (told[1], text)
                            break
                yield "::".join([name, *parts]), head, found[2], waiting, f"{path}:{number + 1}"
                waiting = []


def stripped(name):
    """A function's name without the types that it is made for."""
    at = name.find("::<")
    return name if at < 0 else name[:at]


def attributes(names, libraries):
    """Of each name of the module, the LLVM words that the sources give it; and the hints that name none."""
    by_crate, words, lost = {}, {}, []
    for name in names:
        bare = stripped(name)
        by_crate.setdefault(bare.split("::")[0], {}).setdefault(bare.split("::")[-1], []).append((bare, name))
    for crate, source in libraries:
        if crate not in by_crate:
            continue
        for module, head, fn, given, where in hinted(crate, source):
            near = by_crate[crate].get(fn, [])
            if head is None or head[0] == "mod":
                got = [name for bare, name in near if bare == f"{module}::{fn}" or (head and bare.startswith(module) and bare.endswith(f"::{last(head[1].split('{')[0].strip()) or ''}::{fn}"))]
            elif head[0] == "trait":
                kind = re.match(r"\s*(\w+)", head[1])[1]
                got = [name for bare, name in near if kind in re.split(r"::|\+", bare)]
            elif head[0] == "impl":
                trait, kind = impl_of(head[1])
                if trait is None:
                    wanted = "slice+T" if kind.startswith("[") else last(kind) or kind
                    got = [name for bare, name in near if len(bare.split("::")) > 2 and bare.split("::")[-2] == wanted]
                else:
                    wanted = camel(kind) + trait
                    got = [name for bare, name in near if len(bare.split("::")) > 2 and bare.split("::")[-2].startswith(wanted)]
                    # Of more than one impl of a trait for a type, those of the arguments: `U64FromU8`.
                    argument = re.search(re.escape(trait) + r"<(?:&?(?:'\w+ )?)(\w+)", head[1])
                    if argument and len({stripped(name) for name in got}) > 1:
                        exact = [name for name in got if stripped(name).split("::")[-2] == wanted + camel(argument[1])]
                        got = exact or got
            else:
                got = [name for bare, name in near]
            if not got:
                lost.append((where, crate, head, fn, given, [bare for bare, _ in near][:3]))
            for name in got:
                words.setdefault(name, set()).update(given)
    return words, lost
