"""Takes the functions of a crate's copy at their word: each keeps its contract, and loses its body and its proof.

`rt ci` proves these functions. A check of others that call them need not prove them once more: a call is shown by
the contract of what it calls, and by nothing else of it. So the proof is one hole, which a check under --allow-holes
takes for a proof, and the body an endless loop, so that the check does not go on to what the body calls.
"""

import os
import re
import shutil

HEAD = re.compile(r" *(?:pub(?:\(.*?\))? )?(?:const )?fn (\w+)\b")
TYPE = re.compile(r"^(?:pub(?:\(.*?\))? )?(?:struct|enum) (\w+)", re.M)

PROOF = """use Rattle.{crate}.proofs.{module}.Statement.{{statement}}

pub {name}_spec : {{M : Type 1}} → statement M
{name}_spec = ?
"""


def files_of(folder):
    """The files of a crate's code, each with the module that it is."""
    for at, _, names in os.walk(f"{folder}/src"):
        for name in sorted(names):
            path = os.path.relpath(f"{at}/{name}", f"{folder}/src").removesuffix(".rt").removesuffix("/mod")
            yield f"{at}/{name}", [] if path == "lib" else path.split("/")


def text_of(path):
    """What stands in a file."""
    with open(path, encoding="utf-8") as it:
        return it.read()


def block_of(lines, head):
    """The head of the `impl` or the trait in which the function that begins here stands, in one line, or nothing."""
    if not lines[head].startswith(" "):
        return ""
    begins = max(at for at in range(head) if re.match(r"(impl|(pub(\(.*?\))? )?(trait|mod))\b", lines[at]))
    # (a long head goes on in further lines)
    ends = next(at for at in range(begins, head) if lines[at].endswith("{"))
    return " ".join(it.strip() for it in lines[begins : ends + 1])


def is_of_trait(lines, head):
    """Does the function that begins here stand in a trait, or in an `impl` of one?"""
    return bool(re.match(r"impl\b.* for |.*\btrait ", block_of(lines, head)))


def own_type(block):
    """The type of which this is an `impl`, after the module that is written before it, and whether it is one for all
    parameters. Else the name has the arguments."""
    given = re.match(r"impl(?:<(.*?)>)? ((?:\w+::)*)(\w+)(?:<(.*)>)? (?:where .*)?\{", block)
    if not given:
        return "", "", False
    names = re.findall(r"(?<!')\b[A-Za-z]\w*", given[4] or "")
    parameters = re.findall(r"(?:^|, )(?:const )?([A-Za-z]\w*)", given[1] or "")
    is_for_all = set(names) <= set(parameters)
    return given[2], given[3] if is_for_all else "+".join([given[3], *names]), is_for_all


def home_of(own, behind, homes, module, text):
    """The module of a type that a file of this module names, of those that have such a type, or nothing."""
    if behind:
        homes = [it for it in homes if it[-1:] == behind.split("::")[-2:-1]]
    elif module in homes:
        homes = [module]
    elif len(homes) > 1:
        used = rf"^use crate::%s::(\{{[^}}]*)?\b{own}\b"
        homes = [it for it in homes if re.search(used % "::".join(it), text, re.M)]
    return homes[0] if len(homes) == 1 else None


def body_of(lines, head, last):
    """The lines of the body of the function that stands here, or nothing where it has one line."""
    indent = lines[head][: len(lines[head]) - len(lines[head].lstrip())]
    alone = [at for at in range(head, last) if lines[at] == f"{indent}{{"]
    ends = [at for at in range(head, last) if re.match(rf"{indent}\S.*\{{$", lines[at])]
    begins = (alone or ends or [last])[0]
    # (a law has none)
    return range(begins + 1, last)


def functions_of(folder):
    """The functions of a crate, but for methods of traits, of which the name says more: each with its name below the
    crate, its file, the line where it begins, and those of its body."""
    files = list(files_of(folder))
    stands = {}
    for path, module in files:
        for name in TYPE.findall(text_of(path)):
            stands.setdefault(name, []).append(module)
    for path, module in files:
        text = text_of(path)
        lines = text.split("\n")
        for head, line in enumerate(lines):
            name = HEAD.match(line)
            if not name or line.endswith(("}", ";")) or is_of_trait(lines, head):
                continue
            indent, owner = line[: len(line) - len(line.lstrip())], module
            if indent:
                behind, own, is_for_all = own_type(block_of(lines, head))
                home = home_of(own, behind, stands.get(own, []), module, text) if is_for_all else module
                if home is None:
                    continue
                owner = [*home, own]
            last = next(at for at in range(head, len(lines)) if lines[at] in (f"{indent}}}", f"{indent}{{}}"))
            yield "::".join([*owner, name[1]]), path, head, body_of(lines, head, last)


def leave(folder, crate, function):
    """Puts a hole in the place of the function's proof, and removes what its closures' proofs have."""
    parts = function.split("::")
    own = f"{folder}/proofs/{'/'.join(parts)}"
    os.makedirs(own, exist_ok=True)
    for name in os.listdir(own):
        if name in ("Answers.antt", "Invariants.antt"):
            os.remove(f"{own}/{name}")
    with open(f"{own}/Proof.antt", "w", encoding="utf-8") as it:
        it.write(PROOF.format(crate=crate, module=".".join(parts), name=parts[-1]))
    # (those of closures lie below a folder `fn` of the module)
    for at in range(len(parts)):
        shutil.rmtree("/".join([folder, "proofs", *parts[:at], "fn", *parts[at:]]), ignore_errors=True)


def without_body(lines, head, body):
    """Takes the body of a function away, and the lemmas that the search for its proof is given."""
    indent = lines[body.stop][: -len("}")]
    lines[body.start : body.stop] = [f"{indent}    loop {{}}"]
    while re.match(r" *(#\[|///)", lines[head - 1]):
        head -= 1
        if lines[head].lstrip().startswith("#[tactic("):
            del lines[head]


def take_at_word(folder, crate, tried):
    """Takes all functions of the crate's copy at their word but those that are tried, and the methods of traits."""
    taken = {}
    for function, path, head, body in functions_of(folder):
        if function not in tried and body:
            leave(folder, crate, function)
            taken.setdefault(path, []).append((head, body))
    for path, found in taken.items():
        lines = text_of(path).split("\n")
        for head, body in reversed(found):
            without_body(lines, head, body)
        with open(path, "w", encoding="utf-8") as it:
            it.write("\n".join(lines))
