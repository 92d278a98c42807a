#!/usr/bin/env python3
"""Makes the program crate that replays a list of the oracle's answers, so that `rt ci` needs no Rust.

    oracle/run sample GROUP COUNT | oracle/replay.py GROUP
    oracle/replay.py published ORIGINAL

The first writes crates/replay/src/GROUP_cases.rt, a function for each case, and target/replay/GROUP.out, what they must print, in which the expected numbers
are the list's; the second does so for the published sets, with the numbers that src/params.rs of the folder ORIGINAL gives. Join the groups' outputs to
crates/replay/stdout in the order in which main calls the groups, and have `rt fmt` lay the modules out; the list of tlwe is that of `--sets halves`. A case
calls the routine that the exported function of its name calls, as crates/egl_c/src has it; rows are looked up in the key that was generated. Each case costs
about a second of every check, so one is taken of each routine, the list's first, and of a routine's two levels one, in turn. Cases with an empty slice or with
more than 70 numbers are left out.
"""
import glob
import os
import re
import sys

MOST = 70
SIX = ["n", "nbit", "bgbit", "l", "basebit", "t"]
PATHS = {"Level": "tlwe::Level", "Plain": "tlwe::Plain", "Torus": "utils::Torus", "Amount": "utils::Amount"}


def exported():
    """For each exported function: its arguments after the six numbers, the call that it makes, and the value beside the answer."""
    found = {}
    for path in glob.glob("crates/egl_c/src/*.rt"):
        for m in re.finditer(r'pub extern "C" fn egl_(\w+)\((.*?)\) -> u64.*?\n\{\n(.*?)\n\}\n', open(path).read(), re.S):
            kinds = [tuple(x.strip() for x in a.split(":", 1)) for a in " ".join(m.group(2).split()).split(",") if ":" in a]
            body = " ".join(m.group(3).split())
            call, value = re.match(r"pack\((.*)\)$", body), None
            if not call:
                call = re.match(r"pack_value\((.*?)(\.map\((.*)\))?\)$", body)
                if not call:
                    continue
                how = call.group(3)
                value = "r.map(u64::from)" if how in (None, "bit_number") else "r" if how == "low_word" else "r.map(|x| u64::from(x.0))"
            text = call.group(1)
            text = re.sub(r"\bnumbers\(.*?\)", "SET", text)
            found[m.group(1)] = ([k for k in kinds if k[0] not in SIX], text, value)
    return found


def literal(kind, word):
    return f"show::double(0x{word})" if kind == "f64" else f"0x{word}"


def put(text, given):
    """The call with the values in the place of the exported function's parameters."""
    text = re.sub(r"\{ (\w+), (\w+) \}", r"{ \1: \1, \2: \2 }", text)
    text = re.sub(r"(?<![\w:.])(\w+)\b(?!\s*[:(])", lambda m: given.get(m.group(1), m.group(1)), text)
    return re.sub(r"\b(\w+)(::\w+|\()", lambda m: PATHS.get(m.group(1), m.group(1)) + m.group(2), text)


def case(line, kinds, call, value, sets):
    left, right = line.split("=>")
    fields = [f.strip().split() for f in left.split("|")]
    name, numbers = fields[0][0], tuple(fields[0][1:])
    results = [f.strip().split() for f in right.split("|")]
    body, shown, given = [], [], {"SET": f"set_{sets.setdefault(numbers, len(sets))}()"}
    for (argument, kind), words in zip(kinds, fields[1:]):
        m = re.match(r"&(mut )?\[(\w+)\]", kind)
        if not m:
            given[argument] = literal(kind, words[0])
            continue
        if not words:
            return None
        change, element = m.group(1) or "", m.group(2)
        body.append(f"    let {change}{argument}: [{element}; {len(words)}] = [{', '.join(literal(element, w) for w in words)}];")
        given[argument] = f"&{change}{argument}"
        if change:
            shown.append(("bytes" if element == "u8" else "words", argument))
    out = [f"fn {name}(rt: &impl Print) -> io::Result<()> {{"] + body + [f"    let r = {put(call, given)};"]
    text = f"{name} {int(results[0][0], 16):08x}"
    if value:
        out.append(f'    show::value(rt, "{name}", {value})')
        text += " | %08x" % int(results[1][0], 16)
    else:
        how = shown[0][0] if len(shown) == 1 else "pair"
        out.append(f'    show::{how}(rt, "{name}", r, {", ".join("&" + x for _, x in shown)})')
        text += "".join(" |" + "".join(" %08x" % int(w, 16) for w in words) for words in results[1:])
    if name == "key_gen_key_switching_key":
        looked, seen = lookups(numbers, given["SET"], results[1])
        out[-1] += "?;"
        out, text = out + looked, text + seen
    return out + ["}", ""], text


def lookups(numbers, params, key):
    """`switching_row` on a generated key: its last row, which is its last n + 1 words, and one of k = 0, which there is not and which is empty."""
    n, nbit, _, _, basebit, t = (int(x, 16) for x in numbers)
    indices = [(1 << nbit) - 1, t - 1, (1 << basebit) - 1], [0, 0, 0]
    lines = [f'    show::row(rt, "key_switching_row", key::switching_row({params}, &out, {", ".join(map(hex, x))}))' for x in indices]
    lines[:-1] = [line + "?;" for line in lines[:-1]]
    return lines, "\nkey_switching_row |" + "".join(" %08x" % int(w, 16) for w in key[-n - 1 :]) + "\nkey_switching_row |"


def published(original):
    """The published sets: the numbers that the original's text gives each, and the calls that must print them."""
    text = open(os.path.join(original, "src/params.rs")).read()
    want, calls = [], []
    for m in re.finditer(r"pub const SECURITY_(\w+): SecurityParams = SecurityParams \{(.*?)\n\};", text, re.S):
        name, body = m.group(1).lower(), m.group(2)
        level0 = re.search(r"tlwe_lv0: TlweParams \{(.*?)\}", body, re.S).group(1)
        rows = re.search(r"trgsw_lv1: TrgswParams \{(.*?)\}", body, re.S).group(1)
        six = [int(re.search(rf"\b{f}: (\d+)", part).group(1)) for f, part in [("n", level0)] + [(f, rows) for f in ("nbit", "bgbit", "l", "basebit", "iks_t")]]
        routine = f"security_{name}" if name.endswith("_bit") else name
        calls.append(f'    show::set(rt, "published_{name}", published::{routine}())')
        want.append(f"published_{name} |" + "".join(" %08x" % x for x in six))
    write("published", ["// The published sets, made by oracle/replay.py from the original's text.", "use std::io;", "", "use super::show;", "use params::published;", ""], calls, want)


def write(group, lines, calls, want):
    os.makedirs("crates/replay/src", exist_ok=True)
    os.makedirs("target/replay", exist_ok=True)
    with open(f"crates/replay/src/{group}_cases.rt", "w") as f:
        f.write("\n".join(lines + ["pub fn run(rt: &impl Print) -> io::Result<()> {"] + [call + "?;" for call in calls[:-1]] + calls[-1:] + ["}"]) + "\n")
    with open(f"target/replay/{group}.out", "w") as f:
        f.write("\n".join(want) + "\n")
    print(f"{group}: {len(calls)} cases")


def main():
    if sys.argv[1] == "published":
        return published(sys.argv[2])
    group, table, sets = sys.argv[1], exported(), {}
    first = {}
    for line in sys.stdin:
        name = line.split()[0] if line.strip() else ""
        if "=>" in line and len(line.split()) <= MOST and name in table:
            first.setdefault(name, line)
    code, want, calls, levels = [], [], [], 0
    for name, line in first.items():
        level = re.search(r"_lv([01])$", name)
        if level:
            levels += 1
            if int(level.group(1)) != (levels - 1) // 2 % 2:
                continue
        made = case(line, *table[name], sets)
        if made:
            code += made[0]
            want.append(made[1])
            calls.append(f"    {name}(rt)")
    head = [f"// Cases of the group {group}, made by oracle/replay.py from the list that the oracle samples.", "use std::io;", "", "use super::show;", "use params::Params;", ""]
    for numbers, k in sets.items():
        fields = ", ".join(f"{f}: 0x{x}" for f, x in zip(SIX, numbers))
        head += [f"fn set_{k}() -> Params {{", f"    Params {{ {fields} }}", "}", ""]
    write(group, head + code, calls, want)


main()
