"""The public calls of the crates that the user of the library calls, read from their sources."""

import glob
import os
import re

from ..explaining.page import TOP
from ..scenarios.bundles import Refused, read

PAGE = "docs/surface.txt"
# The crates that docs/library.md names by task, and the ones whose types their calls have.
CRATES = ("pals_top", "pals_io", "program_edge", "bundle_designs", "aadl_lex", "aadl_tree", "aadl_parse", "aadl_print",
          "aadl_instance", "model_checks", "bound_checker", "behaviour_sem", "input_adaptors", "sync_product",
          "pals_report", "analysis_texts", "scenario_json", "scenario_values", "analysis_fields", "run_monitor",
          "triple_vote", "plant_fuse", "round_budget", "step_compiler", "design_codes", "step_code", "step_vm",
          "round_timer", "output_backoff", "link_buffers", "pals_node", "pals_bus", "loose_world", "timed_world",
          "world_gen", "pals_clock", "node_threads", "pals_model", "pals_runs", "pals_base")
HEAD = """The public calls of the crates that docs/library.md names: the items that a crate exports, with their methods.
tools/surface makes this list from the sources. A difference is a change that users of the library see.
"""
# Comments, texts, characters and attributes, in which braces count for nothing.
IGNORED = re.compile(r"//[^\n]*|\"(?:\\.|[^\"\\])*\"|'(?:\\.[^']*|[^\\'])'|#!?\[[^\]]*\]")
ITEM = re.compile(r"\b(pub (?:const )?fn|pub struct|pub enum|pub trait|pub type|pub const|impl|fn)\b")
BRACE = re.compile(r"[{}]")
ENDS = re.compile(r"\b(?:requires|ensures)\b|[{;=]")


def surface(top=TOP):
    """The text of the list."""
    parts = [HEAD]
    for crate in CRATES:
        folder = os.path.join(top, "crates", crate, "src")
        if not os.path.isdir(folder):
            raise Refused(f"there is no crate {crate}")
        parts.append(f"\n{crate}\n" + "".join(f"  {line}\n" for line in lines_of(folder)))
    return "".join(parts)


def lines_of(folder):
    """The lines of a crate: each item that its root exports, with the methods of a type."""
    texts = {os.path.relpath(path, folder): IGNORED.sub("", read(path).decode("utf-8", "replace"))
             for path in sorted(glob.glob(f"{folder}/**/*.rt", recursive=True))}
    names, modules = exported(texts.get("lib.rt", texts.get("main.rt", "")))
    found = {}
    for path, text in texts.items():
        is_open = path in ("lib.rt", "main.rt") or path[:-3].split(os.sep)[0] in modules
        for owner, kind, name, line in items(text):
            # A function that takes nothing, or only looks at its own value, and has no result is a law.
            if kind.endswith("fn") and re.search(r"\((?:&self)?\)$", line):
                continue
            if (owner or name) in names or (is_open and kind != "fn"):
                found.setdefault(owner or name, []).append((owner is not None, line))
    return [("  " if inner else "") + line for name in sorted(found) for inner, line in sorted(set(found[name]))]


def exported(root):
    """The names that a crate's root exports, and its public modules."""
    names = set()
    for used in re.findall(r"\bpub use ([^;]+);", root):
        names |= set(re.findall(r"(\w+)\s*(?=[,}]|$)", used.strip()))
    return names, set(re.findall(r"\bpub mod (\w+);", root))


def items(text):
    """The public items of a source, each with the type that it belongs to, its kind, its name and its line."""
    at, owner, depth, in_trait = 0, None, 0, False
    while True:
        match = ITEM.search(text, at)
        brace = BRACE.search(text, at)
        if depth and brace and (not match or brace.start() < match.start()):
            depth += 1 if brace.group() == "{" else -1
            at = brace.end()
            continue
        if not match:
            return
        end = ENDS.search(text, match.end())
        at = end.start() if end else len(text)
        line, kind = tidy(text[match.start():at]), match.group(1)
        if kind in ("impl", "pub trait"):
            owner, in_trait = owner_of(line), kind == "pub trait"
            at, depth = (text.find("{", at) + 1 or len(text)), 1
            if in_trait:
                yield None, kind, owner, line
            continue
        name = re.match(r"\w+", line[len(kind):].strip())
        if name and (kind != "fn" or (in_trait and depth == 1)):
            yield (owner if depth else None), kind, name.group(), line
        if kind.endswith("fn"):
            at = after_body(text, at)


def tidy(line):
    """A signature on one line."""
    return " ".join(line.split()).replace("( ", "(").replace(", )", ")")


def owner_of(line):
    """The type of an impl of its own, or the trait; None for an impl of a trait."""
    line = re.sub(r"^(?:impl|pub trait)\s*(?:<[^>]*>)?\s*", "", line)
    return None if re.search(r"\bfor\b", line) else re.match(r"\w*", line).group()


def after_body(text, at):
    """The place after the clauses and the body of a function, or after its `;`."""
    depth = 0
    for match in re.compile(r"[{};]|\b(?:requires|ensures)\b").finditer(text, at):
        word = match.group()
        if word == ";" and not depth:
            return match.end()
        depth += {"{": 1, "}": -1}.get(word, 0)
        if word == "}" and not depth and not re.match(r"\s*(?:requires|ensures|\{)", text[match.end():]):
            return match.end()
    return len(text)
