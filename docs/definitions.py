#!/usr/bin/env python3
"""Writes docs/DEFINITIONS.md from the comments above the definitions in specs/.

Usage: docs/definitions.py [FILE]

Writes to FILE where one is given.

The crates and their files stand in reading order below. A definition without a comment of its own has that of the
definition before it.
"""

import os
import re
import sys

FILES = {
    "grind_outside": ["NamedFiles", "Outside"],
    "grind_undo_trail": ["Marks", "Rising"],
    "grind_lemmas": None,
    "grind_term_graph": ["Terms", "Shape", "Beginnings", "Same", "Placed", "Laws"],
    "grind_reach": ["Reached", "Readings", "Marks", "Values", "Laws"],
    "grind_linear_forms": ["Forms", "Sums", "Cuts", "Readings", "Values", "Coefficients", "Naming", "Laws"],
    "grind_monomials": ["Monomials", "Order", "Counts", "Laws"],
    "grind_polynomials": ["Numbers", "Polynomials", "Sums", "Readings", "Values", "Laws"],
    "grind_normal_forms": ["Pairs", "Reduction", "Gathering", "FinalFactors", "Laws"],
    "grind_differences": ["Bounds", "Differences", "Equations", "Held", "Laws"],
    "grind_classes": ["Classes", "Trail"],
    "grind_class_joins": ["Joins"],
    "grind_congruence": ["Derivable", "Congruence", "Edges", "Marks", "Table", "Changes", "Forest", "Exact", "Asserted"],
    "grind_needed_edges": ["Needed", "Numbered", "Plans"],
    "grind_schemes": ["Labels", "Goals", "Limits", "Schemes", "Theorems", "Instances", "InstanceNodes", "Laws"],
    "grind_claims": ["Claims", "Laws"],
    "grind_term_rules": ["TermRules"],
    "grind_truth_tables": ["Tables", "Laws"],
    "grind_arithmetic_rules": ["LinearRules", "PolyRules"],
    "grind_ring_basis": ["Bases", "Pairs", "Shares", "Lines", "Laws"],
    "grind_ring_units": ["Given", "Zeroed", "PostUnits", "PairUnits", "Conflicts", "EqualTerms", "Agendas", "Scans"],
    "grind_ring_solver": ["Given", "Steps", "Laws"],
    "grind_rules": ["Rules", "Laws"],
    "grind_fitting_claims": ["Fitting", "Results", "Derivations", "LinearReadings", "PolyResults", "PolyReadings"],
    "grind_proof_kernel": ["Literals", "Typing", "Judgement", "Laws"],
    "grind_par_check": ["Judges", "Laws"],
    "grind_proof_writer": ["Lines", "Branches", "Writing", "Laws"],
    "grind_explain": ["Explained"],
    "grind_ematch": ["Matches"],
    "grind_truth_prop": ["Kernel", "Given", "Evidence", "Classed", "Sides", "Equations", "Connectives", "Splits", "Steps", "Laws"],
    "grind_cutsat_facts": ["Facts", "Covering"],
    "grind_cutsat_bounds": ["Evaluations", "Bounds", "Nearest", "Choices"],
    "grind_cutsat_assignment": ["Given", "Assignments", "Laws"],
    "grind_cutsat_units": ["Posts", "Comparisons", "Equalities", "Equations", "Cuts", "Clashes", "Pinches", "Strictness", "Settled", "Laws"],
    "grind_cutsat_splits": ["Splits"],
    "grind_cutsat_evidence": ["Evidence"],
    "grind_scenes": ["Scenes", "Formulas"],
    "grind_goal_equations": ["Congruences", "Facts", "Building", "Given", "Laws"],
    "grind_given_lines": ["Writing", "Written"],
    "grind_case_split": ["Congruences"],
    "grind_value_tables": ["Respects", "Truths", "Evaluations", "Overflows", "Laws"],
    "grind_tokens": ["Tokens"],
    "grind_grammar": ["Lexemes", "Terms", "Names", "Grammar", "Parentheses", "Files", "Keeps", "Laws"],
    "grind_syntax": ["Refusals"],
    "grind_signature": ["Signatures"],
    "grind_resolution": ["Scopes", "Contexts", "Sorting", "Resolved", "DeclaredSchemes", "Sizes", "Same", "Laws"],
    "grind_patterns": ["Copies", "Patterns"],
    "grind_annotations": ["Written", "Giving", "Asking"],
    "grind_theory": ["States", "Faults", "Theories", "Kept", "Building", "Laws"],
    "grind_report_words": ["Words", "Terms", "Claims", "RuleRows", "Lines", "Boards", "Steps", "Reports", "Laws", "StepCases"],
    "grind_journal": ["Posts", "Joins", "Typed", "Laws"],
    "grind_known_posts": ["Known", "Laws"],
    "grind_board_state": ["Agents", "Reads", "States"],
    "grind_closure_steps": ["Truths", "Clashes", "Steps", "Laws"],
    "grind_report": ["Blocks", "Report"],
    "grind_command": ["Commands", "Statuses", "Notes"],
    "grind_theory_files": ["TheoryFiles", "Reading"],
    "grind_answers": ["Answers", "Endings"],
}

# What the clauses of `run` say, each word before those that it rests on.
FIRST = [
    ("grind_command", "Commands", "IsSolve"),
    ("grind_answers", "Endings", "Ends"),
    ("grind_theory_files", "TheoryFiles", "TheoryOf"),
    ("grind_tokens", "Tokens", "TokensOf"),
    ("grind_grammar", "Files", "DeclarationsOf"),
    ("grind_theory", "Theories", "IsTheoryOf"),
    ("grind_report", "Report", "ReportOf"),
    ("grind_report", "Blocks", "IsBlockOf"),
    ("grind_answers", "Answers", "AnswersAll"),
    ("grind_goal_equations", "Congruences", "IsAnswered"),
    ("grind_goal_equations", "Congruences", "CongruenceEntails"),
    ("grind_congruence", "Derivable", "Derivable"),
    ("grind_answers", "Answers", "IsGroundGoal"),
    ("grind_report", "Blocks", "ProofOf"),
    ("grind_proof_kernel", "Typing", "Typed"),
    ("grind_proof_kernel", "Typing", "IsGoodBranch"),
    ("grind_proof_kernel", "Typing", "TypedLine"),
    ("grind_rules", "Rules", "RuleAllows"),
    ("grind_answers", "Answers", "IsTrueEverywhere"),
    ("grind_value_tables", "Respects", "Respects"),
    ("grind_value_tables", "Truths", "GoalTrue"),
    ("grind_theory_files", "TheoryFiles", "IsRefusedFor"),
    ("grind_tokens", "Tokens", "Breaks"),
    ("grind_grammar", "Files", "RefusedAt"),
    ("grind_theory", "Theories", "RefusedAt"),
    ("grind_theory", "Faults", "FaultOf"),
    ("grind_command", "Notes", "Notes"),
]

HEAD = """# Definitions

What a reader must believe: each definition, one sentence, and its file. First come those by which the contract of `run` speaks,
then all of them, crate by crate in reading order. Files of `specs/` that are not listed here serve private contracts alone.
`docs/definitions.py` writes this page.

## What `run` promises

The words of the clauses of `run` (`crates/grind_cli/src/run.rt`), each before those that it rests on: what a file is, what a report
says of it, when a goal is closed, what its proof is worth, and why a file is refused.
"""

DEFINITION = re.compile(r"(?:(?:abbrev|unfoldable) )?pub (?:abbrev |data |record )?([A-Za-z_][\w\-]*)")
GROUP = re.compile(r"(?:(?:abbrev|unfoldable) )?mutual|module")


def sentence(words):
    """The comment as a sentence; a production of the grammar stays as it is."""
    text = " ".join(words).strip()
    if not text:
        return ""
    if not re.match(r"^`|^[a-z]+ =|^[A-Z_]+ \{|^[\[{]", text):
        text = text[0].upper() + text[1:]
    return (text if text[-1] in ".?!" else text + ".").replace("|", "\\|")


def definitions(path):
    """What the file is about, and its definitions, each with its sentence."""
    with open(path, encoding="utf-8") as file:
        lines = file.read().split("\n")
    head = []
    while lines and lines[0].startswith("--"):
        head.append(lines.pop(0)[2:].strip())
    found, comment, last, group = [], [], "", False
    for line in lines:
        text = line.strip()
        depth = len(line) - len(line.lstrip())
        if not text:
            comment = []
            continue
        if text.startswith("--"):
            comment.append(text[2:].strip())
            continue
        if depth == 0:
            group = bool(GROUP.match(text))
            if group:
                continue
        name = DEFINITION.match(text)
        if name and (depth == 0 or (depth == 2 and group)):
            last = sentence(comment) or last
            found.append((name.group(1), last))
        comment = []
    return " ".join(head), found


def first(top):
    """The table of the definitions under `run`."""
    rows = []
    for crate, name, word in FIRST:
        path = os.path.join("crates", crate, "specs", name + ".antt")
        texts = dict(definitions(os.path.join(top, path))[1])
        rows.append(f"| `{word}` | {texts[word]} | `{path}` |")
    return "| Definition | What it says | File |\n|---|---|---|\n" + "\n".join(rows) + "\n"


def page(top):
    """The whole page."""
    parts = [HEAD, first(top)]
    for crate, files in FILES.items():
        folder = os.path.join(top, "crates", crate, "specs")
        if not os.path.isdir(folder):
            continue
        parts.append(f"## `{crate}`\n")
        names = files or sorted(name[:-5] for name in os.listdir(folder) if name.endswith(".antt") and name != "Lib.antt")
        for name in names:
            head, found = definitions(os.path.join(folder, name + ".antt"))
            rows = "\n".join(f"| `{word}` | {text} |" for word, text in found)
            parts.append(f"`specs/{name}.antt`: {head}\n")
            parts.append(f"| Definition | What it says |\n|---|---|\n{rows}\n")
    return "\n".join(parts)


def main():
    docs = os.path.dirname(os.path.abspath(__file__))
    to = sys.argv[1] if len(sys.argv) > 1 else os.path.join(docs, "DEFINITIONS.md")
    with open(to, "w", encoding="utf-8") as file:
        file.write(page(os.path.dirname(docs)))


if __name__ == "__main__":
    main()
